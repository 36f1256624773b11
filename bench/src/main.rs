//! The benchmark's tables, in Markdown: the page docs/BENCHMARKS.md is what `bench/run` prints, which puts a heading before them. Words: which
//! parts to run, of `books`, `small`, `none` and `growth`; all without a word.

use bench::large::{self, Rows, Sections, Terms, FIRST_DAY};
use bench::measures::{self, Measured};
use bench::tables;
use reference::generate::Rng;

/// A part of the benchmark.
type Part = fn(&mut Rng);

const PARTS: [(&str, Part); 4] = [
    ("books", books),
    ("small", small),
    ("none", no_book),
    ("growth", growth),
];

fn main() {
    let wanted: Vec<String> = std::env::args().skip(1).collect();
    for (name, part) in PARTS {
        if wanted.is_empty() || wanted.iter().any(|word| word == name) {
            part(&mut Rng::new(395));
        }
    }
}

/// Every call on books of the longest lag and horizon.
fn books(rng: &mut Rng) {
    let all = [1, 8, 32].map(|accounts| calls(rng, Terms::longest(accounts)));
    println!("\n## Lag 75, horizon 92\n");
    tables::by_accounts(&[1, 8, 32], &all);
}

/// Calls in which the judge's pass over the book counts for less.
fn small(rng: &mut Rng) {
    let terms = |accounts| Terms::unchanging(accounts, 1, 1);
    let book = large::book(rng, terms(2), Rows::None);
    let sections = Sections::next(&book, 1, 1, 1);
    let mut rows = vec![measures::submission(
        "submit one row a section, 2 accounts",
        &book,
        rng,
        sections,
    )];
    rows.extend(closes(rng, terms(32), ", random counts, 32 accounts"));
    println!("\n## Small books: lag and horizon 1\n");
    tables::plain(&rows);
}

/// Calls that hold no book.
fn no_book(rng: &mut Rng) {
    let mut rows: Vec<Measured> = [1, 8, 32]
        .into_iter()
        .flat_map(|accounts| measures::sharing(rng, accounts))
        .collect();
    rows.extend(measures::days(rng, 500));
    rows.extend(measures::profiles(rng));
    for amounts in [33, 3] {
        rows.extend(measures::packed(rng, amounts));
    }
    rows.push(measures::any_packed(rng));
    println!("\n## No book: 1,000 calls\n");
    tables::plain(&rows);
}

/// How judge and close grow with accounts and horizon.
fn growth(rng: &mut Rng) {
    let terms = |accounts, horizon| Terms::unchanging(accounts, 75, horizon);
    let accounts = [1, 2, 4, 8, 16, 32].map(|accounts| terms(accounts, 92));
    let horizons = [1, 12, 23, 46].map(|horizon| terms(32, horizon));
    println!("\n## Growth: every row, random counts, lag 75, the fastest round\n");
    tables::growth(&measures::growth(rng, &[&accounts[..], &horizons].concat()));
}

/// Every call on books of these terms.
fn calls(rng: &mut Rng, terms: Terms) -> Vec<Measured> {
    let mut rows = Vec::new();
    for (name, filled) in [
        ("judge, every row, all pairs used", Rows::Full),
        ("judge, every row, random counts", Rows::Mixed),
        ("judge, rows of the closed days alone", Rows::Closed),
        ("judge, no rows", Rows::None),
    ] {
        rows.push(measures::judge(name, &large::book(rng, terms, filled)));
    }
    rows.push(measures::opening("open", terms));
    let (n, book) = (terms.accounts, &large::book(rng, terms, Rows::Mixed)[..]);
    for (name, contracts, residuals, loads) in [
        ("submit a revision, one row a section", 1, 1, 1),
        ("submit every row of 30 days", 30 * n, 30 * n, 30),
    ] {
        let sections = Sections::next(book, contracts, residuals, loads);
        rows.push(measures::submission(name, book, rng, sections));
    }
    if 92 * n >= 2_500 {
        let sections = Sections::next(book, 2_500, 0, 0);
        rows.push(measures::submission(
            "submit 5,000 rows",
            book,
            rng,
            sections,
        ));
    }
    rows.push(measures::closing(
        "close, residuals due, all pairs used",
        &large::book(rng, terms, Rows::Full),
    ));
    rows.extend(closes(rng, terms, ", random counts"));
    rows
}

/// Closes of books of these terms: by the first edition, by the second, and of the first day, which settles no residual.
fn closes(rng: &mut Rng, terms: Terms, of: &str) -> Vec<Measured> {
    [
        ("residuals due", terms, Rows::Mixed),
        (
            "residuals due of the second edition",
            terms.changing(FIRST_DAY),
            Rows::Mixed,
        ),
        ("no residual due", terms, Rows::Open),
    ]
    .map(|(name, terms, filled)| {
        let book = large::book(rng, terms, filled);
        measures::closing(&format!("close, {name}{of}"), &book)
    })
    .into()
}
