//! Measurements as tables in Markdown.

use crate::measures::{Grown, Measured};
use crate::timing::{Spread, Times};

/// One column for each number of accounts; a call that only some of the books take is left out of the other columns.
pub fn by_accounts(accounts: &[usize], columns: &[Vec<Measured>]) {
    print!("| Call |");
    for (n, column) in accounts.iter().zip(columns) {
        let megabytes = column[0].bytes as f64 / 1e6;
        print!(
            " {n} account{}, {megabytes:.1} MB |",
            if *n == 1 { "" } else { "s" }
        );
    }
    println!("\n|---|{}", "---|".repeat(columns.len()));
    let longest = columns.iter().max_by_key(|column| column.len());
    for row in longest.into_iter().flatten() {
        print!("| {} |", row.name);
        for column in columns {
            match column.iter().find(|cell| cell.name == row.name) {
                Some(cell) => print!(" {} |", told(cell)),
                None => print!(" (too few open days) |"),
            }
        }
        println!();
    }
}

/// One line for each call, with both times.
pub fn plain(rows: &[Measured]) {
    println!("| Call | ratio | Robijan | reference |\n|---|---|---|---|");
    for row in rows {
        let (ours, theirs) = (&row.ours, &row.others[0].1);
        println!(
            "| {} | {} | {} ms | {} ms |",
            row.name,
            ratio(ours.over(theirs)),
            milliseconds(ours),
            milliseconds(theirs)
        );
    }
}

pub fn growth(rows: &[Grown]) {
    println!("| Accounts, horizon | Words | judge | a word | close, residuals due | a word |\n|---|---|---|---|---|---|");
    for row in rows {
        let by_word = |seconds: f64| seconds * 1e9 / row.words as f64;
        println!(
            "| {}, {} | {} | {:.3} ms | {:.2} ns | {:.3} ms | {:.2} ns |",
            row.accounts,
            row.horizon,
            row.words,
            row.judge * 1e3,
            by_word(row.judge),
            row.close * 1e3,
            by_word(row.close)
        );
    }
}

/// The ratio to the second implementation, the time and speed, and the others beside.
fn told(cell: &Measured) -> String {
    let speed = |times: &Times| cell.bytes as f64 / times.median() / 1e9;
    let mut text = String::new();
    for (name, times) in &cell.others {
        match *name {
            "reference" => {
                text += &format!(
                    "{}; {} ms, {:.1} GB/s",
                    ratio(cell.ours.over(times)),
                    milliseconds(&cell.ours),
                    speed(&cell.ours)
                )
            }
            "copy" => text += &format!("; copy {:.1}", speed(times)),
            _ => text += &format!("; {name} {}", spread(cell.ours.over(times))),
        }
    }
    text
}

fn ratio(spread: Spread) -> String {
    format!(
        "**{:.2}** ({:.2} to {:.2})",
        spread.median, spread.low, spread.high
    )
}

fn spread(spread: Spread) -> String {
    format!(
        "{:.2} ({:.2} to {:.2})",
        spread.median, spread.low, spread.high
    )
}

/// Three figures of the median.
fn milliseconds(times: &Times) -> String {
    let median = times.median() * 1e3;
    match median {
        m if m >= 1.0 => format!("{m:.2}"),
        m if m >= 0.01 => format!("{m:.3}"),
        m => format!("{m:.4}"),
    }
}
