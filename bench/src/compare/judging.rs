//! Books opened, and books judged.

use super::books::{small_book, Change};
use super::tally::Tally;
use super::{same, same_words, told_by};
use crate::plain;
use crate::robijan::{self, Terms};
use reference::book::{open as reference_open, size, well_formed, Opening};
use reference::generate::Rng;
use reference::numbers::BAD_PARAMETER;

/// Cases for each book made.
const CASES_A_BOOK: usize = 100;

/// Books with up to three words changed, some of them cut or lengthened.
pub fn judge(rng: &mut Rng, cases: usize, tally: &mut Tally) -> Result<(), String> {
    let mut book = Vec::new();
    for case in 0..cases {
        if case % CASES_A_BOOK == 0 {
            book = small_book(rng).0;
        }
        let changes = changes(rng, &book);
        let mut words = book.clone();
        for change in &changes {
            change.make(&mut words);
        }
        let kind = lend(rng, &mut words, changes.len());
        let number = robijan::judge(&words);
        let told = |accepted: bool| if accepted { 0 } else { 3 };
        let described = || {
            let header = &book[..6];
            format!(
                "case {case}: book {header:?}, {} words lent, {changes:?}",
                words.len()
            )
        };
        same(number, told(well_formed(&words)), described)?;
        same(number, told(plain::well_formed(&words)), described)?;
        tally.add(kind, number, 0);
    }
    Ok(())
}

fn changes(rng: &mut Rng, book: &[i64]) -> Vec<Change> {
    let count = rng.pick(&[0, 1, 1, 1, 1, 1, 2, 2, 2, 3]);
    (0..count).map(|_| Change::random(rng, book)).collect()
}

/// Cuts or lengthens some books; tells the kind of case.
fn lend(rng: &mut Rng, words: &mut Vec<i64>, changes: usize) -> &'static str {
    match rng.below(20) {
        0 => {
            let length = match rng.below(3) {
                0 => words.len() - 1,
                1 => rng.below(words.len()),
                _ => rng.pick(&[0, 1, 5, 63, 64, 65]),
            };
            words.truncate(length);
            "cut"
        }
        1 => {
            let more = 1 + rng.below(40);
            words.extend(rng.words(more));
            "lengthened"
        }
        _ => [
            "unchanged",
            "1 word changed",
            "2 words changed",
            "3 words changed",
        ][changes],
    }
}

/// Openings of small books, with parameters in range and out of it, in as many words as the size or some more or fewer.
pub fn open(rng: &mut Rng, cases: usize, tally: &mut Tally) -> Result<(), String> {
    for case in 0..cases {
        let mut terms = [
            rng.between(1, 4),
            rng.between(1, 3),
            rng.between(1, 3),
            rng.pick(&[9_497, 9_498, 20_000, 36_523, 36_524]),
            rng.pick(&[0, 0, 9_497, 9_498, 20_000, 36_523, 36_524]),
        ];
        if rng.percent(50) {
            let bound = rng.pick(&[0, 1, 32, 33, 75, 76, 92, 93, 9_496, 36_525]);
            let other = rng.word();
            terms[rng.below(5)] = rng.pick(&[bound, bound, other]);
        }
        let [accounts, lag, horizon, first, change] = terms.map(|term| term as u64);
        let opening = Opening {
            accounts,
            lag,
            horizon,
            first_day: first,
            change_day: change,
        };
        let needed = size(opening).unwrap_or(100) as usize;
        let length = match rng.below(4) {
            0 => needed + rng.below(5),
            1 => needed - rng.below(5),
            2 => rng.below(needed),
            _ => needed,
        };
        let mut ours = vec![-7; length];
        let mut theirs = ours.clone();
        let described = || format!("case {case}: {length} words, terms {terms:?}");
        let lent = Terms {
            accounts: accounts as usize,
            lag: lag as usize,
            horizon: horizon as usize,
            first: first as usize,
            change: change as usize,
        };
        let told = robijan::open(&mut ours, lent);
        let answer = reference_open(&mut theirs, opening);
        same(told, told_by(answer), described)?;
        same_words(&ours, &theirs, described)?;
        let told_size = robijan::book_size(lent);
        let expected = match size(opening) {
            Some(words) if answer.number != BAD_PARAMETER => (0, words),
            _ => (1, 0),
        };
        same((told_size.number, told_size.words), expected, described)?;
        tally.add("openings", told.number, told.position);
    }
    Ok(())
}
