//! Small books with rows, as calls left them, and changes of single words.

use reference::book::Opening;
use reference::generate::books::{kept_book, word_case};
use reference::generate::lists::change_day;
use reference::generate::Rng;
use reference::history::History;
use reference::layout::ROUNDING_DIFFERENCE;

/// A well-formed book of a small size, with rows of open and closed days.
pub fn small_book(rng: &mut Rng) -> (Vec<i64>, History) {
    let first_day = first_day(rng);
    let opening = Opening {
        accounts: rng.pick(&[1, 1, 2, 2, 3, 5, 32]),
        lag: rng.pick(&[1, 1, 1, 2, 2, 3, 4]),
        horizon: rng.pick(&[1, 1, 2, 2, 3]),
        first_day,
        change_day: change_day(rng, first_day as i64),
    };
    let opening = match opening.accounts {
        32 => Opening {
            lag: 1,
            horizon: 1,
            ..opening
        },
        _ => opening,
    };
    let closes = rng.below(8);
    let ready = rng.percent(50);
    kept_book(rng, opening, closes, ready)
}

fn first_day(rng: &mut Rng) -> u64 {
    match rng.below(10) {
        0 => 9_497,
        1..=3 => 36_524 - rng.below(7) as u64,
        _ => rng.between(9_497, 36_524) as u64,
    }
}

/// A word to be changed, and what to.
#[derive(Clone, Copy, Debug)]
pub struct Change {
    pub index: usize,
    pub word: i64,
}

impl Change {
    /// A change to a value at or beside a bound, or to any word. The book is well formed.
    pub fn random(rng: &mut Rng, book: &[i64]) -> Change {
        let accounts = book[1] as usize;
        let index = match rng.below(10) {
            0 if rng.percent(50) => return Change::of_difference(rng, book),
            0 => rng.below(9),
            1 => rng.below(64 + 8 * accounts),
            2 | 3 => flag(rng, accounts, book.len()),
            _ => rng.below(book.len()),
        };
        let case = word_case(book, index);
        let word = match rng.below(8) {
            0..=2 if !case.fine.is_empty() => rng.pick(&case.fine),
            3 => book[index].wrapping_add(rng.pick(&[1, -1])),
            4 => rng.word(),
            _ => rng.pick(&case.off),
        };
        Change { index, word }
    }

    /// Word 8 at its bound or beside it, at that of a day or an account more or fewer, or between.
    fn of_difference(rng: &mut Rng, book: &[i64]) -> Change {
        let [_, accounts, _, _, first, next] = book[..6] else {
            unreachable!()
        };
        let bound = |accounts, days| 500 * accounts * days;
        let days = next - first;
        let its = bound(accounts, days);
        let other = rng.pick(&[
            bound(accounts, days + 1),
            bound(accounts, days - 1),
            bound(accounts + 1, days),
            bound(1, days),
        ]);
        let word = match rng.below(8) {
            0..=4 => rng.pick(&[its, -its]) + rng.between(-1, 1),
            5 => rng.pick(&[other, -other]) + rng.between(-1, 1),
            _ => rng.between(-its, its),
        };
        Change {
            index: ROUNDING_DIFFERENCE,
            word,
        }
    }

    /// A change after which the book is not well formed.
    pub fn off(rng: &mut Rng, book: &[i64]) -> Change {
        let index = match rng.below(3) {
            0 => rng.below(64 + 8 * book[1] as usize),
            _ => rng.below(book.len()),
        };
        let word = rng.pick(&word_case(book, index).off);
        Change { index, word }
    }

    pub fn make(self, book: &mut [i64]) {
        book[self.index] = self.word;
    }
}

/// The flag of some row at some interval.
fn flag(rng: &mut Rng, accounts: usize, words: usize) -> usize {
    let interval_words = 4 + 24 * accounts;
    let base = 64 + 8 * accounts;
    let interval = base + rng.below((words - base) / interval_words) * interval_words;
    match rng.below(4) {
        0 => interval + 1,
        row => interval + 4 + 24 * rng.below(accounts) + [0, 9, 18][row - 1],
    }
}
