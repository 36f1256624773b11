//! Lists of calls, each on the book as the last call left it: openings, submissions, revisions and closes, accepted and refused.

use super::tally::Tally;
use super::{both_close, same, same_words, told_by};
use crate::robijan::{self, Terms};
use reference::book::{open, size, Opening};
use reference::generate::lists::{change_day, list, list_on, long_list, Call, List};
use reference::generate::Rng;
use reference::submission::submit;

/// Lists until so many calls were made.
pub fn lists(rng: &mut Rng, cases: usize, tally: &mut Tally) -> Result<(), String> {
    let mut made = 0;
    for number in 0.. {
        if made >= cases {
            break;
        }
        let list = random_list(rng);
        run(rng, number, &list, &mut made, tally)?;
    }
    Ok(())
}

/// A list on a book of some size, the small ones most often.
pub fn random_list(rng: &mut Rng) -> List {
    let steps = 10 + rng.below(60);
    if rng.below(400) == 0 {
        // The largest book, and calls enough to close some days.
        let opening = opening(rng, &[32], &[75], &[92]);
        return list_on(rng, opening, 12);
    }
    match rng.below(20) {
        0 => {
            let opening = opening(rng, &[4, 8, 12], &[1, 5, 9], &[1, 4, 11]);
            list_on(rng, opening, steps)
        }
        1 => {
            let opening = opening(rng, &[32], &[1, 2], &[1, 2]);
            list_on(rng, opening, steps.min(20))
        }
        2 => {
            let opening = opening(rng, &[1, 2], &[7, 20, 75], &[1, 2, 31]);
            let days = 2 + opening.lag as usize + rng.below(20);
            long_list(rng, opening, days)
        }
        _ => list(rng),
    }
}

fn opening(rng: &mut Rng, accounts: &[u64], lags: &[u64], horizons: &[u64]) -> Opening {
    let first_day = match rng.below(4) {
        0 => 36_524 - rng.below(40) as i64,
        _ => rng.between(9_497, 36_400),
    };
    Opening {
        accounts: rng.pick(accounts),
        lag: rng.pick(lags),
        horizon: rng.pick(horizons),
        first_day: first_day as u64,
        change_day: change_day(rng, first_day),
    }
}

/// Makes the calls of a list on both implementations.
pub fn run(
    rng: &mut Rng,
    number: usize,
    list: &List,
    made: &mut usize,
    tally: &mut Tally,
) -> Result<(), String> {
    let Opening {
        accounts,
        lag,
        horizon,
        first_day,
        change_day,
    } = list.opening;
    let words = size(list.opening).unwrap_or(0) as usize + list.spare_words;
    let mut ours = rng.words(words);
    let mut theirs = ours.clone();
    let of_list = |call: &str| format!("list {number}, {:?}, {call}", list.opening);

    let terms = Terms {
        accounts: accounts as usize,
        lag: lag as usize,
        horizon: horizon as usize,
        first: first_day as usize,
        change: change_day as usize,
    };
    let told = robijan::open(&mut ours, terms);
    let answer = open(&mut theirs, list.opening);
    same(told, told_by(answer), || of_list("open"))?;
    same_words(&ours, &theirs, || of_list("open"))?;
    tally.add("open", told.number, told.position);
    *made += 1;

    for (at, call) in list.calls.iter().enumerate() {
        match call {
            Call::Submit { file, .. } => {
                let told = robijan::submit(&mut ours, file);
                let answer = submit(&mut theirs, file);
                let described = || of_list(&format!("call {at}, submit of {} bytes", file.len()));
                same(told, told_by(answer), described)?;
                same_words(&ours, &theirs, described)?;
                tally.add("submit", told.number, told.position);
            }
            Call::Close { statement_words } => {
                let statement = rng.words(*statement_words);
                let described = || of_list(&format!("call {at}, close"));
                let told = both_close(&mut ours, &mut theirs, &statement, described)?;
                let second = change_day != 0 && told.day >= change_day + lag;
                let kind = match (told.number, told.count, second) {
                    (0, 0, _) => "close without residuals",
                    (0, _, false) => "close with residuals, first edition",
                    (0, _, true) => "close with residuals, second edition",
                    _ => "close",
                };
                tally.add(kind, told.number, told.position);
            }
        }
        *made += 1;
    }
    Ok(())
}
