//! Openings: the ends of each parameter's range, and every size that fits.

use super::Script;
use crate::book::{size, Opening};
use crate::frames::{Frame, BOOK_WORDS};

const GOOD: Opening = Opening {
    accounts: 2,
    ..Opening::smallest(9_497)
};

/// An opening that is good but for one parameter.
type Changed = fn(u64) -> Opening;

/// Each parameter, with the ends of its range.
const PARAMETERS: [(Changed, (u64, u64)); 4] = [
    (|accounts| Opening { accounts, ..GOOD }, (1, 32)),
    (|lag| Opening { lag, ..GOOD }, (1, 75)),
    (|horizon| Opening { horizon, ..GOOD }, (1, 92)),
    (|first_day| Opening { first_day, ..GOOD }, (9_497, 36_524)),
];

pub(super) fn write(script: &mut Script) {
    parameters(script);
    sizes(script);
    // What no length makes up for, and a book larger than is lent.
    for (accounts, first_day) in [(32, 9_497), (5, 36_524), (33, 9_497)] {
        let opening = Opening {
            accounts,
            lag: 75,
            horizon: 92,
            ..Opening::smallest(first_day)
        };
        let lent = BOOK_WORDS;
        script.push(Frame::Open { lent, opening });
    }
}

/// One parameter at a time at and beyond the ends of its range, the words
/// enough or not.
fn parameters(script: &mut Script) {
    for (changed, (low, high)) in PARAMETERS {
        for value in [
            low - 1,
            low,
            high,
            high + 1,
            0,
            high + (1 << 32),
            1 << 63,
            u64::MAX,
        ] {
            let opening = changed(value);
            let size = size(opening).unwrap_or(5_072) as usize;
            for lent in [size, size - 1, 0] {
                script.push(Frame::Open { lent, opening });
            }
        }
    }
}

/// Books of many sizes, over words that others left, with a word too few, just
/// enough, and some beyond.
fn sizes(script: &mut Script) {
    for turn in 0..150 {
        let rng = &mut script.rng;
        let most = if turn < 10 { 60 } else { 6 };
        let opening = Opening {
            accounts: rng.between(1, if turn % 3 == 0 { 32 } else { 4 }) as u64,
            lag: rng.between(1, 75.min(most)) as u64,
            horizon: rng.between(1, 92.min(most)) as u64,
            ..Opening::smallest(rng.between(9_497, 36_524) as u64)
        };
        let size = size(opening).unwrap_or(0) as usize;
        if size + 9 > BOOK_WORDS || (turn >= 10 && size > 60_000) {
            continue;
        }
        let beyond = size + rng.below(9);
        let word = rng.word();
        let index = rng.below(size + 9);
        script.poke(index, word);
        let lent = script.rng.pick(&[size, size, size - 1, beyond, beyond, 63]);
        script.push(Frame::Open { lent, opening });
    }
}
