//! Books well formed and books with a single word off.

use super::files::{Draft, Style, STYLES};
use super::Rng;
use crate::book::{open, read_header, size, Opening};
use crate::close::close;
use crate::history::{History, Key};
use crate::layout::{
    ACCOUNT_WORDS, CHANGE_DAY, ENTRY_WORDS, ENTRY_ZERO, HEADER_WORDS, METER_FLAG, MSSL_BALANCE,
    NCC_FLAG, NCC_VALUE, NCC_WORDS, NEXT_DAY, RESIDUAL_FLAG, ROUNDING_DIFFERENCE, VESTING_FLAG,
};
use crate::submission::submit;
use crate::units::{IEQ, NCC_LOAD, PRICE, QUANTITY};
use crate::variant::Context;
use std::ops::RangeInclusive;

pub const DAY_BOUND: i64 = 4_800_000_000_000;

/// A book as the calls leave it after so many closes, some rows of open days
/// given; `ready` gives all that the next close needs.
pub fn kept_book(
    rng: &mut Rng,
    opening: Opening,
    closes: usize,
    ready: bool,
) -> (Vec<i64>, History) {
    let style = rng.pick(&STYLES);
    let mut book = opened_book(opening);
    let mut history = History::new(opening);
    for _ in 0..closes {
        feed(rng, style, &mut book, &mut history);
        let mut statement = vec![0; history.accounts() + 1];
        let answer = close(&mut book, &mut statement);
        history.closed(statement.len(), &answer);
    }
    let draft = Draft::random(rng, style, &history, 2);
    give(&mut book, &mut history, &draft);
    if ready {
        feed(rng, style, &mut book, &mut history);
    }
    (book, history)
}

pub fn opened_book(opening: Opening) -> Vec<i64> {
    let mut book = vec![-7; size(opening).unwrap_or(0) as usize];
    open(&mut book, opening);
    book
}

fn feed(rng: &mut Rng, style: Style, book: &mut [i64], history: &mut History) {
    if history.finished() {
        return;
    }
    let missing = history.needed().into_iter();
    let keys: Vec<Key> = missing.filter(|key| !history.is_in_force(key)).collect();
    let draft = Draft::of(rng, style, history.accounts(), &keys);
    give(book, history, &draft);
}

fn give(book: &mut [i64], history: &mut History, draft: &Draft) {
    let file = draft.bytes();
    let answer = submit(book, &file);
    history.submitted(&file, answer.number);
}

/// Values for one word of a well-formed book, the other words kept.
pub struct WordCase {
    /// Each makes the book not well formed.
    pub off: Vec<i64>,
    /// Each leaves it well formed.
    pub fine: Vec<i64>,
}

/// What one word of a well-formed book may and may not be.
pub fn word_case(book: &[i64], index: usize) -> WordCase {
    let Some(header) = read_header(Context::RIGHT, book) else {
        return off(&[]);
    };
    let layout = header.layout();
    let (first_day, next_day) = (header.first_day(), header.next_day());
    let bound = (next_day - first_day) * DAY_BOUND;
    if index < HEADER_WORDS {
        let accounts = layout.accounts() as i64;
        let mssl_bound = bound * accounts;
        return match index {
            0 => off(&[394, 396, 0, -395]),
            1 => off(&[0, 33, -1, i64::MIN, i64::MAX]),
            2 => off(&[0, 76, -1, i64::MIN, i64::MAX]),
            3 => off(&[0, 93, -1, i64::MIN, i64::MAX]),
            4 => off(&[9_496, 36_525, next_day + 1, 0, i64::MIN, i64::MAX]),
            NEXT_DAY => off(&[first_day - 1, 36_526, 0, i64::MIN, i64::MAX]),
            MSSL_BALANCE => within(-mssl_bound..=mssl_bound),
            CHANGE_DAY => change_day_case(),
            ROUNDING_DIFFERENCE => difference_case(500 * accounts * (next_day - first_day)),
            _ => zero(),
        };
    }
    if index < layout.first_interval_at() {
        return if (index - HEADER_WORDS).is_multiple_of(ACCOUNT_WORDS) {
            within(-bound..=bound)
        } else {
            zero()
        };
    }

    let within_slots = index - layout.first_interval_at();
    let slot = within_slots / layout.slot_words();
    let Opening { lag, horizon, .. } = header.opening();
    let oldest = first_day.max(next_day - lag as i64);
    let newest = 36_524.min(next_day + horizon as i64 - 1);
    let Some(day) = (oldest..=newest).find(|&day| layout.slot(day) == slot) else {
        return zero();
    };
    let within_interval = within_slots % layout.interval_words();
    if within_interval < NCC_WORDS {
        let ncc = &book[index - within_interval..][..NCC_WORDS];
        return match within_interval {
            NCC_VALUE if ncc[NCC_FLAG] == 1 => within(NCC_LOAD),
            NCC_FLAG if ncc[NCC_VALUE] != 0 => off(&[0, 2, -1]),
            NCC_FLAG => WordCase {
                off: vec![2, -1],
                fine: vec![0, 1],
            },
            _ => zero(),
        };
    }
    let word = (within_interval - NCC_WORDS) % ENTRY_WORDS;
    let entry = &book[index - word..][..ENTRY_WORDS];
    let closed = day < next_day;
    let (group, needed, most, ranges) = match word {
        VESTING_FLAG..METER_FLAG => (VESTING_FLAG..METER_FLAG, closed, 4, &[QUANTITY, PRICE][..]),
        METER_FLAG..RESIDUAL_FLAG => (METER_FLAG..RESIDUAL_FLAG, closed, 4, &[PRICE, IEQ][..]),
        RESIDUAL_FLAG..ENTRY_ZERO => {
            let ranges = &[QUANTITY, QUANTITY, PRICE, PRICE][..];
            (RESIDUAL_FLAG..ENTRY_ZERO, false, 1, ranges)
        }
        _ => return zero(),
    };
    group_case(
        &entry[group.clone()],
        word - group.start,
        needed,
        most,
        ranges,
    )
}

/// A word of a group of a flag and, `most` times, values of these ranges.
fn group_case(
    group: &[i64],
    word: usize,
    needed: bool,
    most: i64,
    ranges: &[RangeInclusive<i64>],
) -> WordCase {
    let width = ranges.len();
    if word > 0 {
        let used = group[0] as usize * width;
        return if word <= used {
            within(ranges[(word - 1) % width].clone())
        } else {
            zero()
        };
    }
    // A flag may be any count that covers the values which are not zero.
    let last = (1..group.len()).rev().find(|&word| group[word] != 0);
    let least = last
        .map_or(0, |last| last.div_ceil(width) as i64)
        .max(i64::from(needed));
    let mut case = WordCase {
        off: vec![-1, most + 1, i64::MIN, i64::MAX],
        fine: (least..=most).collect(),
    };
    case.off.extend(0..least);
    case
}

/// X in word 7, of any book.
pub fn change_day_case() -> WordCase {
    WordCase {
        off: vec![
            1,
            -1,
            9_496,
            36_525,
            -9_497,
            65_536 + 9_497,
            (1 << 32) + 9_497,
            i64::MIN,
            i64::MAX,
        ],
        fine: vec![0, 9_497, 9_498, 20_000, 36_523, 36_524],
    }
}

/// Word 8, of a book with this bound.
pub fn difference_case(bound: i64) -> WordCase {
    within(-bound..=bound)
}

pub(crate) fn off(values: &[i64]) -> WordCase {
    WordCase {
        off: values.to_vec(),
        fine: vec![],
    }
}

fn zero() -> WordCase {
    off(&[1, -1, i64::MIN, i64::MAX])
}

fn within(range: RangeInclusive<i64>) -> WordCase {
    WordCase {
        off: vec![range.start() - 1, range.end() + 1, i64::MIN, i64::MAX],
        fine: vec![*range.start(), *range.end()],
    }
}
