//! The book: its opening, size and header, and the judge of its form.

use crate::edition::NEVER;
use crate::layout::{
    Layout, ACCOUNT_WORDS, CHANGE_DAY, ENTRY_WORDS, HEADER_WORDS, METER_FLAG, MSSL_BALANCE,
    NCC_FLAG, NCC_VALUE, NCC_WORDS, NEXT_DAY, RESIDUAL_FLAG, ROUNDING_DIFFERENCE, VESTING_FLAG,
};
use crate::numbers::{Answer, BAD_PARAMETER, TOO_FEW_WORDS};
use crate::units::{IEQ, LAST_DAY, MOST_ACCOUNTS, NCC_LOAD, PRICE, QUANTITY};
use crate::variant::{Context, Variant};
use crate::wrong_difference::{difference_meets, word_opened};
use crate::wrong_edition::{change_day_meets, change_day_opened};
use std::ops::RangeInclusive;

pub const MAGIC: i64 = 395;
pub const MOST_SLOTS: usize = 75 + 92;

const ACCOUNTS: RangeInclusive<u64> = 1..=MOST_ACCOUNTS as u64;
const LAG: RangeInclusive<u64> = 1..=75;
const HORIZON: RangeInclusive<u64> = 1..=92;
const FIRST_DAY: RangeInclusive<u64> = 9_497..=LAST_DAY as u64;

/// The most that one account's day can come to, in cents.
const DAY_BOUND: i64 = 4_800_000_000_000;

/// The arguments of an opening, in range or not.
#[derive(Clone, Copy, Debug, PartialEq, Eq)]
pub struct Opening {
    /// N.
    pub accounts: u64,
    /// L.
    pub lag: u64,
    /// H.
    pub horizon: u64,
    /// F.
    pub first_day: u64,
    /// X, from which on residual days have the second edition of the share; 0
    /// for never.
    pub change_day: u64,
}

impl Opening {
    /// N = L = H = 1 and the first edition for good. Cases name what differs from
    /// it.
    pub const fn smallest(first_day: u64) -> Opening {
        Opening {
            accounts: 1,
            lag: 1,
            horizon: 1,
            first_day,
            change_day: NEVER,
        }
    }

    /// Whether there is a layout: the first day and the change day have no part
    /// in it.
    pub(crate) fn has_layout(&self) -> bool {
        ACCOUNTS.contains(&self.accounts)
            && LAG.contains(&self.lag)
            && HORIZON.contains(&self.horizon)
    }

    /// Whether all but the change day is in range.
    fn in_range(&self) -> bool {
        self.has_layout() && FIRST_DAY.contains(&self.first_day)
    }
}

/// The size in words, where accounts, lag and horizon are in range.
pub fn size(opening: Opening) -> Option<u64> {
    Layout::of(opening).map(|layout| layout.size() as u64)
}

/// Opens a book: writes every word of its size.
pub fn open(book: &mut [i64], opening: Opening) -> Answer {
    open_in(Context::RIGHT, book, opening)
}

pub fn open_in(context: Context, book: &mut [i64], opening: Opening) -> Answer {
    let change_day = change_day_opened(context, &opening);
    let refused = !opening.in_range()
        || (change_day.is_none() && !context.is(Variant::SizeBeforeChangeDay))
        || context.is(Variant::RefusesEverything);
    let layout = match Layout::of(opening) {
        Some(layout) if !refused => layout,
        _ => return Answer::at(BAD_PARAMETER, 0),
    };
    let Some(book) = book.get_mut(..layout.size()) else {
        return Answer::at(TOO_FEW_WORDS, 0);
    };
    // One that is refused gets here by a slip alone.
    let Some(change_day) = change_day else {
        return Answer::at(BAD_PARAMETER, 0);
    };
    let difference = word_opened(context, book[ROUNDING_DIFFERENCE]);
    book.fill(0);
    let Opening {
        accounts,
        lag,
        horizon,
        first_day,
        change_day: _,
    } = opening;
    let header = [accounts, lag, horizon, first_day, first_day].map(|word| word as i64);
    book[0] = MAGIC;
    book[1..=NEXT_DAY].copy_from_slice(&header);
    book[CHANGE_DAY] = change_day as i64;
    book[ROUNDING_DIFFERENCE] = difference;
    Answer::ACCEPTED
}

/// What the header of a book says, all of it in range.
#[derive(Clone, Copy, Debug, PartialEq, Eq)]
pub struct Header {
    opening: Opening,
    layout: Layout,
    next_day: i64,
}

impl Header {
    pub fn opening(&self) -> Opening {
        self.opening
    }

    pub fn layout(&self) -> &Layout {
        &self.layout
    }

    pub fn accounts(&self) -> usize {
        self.layout.accounts()
    }

    pub fn first_day(&self) -> i64 {
        self.opening.first_day as i64
    }

    /// X.
    pub fn change_day(&self) -> u64 {
        self.opening.change_day
    }

    /// The next day to close, C.
    pub fn next_day(&self) -> i64 {
        self.next_day
    }

    /// How many days are closed, C − F.
    pub(crate) fn closed_days(&self) -> i64 {
        self.next_day - self.first_day()
    }

    /// The day r that the next close settles residuals of, if the book has it.
    pub(crate) fn residual_day(&self) -> Option<i64> {
        let day = self.next_day - self.opening.lag as i64;
        (day >= self.first_day()).then_some(day)
    }

    /// The days that the book holds.
    pub(crate) fn window(&self) -> RangeInclusive<i64> {
        let oldest = self
            .first_day()
            .max(self.next_day - self.opening.lag as i64);
        oldest..=LAST_DAY.min(self.next_day + self.opening.horizon as i64 - 1)
    }

    /// The day of the window whose slot this is.
    fn day_of_slot(&self, slot: usize) -> Option<i64> {
        let (window, slots) = (self.window(), self.layout.slots());
        let oldest = self.layout.slot(*window.start());
        let later = (slot + slots - oldest) % slots;
        let day = window.start() + later as i64;
        window.contains(&day).then_some(day)
    }
}

pub fn well_formed(book: &[i64]) -> bool {
    judge(book).is_some()
}

/// The judge: the book's header, if the book is well formed.
pub fn judge(book: &[i64]) -> Option<Header> {
    judge_in(Context::RIGHT, book)
}

pub(crate) fn judge_in(context: Context, book: &[i64]) -> Option<Header> {
    let header = read_header(context, book)?;
    let layout = header.layout();
    let book = book.get(..layout.size())?;
    let (before, slots) = book.split_at(layout.first_interval_at());

    let bound = header.closed_days() * DAY_BOUND;
    let accounts_meet = before[HEADER_WORDS..]
        .chunks_exact(ACCOUNT_WORDS)
        .all(|words| (-bound..=bound).contains(&words[0]) && blank(&words[1..]));
    let mssl_bound = bound * layout.accounts() as i64;
    let mssl_meets = (-mssl_bound..=mssl_bound).contains(&before[MSSL_BALANCE]);
    let difference_meets = difference_meets(context, &header, before[ROUNDING_DIFFERENCE]);
    if !accounts_meet || !mssl_meets || !difference_meets {
        return None;
    }

    let mut slots = slots.chunks_exact(layout.slot_words()).enumerate();
    let slots_meet = slots.all(|(slot, words)| match header.day_of_slot(slot) {
        None => blank(words),
        Some(day) => {
            let closed = day < header.next_day;
            let mut intervals = words.chunks_exact(layout.interval_words());
            intervals.all(|interval| interval_meets(interval, closed))
        }
    });
    slots_meet.then_some(header)
}

/// The header, if it meets its rules but for the balance and the rounding
/// difference.
pub(crate) fn read_header(context: Context, book: &[i64]) -> Option<Header> {
    let header: &[i64; HEADER_WORDS] = book.first_chunk()?;
    let [magic, accounts, lag, horizon, first_day, next_day, _, change_day, _, zeros @ ..] = header;
    let unjudged = usize::from(context.is(Variant::Word9Unjudged));
    let opening = Opening {
        accounts: u64::try_from(*accounts).ok()?,
        lag: u64::try_from(*lag).ok()?,
        horizon: u64::try_from(*horizon).ok()?,
        first_day: u64::try_from(*first_day).ok()?,
        // A negative one is far out of range.
        change_day: *change_day as u64,
    };
    let layout = Layout::of(opening)?;
    let header = Header {
        opening,
        layout,
        next_day: *next_day,
    };
    let meets = *magic == MAGIC
        && opening.in_range()
        && (*first_day..=LAST_DAY + 1).contains(next_day)
        && change_day_meets(context, &header)
        && blank(&zeros[unjudged..]);
    meets.then_some(header)
}

fn interval_meets(words: &[i64], closed: bool) -> bool {
    let (ncc, entries) = words.split_at(NCC_WORDS);
    let ncc_meets = match ncc[NCC_FLAG] {
        0 => ncc[NCC_VALUE] == 0,
        1 => NCC_LOAD.contains(&ncc[NCC_VALUE]),
        _ => false,
    };
    ncc_meets
        && blank(&ncc[2..])
        && entries
            .chunks_exact(ENTRY_WORDS)
            .all(|entry| entry_meets(entry, closed))
}

/// A closed day has its vesting and meter rows.
fn entry_meets(entry: &[i64], closed: bool) -> bool {
    let vesting = &entry[VESTING_FLAG..METER_FLAG];
    let meter = &entry[METER_FLAG..RESIDUAL_FLAG];
    let residual = &entry[RESIDUAL_FLAG..];
    !(closed && (vesting[0] == 0 || meter[0] == 0))
        && pairs_meet(vesting, QUANTITY, PRICE)
        && pairs_meet(meter, PRICE, IEQ)
        && residual_meets(residual)
}

/// A flag from 0 to 4 counts the pairs in use; the others are zero.
fn pairs_meet(words: &[i64], first: RangeInclusive<i64>, second: RangeInclusive<i64>) -> bool {
    let (flag, pairs) = (words[0], &words[1..]);
    if !(0..=4).contains(&flag) {
        return false;
    }
    let (used, unused) = pairs.split_at(2 * flag as usize);
    let mut used = used.chunks_exact(2);
    used.all(|pair| first.contains(&pair[0]) && second.contains(&pair[1])) && blank(unused)
}

fn residual_meets(words: &[i64]) -> bool {
    match words[0] {
        0 => blank(&words[1..]),
        1 => {
            QUANTITY.contains(&words[1])
                && QUANTITY.contains(&words[2])
                && PRICE.contains(&words[3])
                && PRICE.contains(&words[4])
                && words[5] == 0
        }
        _ => false,
    }
}

fn blank(words: &[i64]) -> bool {
    words.iter().all(|&word| word == 0)
}
