//! Where the words of a book stand.
//!
//! All of the crate finds its words here but `history`, which lays a book out
//! by itself to check it.

use crate::book::Opening;
use crate::units::INTERVALS;
use std::ops::Range;

/// The header: what the book was opened with, the next day to close, the
/// MSSL's balance and its rounding difference.
pub const HEADER_WORDS: usize = 64;
pub const NEXT_DAY: usize = 5;
pub const MSSL_BALANCE: usize = 6;
pub const CHANGE_DAY: usize = 7;
pub const ROUNDING_DIFFERENCE: usize = 8;

/// An account's words outside the slots: its balance, then zeros.
pub const ACCOUNT_WORDS: usize = 8;

/// Words of an interval before its entries.
pub const NCC_WORDS: usize = 4;
/// Words of an entry, one account's part of an interval: three groups, each
/// after its flag, and a zero.
pub const ENTRY_WORDS: usize = 24;

/// Within an interval.
pub(crate) const NCC_VALUE: usize = 0;
pub(crate) const NCC_FLAG: usize = 1;

/// Within an entry.
pub(crate) const VESTING_FLAG: usize = 0;
pub(crate) const METER_FLAG: usize = 9;
pub(crate) const RESIDUAL_FLAG: usize = 18;
pub(crate) const ENTRY_ZERO: usize = 23;

/// The layout of a book. Days are counted as everywhere, accounts, intervals
/// and slots from 0; what stands where is an index into the book.
#[derive(Clone, Copy, Debug, PartialEq, Eq)]
pub struct Layout {
    accounts: usize,
    slots: usize,
    first_day: i64,
}

impl Layout {
    /// The layout of the book of an opening whose accounts, lag and horizon
    /// are in range. The first day says which slot a day has, and is not
    /// judged; the change day has no part in it.
    pub fn of(opening: Opening) -> Option<Layout> {
        opening.has_layout().then(|| Layout {
            accounts: opening.accounts as usize,
            slots: (opening.lag + opening.horizon) as usize,
            first_day: opening.first_day as i64,
        })
    }

    pub fn accounts(&self) -> usize {
        self.accounts
    }

    /// How many days the book has room for.
    pub fn slots(&self) -> usize {
        self.slots
    }

    pub fn size(&self) -> usize {
        self.first_interval_at() + self.slots * self.slot_words()
    }

    pub fn slot_words(&self) -> usize {
        INTERVALS * self.interval_words()
    }

    pub fn interval_words(&self) -> usize {
        NCC_WORDS + ENTRY_WORDS * self.accounts
    }

    /// An account's balance; the MSSL's is at `MSSL_BALANCE`.
    pub fn balance_at(&self, account: usize) -> usize {
        HEADER_WORDS + ACCOUNT_WORDS * account
    }

    /// The first interval of the first slot, after the accounts' words.
    pub fn first_interval_at(&self) -> usize {
        HEADER_WORDS + ACCOUNT_WORDS * self.accounts
    }

    /// The number of a day's slot, the day not being before the first.
    pub fn slot(&self, day: i64) -> usize {
        day.wrapping_sub(self.first_day) as usize % self.slots
    }

    /// The words of a day's slot.
    pub fn slot_range(&self, day: i64) -> Range<usize> {
        let start = self.first_interval_at() + self.slot(day) * self.slot_words();
        start..start + self.slot_words()
    }

    pub fn interval_at(&self, day: i64, interval: usize) -> usize {
        self.slot_range(day).start + interval * self.interval_words()
    }

    pub fn ncc_load_at(&self, day: i64, interval: usize) -> usize {
        self.interval_at(day, interval) + NCC_VALUE
    }

    pub fn ncc_flag_at(&self, day: i64, interval: usize) -> usize {
        self.interval_at(day, interval) + NCC_FLAG
    }

    /// An account's entry in an interval.
    pub fn entry_at(&self, day: i64, interval: usize, account: usize) -> usize {
        self.interval_at(day, interval) + NCC_WORDS + ENTRY_WORDS * account
    }

    /// The flag before BVQ, BVP and the TVQ and TVP pairs.
    pub fn vesting_flag_at(&self, day: i64, interval: usize, account: usize) -> usize {
        self.entry_at(day, interval, account) + VESTING_FLAG
    }

    /// The flag before the MEP and IEQ pairs.
    pub fn meter_flag_at(&self, day: i64, interval: usize, account: usize) -> usize {
        self.entry_at(day, interval, account) + METER_FLAG
    }

    /// The flag before UEGQ, MQ, RVP1 and RVP2.
    pub fn residual_flag_at(&self, day: i64, interval: usize, account: usize) -> usize {
        self.entry_at(day, interval, account) + RESIDUAL_FLAG
    }

    /// The intervals of a day, one after another.
    pub fn intervals<'a>(&self, book: &'a [i64], day: i64) -> impl Iterator<Item = Interval<'a>> {
        let slot = &book[self.slot_range(day)];
        slot.chunks_exact(self.interval_words()).map(Interval)
    }
}

/// One interval's words.
#[derive(Clone, Copy)]
pub struct Interval<'a>(&'a [i64]);

impl<'a> Interval<'a> {
    pub(crate) fn ncc_load(self) -> i64 {
        self.0[NCC_VALUE]
    }

    /// The entries, accounts ascending.
    pub(crate) fn entries(self) -> impl Iterator<Item = Entry<'a>> {
        let (entries, _) = self.0[NCC_WORDS..].as_chunks();
        entries.iter().map(Entry)
    }
}

/// One account's words of one interval.
#[derive(Clone, Copy)]
pub(crate) struct Entry<'a>(&'a [i64; ENTRY_WORDS]);

impl<'a> Entry<'a> {
    pub(crate) fn bvq(self) -> i64 {
        self.0[VESTING_FLAG + 1]
    }

    /// How many TVQ there are.
    pub(crate) fn tranches(self) -> usize {
        (self.0[VESTING_FLAG] as usize).saturating_sub(1)
    }

    /// The quantity that a round of a report reads: BVQ in round 0, then a TVQ in
    /// each of rounds 1 to 3.
    pub(crate) fn hedged(self, round: usize) -> i64 {
        self.0[VESTING_FLAG + 1 + 2 * round]
    }

    /// BVQ with BVP, then each TVQ with its TVP; none if absent.
    pub(crate) fn hedges(self) -> impl Iterator<Item = (i64, i64)> + 'a {
        pairs(&self.0[VESTING_FLAG..METER_FLAG])
    }

    /// Each MEP with its IEQ; none if absent.
    pub(crate) fn facilities(self) -> impl Iterator<Item = (i64, i64)> + 'a {
        pairs(&self.0[METER_FLAG..RESIDUAL_FLAG])
    }

    pub(crate) fn uegq(self) -> i64 {
        self.0[RESIDUAL_FLAG + 1]
    }

    pub(crate) fn mq(self) -> i64 {
        self.0[RESIDUAL_FLAG + 2]
    }

    pub(crate) fn rvp1(self) -> i64 {
        self.0[RESIDUAL_FLAG + 3]
    }

    pub(crate) fn rvp2(self) -> i64 {
        self.0[RESIDUAL_FLAG + 4]
    }
}

/// The pairs in use after a flag that counts them.
fn pairs(words: &[i64]) -> impl Iterator<Item = (i64, i64)> + '_ {
    let count = words[0] as usize;
    words[1..]
        .chunks_exact(2)
        .take(count)
        .map(|pair| (pair[0], pair[1]))
}
