//! The rounding difference: how far the MSSL's posted cents, times 1,000, are from
//! its exact amount. As it is posted minus the sum of the accounts' amounts, that
//! is what all exact amounts have over the posted ones, in thousandths of a cent.

use crate::book::Header;
use crate::day_amount::DayTotal;

/// The most that one account's day can leave, either way.
const DAY_BOUND: i64 = 500;

/// Of a day, from its accounts' totals.
pub(crate) fn day_difference(totals: &[DayTotal]) -> i64 {
    totals.iter().map(|total| total.difference()).sum()
}

/// Whether word 8 is within what the closed days can leave.
pub(crate) fn difference_fits(header: &Header, word: i64) -> bool {
    within(bound(header.accounts(), header.closed_days()), word)
}

/// The most that so many accounts and days can leave, either way.
pub(crate) fn bound(accounts: usize, days: i64) -> i64 {
    DAY_BOUND * accounts as i64 * days
}

pub(crate) fn within(bound: i64, word: i64) -> bool {
    (-bound..=bound).contains(&word)
}
