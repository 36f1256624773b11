//! The two editions of the share, and the change day X between them.

use crate::units::LAST_DAY;
use std::ops::RangeInclusive;

/// X of a book that keeps the first edition for good.
pub const NEVER: u64 = 0;
/// Any other X. It may lie before the book's first day.
pub const CHANGE_DAYS: RangeInclusive<u64> = 9_497..=LAST_DAY as u64;

#[derive(Clone, Copy, Debug, PartialEq, Eq)]
pub enum Edition {
    /// Each share is rounded down by itself, and the odd kWh are dropped.
    First,
    /// Shares are differences of running sums, and use every kWh.
    Second,
}

impl Edition {
    /// The edition of a residual day.
    pub(crate) fn of(change_day: u64, residual_day: i64) -> Edition {
        Edition::second_if(change_day != NEVER && residual_day >= change_day as i64)
    }

    pub(crate) fn second_if(second: bool) -> Edition {
        if second {
            Edition::Second
        } else {
            Edition::First
        }
    }
}

pub(crate) fn is_change_day(change_day: u64) -> bool {
    change_day == NEVER || CHANGE_DAYS.contains(&change_day)
}
