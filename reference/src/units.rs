//! Units, ranges and rounding.

use std::num::NonZeroU64;
use std::ops::RangeInclusive;

/// kWh.
pub const QUANTITY: RangeInclusive<i64> = 0..=10_000_000;
/// Metered injection, kWh.
pub const IEQ: RangeInclusive<i64> = -10_000_000..=10_000_000;
/// Non-contestable consumers' load, kWh.
pub const NCC_LOAD: RangeInclusive<i64> = 0..=1_000_000_000;
/// Cents per MWh.
pub const PRICE: RangeInclusive<i64> = -1_000_000..=1_000_000;
/// Load left after all hedges, the R of a share call.
pub const REMAINING_LOAD: RangeInclusive<i64> = -1_280_000_000..=1_000_000_000;

/// The day's total of a profile, the T of a profile call, kWh.
pub const DAY_TOTAL: RangeInclusive<i64> = 0..=480_000_000;
/// The daily contracted quantity's kWh for one Gas Balancing Period, the D of a
/// profile call.
pub const CONTRACTED: RangeInclusive<i64> = 0..=10_000_000;

/// The cents of a packed field, which has 15 digits.
pub const PACKED_AMOUNT: RangeInclusive<i64> = -999_999_999_999_999..=999_999_999_999_999;
/// The amounts of a statement: one an account, and the MSSL's.
pub const STATEMENT_AMOUNTS: RangeInclusive<usize> = 2..=MOST_AMOUNTS;
pub const MOST_AMOUNTS: usize = MOST_ACCOUNTS + 1;

/// 31 December 2099, in days since 1 January 2000.
pub const LAST_DAY: i64 = 36_524;
pub const DAY: RangeInclusive<i64> = 0..=LAST_DAY;

pub const INTERVALS: usize = 48;
/// A day's Gas Balancing Periods, of two intervals each.
pub const PAIRS: usize = INTERVALS / 2;
pub const MOST_ACCOUNTS: usize = 32;
pub const MOST_FACILITIES: usize = 4;
pub const MOST_TRANCHES: usize = 3;

/// kWh times price is thousandths of a cent.
pub const THOUSANDTHS_A_CENT: NonZeroU64 = NonZeroU64::new(1_000).unwrap();

/// The nearest whole number to the quotient, a tie going away from zero.
pub fn nearest(numerator: i64, denominator: NonZeroU64) -> i64 {
    let magnitude = numerator.unsigned_abs();
    let denominator = denominator.get();
    let (quotient, remainder) = (magnitude / denominator, magnitude % denominator);
    let round_up = remainder >= denominator - remainder;
    let rounded = (quotient + u64::from(round_up)) as i64;
    // Only i64::MIN / 1 wraps, and it wraps to itself.
    if numerator < 0 {
        rounded.wrapping_neg()
    } else {
        rounded
    }
}
