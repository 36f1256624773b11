//! An account's amount for a closing day.
//!
//! An interval's amount is at most 5 quantities of 10,000,000 kWh times a
//! price difference of 2,000,000, a day's 4,800,000,000,000 cents.

use crate::layout::Entry;
use crate::reference_price::price_of;
use crate::tranche::tranches_of;
use crate::units::{nearest, THOUSANDTHS_A_CENT};
use crate::variant::{Context, Variant};

/// Base and tender amount of the closing day in one interval, in thousandths
/// of a cent.
pub(crate) fn vesting_amount(context: Context, closing: Entry) -> i64 {
    let v = price_of(context, closing.facilities());
    closing
        .hedges()
        .map(|(quantity, price)| (price - v) * quantity)
        .sum()
}

/// Residual amount of day r in one interval, in thousandths of a cent, from
/// r's own entry, reference price and share.
pub(crate) fn residual_amount(context: Context, residual: Entry, closing: Entry, rvq: i64) -> i64 {
    let priced = if context.is(Variant::PricesResidualAtClosingDay) {
        closing
    } else {
        residual
    };
    let v = price_of(context, priced.facilities());
    let (first, second) = tranches_of(rvq, residual.bvq(), residual.mq());
    (residual.rvp1() - v) * first + (residual.rvp2() - v) * second
}

/// The running total of one account's day, interval after interval.
#[derive(Clone, Copy, Default)]
pub(crate) struct DayTotal {
    thousandths: i64,
}

impl DayTotal {
    pub(crate) fn absorb(&mut self, context: Context, thousandths: i64) {
        self.thousandths += if context.is(Variant::RoundsEachInterval) {
            nearest(thousandths, THOUSANDTHS_A_CENT) * 1_000
        } else {
            thousandths
        };
    }

    /// The exact amount.
    pub(crate) fn thousandths(self) -> i64 {
        self.thousandths
    }

    /// The posted amount.
    pub(crate) fn cents(self) -> i64 {
        nearest(self.thousandths, THOUSANDTHS_A_CENT)
    }

    /// The exact amount less the posted one, in thousandths of a cent: at most 500
    /// either way.
    pub(crate) fn difference(self) -> i64 {
        self.thousandths - 1_000 * self.cents()
    }
}
