//! The hedge total of an interval in the order of the holders' reports: all base
//! quantities first, then all first tranches, then the second, then the third.

use crate::layout::Interval;

/// The hedge total so far, after each round, in kWh.
#[derive(Clone, Copy, Debug, PartialEq, Eq)]
pub struct HedgeReport {
    /// All accounts' BVQ.
    pub base: i64,
    /// Those and all first tranches.
    pub first_tranches: i64,
    pub second_tranches: i64,
    pub third_tranches: i64,
}

impl HedgeReport {
    /// Of an interval of a well-formed book, where an absent row and a tranche
    /// not in use are zeros. One figure runs through all rounds, accounts
    /// ascending in each.
    #[inline]
    pub fn of(interval: Interval) -> HedgeReport {
        let mut hedged = 0;
        let [base, first_tranches, second_tranches, third_tranches] = [0, 1, 2, 3].map(|round| {
            for entry in interval.entries() {
                hedged += entry.hedged(round);
            }
            hedged
        });
        HedgeReport {
            base,
            first_tranches,
            second_tranches,
            third_tranches,
        }
    }

    /// The hedge total: all accounts' BVQ and TVQ.
    pub fn total(self) -> i64 {
        self.third_tranches
    }
}
