//! Profiles of a day from the load forecasters: whether one keeps to its
//! contracted quantity and adds to the day's total.

use crate::numbers::{ACCEPTED, BAD_PARAMETER, IMPOSSIBLE_TOTAL};
use crate::units::{CONTRACTED, DAY_TOTAL, INTERVALS, PAIRS, QUANTITY};
use crate::variant::{Context, Variant, WRONG_PROFILES};
use crate::wrong_profile::wrong_profile;
use std::ops::RangeInclusive;

#[derive(Clone, Copy, Debug, PartialEq, Eq)]
pub struct ProfileAnswer {
    pub number: u8,
    /// False when refused.
    pub keeps: bool,
}

/// Whether each Gas Balancing Period, a pair of intervals of which the first is
/// odd-numbered, keeps the limits of D and all intervals add to T.
pub fn profile(quantities: &[i64], total: i64, contracted: i64) -> ProfileAnswer {
    let fits = quantities.len() == INTERVALS
        && DAY_TOTAL.contains(&total)
        && CONTRACTED.contains(&contracted);
    if !fits {
        return refused(BAD_PARAMETER);
    }
    let limits = pair_limits(contracted);
    let (mut sum, mut pairs_keep) = (0, true);
    for pair in quantities.chunks_exact(2) {
        if !pair.iter().all(|kwh| QUANTITY.contains(kwh)) {
            return refused(BAD_PARAMETER);
        }
        let both = pair[0] + pair[1];
        pairs_keep &= limits.contains(&both);
        sum += both;
    }
    if !possible_totals(&limits).contains(&total) {
        return refused(IMPOSSIBLE_TOTAL);
    }
    ProfileAnswer {
        number: ACCEPTED,
        keeps: pairs_keep && sum == total,
    }
}

pub fn profile_in(
    context: Context,
    quantities: &[i64],
    total: i64,
    contracted: i64,
) -> ProfileAnswer {
    if context.is(Variant::RefusesEverything) {
        refused(BAD_PARAMETER)
    } else if WRONG_PROFILES.contains(&context.variant) {
        wrong_profile(context, quantities, total, contracted)
    } else {
        profile(quantities, total, contracted)
    }
}

/// The whole kWh of a pair from 80 to 125 per cent of D. D itself is one of
/// them, and two quantities can add to each.
pub(crate) fn pair_limits(contracted: i64) -> RangeInclusive<i64> {
    (4 * contracted + 4) / 5..=5 * contracted / 4
}

/// What all pairs can add to, each within its limits.
pub(crate) fn possible_totals(limits: &RangeInclusive<i64>) -> RangeInclusive<i64> {
    let pairs = PAIRS as i64;
    pairs * limits.start()..=pairs * limits.end()
}

pub(crate) fn refused(number: u8) -> ProfileAnswer {
    ProfileAnswer {
        number,
        keeps: false,
    }
}
