//! The profile check with the slips of the wrong variants, one by one. It reckons
//! in wider words, so that each slip answers every input; without a slip it
//! answers as `profile` does.

use crate::numbers::{ACCEPTED, BAD_PARAMETER, IMPOSSIBLE_TOTAL};
use crate::profile::{refused, ProfileAnswer};
use crate::units::{CONTRACTED, DAY_TOTAL, INTERVALS, PAIRS, QUANTITY};
use crate::variant::{Context, Variant};
use std::ops::RangeInclusive;

pub fn wrong_profile(
    context: Context,
    quantities: &[i64],
    total: i64,
    contracted: i64,
) -> ProfileAnswer {
    let parameters = parameters_fit(context, total, contracted);
    let length = length_fits(context, quantities.len());
    let list = taken(context, quantities);
    let (total, contracted) = (i128::from(total), i128::from(contracted));
    let left = left_after(context, &list, total, contracted);
    let walked = &quantities[..left.unwrap_or(quantities.len())];
    let values = quantities_fit(context, walked);
    let fits = parameters && length && values;
    let keep = left.is_none() && pairs_keep(context, &list, total, contracted);
    let sum: i128 = list.iter().sum();
    let judged = match context.variant {
        Variant::ImpossibleBeforeRange => true,
        Variant::ImpossibleBeforeList => parameters,
        Variant::ImpossibleBeforeQuantities => parameters && length,
        _ => fits,
    };
    let impossible = match context.variant {
        Variant::ImpossibleAfterQuantities => keep && impossible(context, total, contracted),
        Variant::ImpossibleForBrokenPairs => !keep || impossible(context, total, contracted),
        Variant::ImpossibleForOtherSum => sum != total || impossible(context, total, contracted),
        _ => impossible(context, total, contracted),
    };
    if judged && impossible {
        return refused(IMPOSSIBLE_TOTAL);
    }
    if !fits {
        return refused(BAD_PARAMETER);
    }
    ProfileAnswer {
        number: ACCEPTED,
        keeps: keep && adds(context, sum, total),
    }
}

fn parameters_fit(context: Context, total: i64, contracted: i64) -> bool {
    let total_fits = match context.variant {
        Variant::TotalUnjudged => true,
        Variant::TotalUpTo300Million => (0..=300_000_000).contains(&total),
        _ => DAY_TOTAL.contains(&total),
    };
    let contracted_fits = match context.variant {
        Variant::ContractedUnjudged => true,
        Variant::RefusesContractedOfZero => contracted != 0 && CONTRACTED.contains(&contracted),
        _ => CONTRACTED.contains(&contracted),
    };
    total_fits && contracted_fits
}

fn length_fits(context: Context, length: usize) -> bool {
    let slip = match context.variant {
        Variant::TakesShortProfile => length == INTERVALS - 1,
        Variant::TakesLongProfile => length == INTERVALS + 1,
        Variant::TakesAnyWholePairs => length.is_multiple_of(2) && length > 0,
        Variant::TakesEmptyProfile => length == 0,
        _ => false,
    };
    slip || length == INTERVALS
}

fn quantities_fit(context: Context, quantities: &[i64]) -> bool {
    let (least, most) = match context.variant {
        Variant::QuantitiesUnjudged => (i64::MIN, i64::MAX),
        Variant::TakesNegativeQuantities => (i64::MIN, *QUANTITY.end()),
        Variant::TakesLargeQuantities => (*QUANTITY.start(), i64::MAX),
        _ => (*QUANTITY.start(), *QUANTITY.end()),
    };
    quantities.iter().all(|kwh| (least..=most).contains(kwh))
}

/// The list in the order of its pairs; what a short one lacks is 0.
fn taken(context: Context, quantities: &[i64]) -> Vec<i128> {
    let mut list: Vec<i128> = quantities.iter().map(|&kwh| kwh.into()).collect();
    match context.variant {
        Variant::TakesShortProfile | Variant::TakesLongProfile => list.resize(INTERVALS, 0),
        // Intervals 48 and 1 are left over and make a pair.
        Variant::PairsFromSecondInterval if !list.is_empty() => list.rotate_left(1),
        _ => {}
    }
    list
}

/// After how many quantities the walk over them is left, if it is not at the end.
fn left_after(context: Context, list: &[i128], total: i128, contracted: i128) -> Option<usize> {
    let limits = pair_limits(context, contracted);
    let mut sum = 0;
    let leaves = |pair: &[i128]| {
        let both: i128 = pair.iter().sum();
        sum += both;
        match context.variant {
            Variant::LeavesAtBrokenPair => !limits.contains(&both),
            Variant::LeavesAtPassedTotal => sum > total,
            _ => false,
        }
    };
    let at = list.chunks_exact(2).position(leaves)?;
    Some(2 * at + 2)
}

fn pairs_keep(context: Context, list: &[i128], total: i128, contracted: i128) -> bool {
    let limits = match context.variant {
        // Of T / 24.
        Variant::LimitsOfTotal => (total + 29).div_euclid(30)..=(5 * total).div_euclid(96),
        _ => pair_limits(context, contracted),
    };
    let keeps = |pair: &[i128]| limits.contains(&pair.iter().sum::<i128>());
    let mut pairs = list.chunks_exact(2);
    match context.variant {
        Variant::PairsUnjudged => true,
        Variant::FirstPairUnjudged => pairs.skip(1).all(keeps),
        Variant::LastPairUnjudged => pairs.take(PAIRS - 1).all(keeps),
        Variant::OverlappingPairs => list.windows(2).all(keeps),
        Variant::HalvesLimits => list
            .iter()
            .all(|kwh| 10 * kwh >= 4 * contracted && 8 * kwh <= 5 * contracted),
        _ => pairs.all(keeps),
    }
}

fn pair_limits(context: Context, contracted: i128) -> RangeInclusive<i128> {
    let contracted = match context.variant {
        Variant::ContractedPerInterval => 2 * contracted,
        Variant::ContractedPerDay => contracted.div_euclid(PAIRS as i128),
        _ => contracted,
    };
    let floor = match context.variant {
        Variant::FloorRoundedDown => (4 * contracted).div_euclid(5),
        Variant::LimitsToNearest => (4 * contracted + 2).div_euclid(5),
        Variant::ExclusiveFloor => (4 * contracted + 5).div_euclid(5),
        Variant::FloorOf75PerCent => (3 * contracted + 3).div_euclid(4),
        Variant::DividesBeforeMultiplying => 4 * contracted.div_euclid(5),
        Variant::NoFloor => 0,
        _ => (4 * contracted + 4).div_euclid(5),
    };
    let cap = match context.variant {
        Variant::CapRoundedUp => (5 * contracted + 3).div_euclid(4),
        Variant::LimitsToNearest => (5 * contracted + 2).div_euclid(4),
        Variant::ExclusiveCap => (5 * contracted - 1).div_euclid(4),
        Variant::CapOf120PerCent => (6 * contracted).div_euclid(5),
        Variant::DividesBeforeMultiplying => 5 * contracted.div_euclid(4),
        Variant::NoCap => i64::MAX.into(),
        _ => (5 * contracted).div_euclid(4),
    };
    floor..=cap
}

fn impossible(context: Context, total: i128, contracted: i128) -> bool {
    let limits = pair_limits(context, contracted);
    let pairs = PAIRS as i128;
    let (least, most) = (pairs * limits.start(), pairs * limits.end());
    match context.variant {
        Variant::NeverImpossible => false,
        Variant::ImpossibleBelowOnly => total < least,
        Variant::ImpossibleAboveOnly => total > most,
        Variant::EndsImpossible => total <= least || total >= most,
        Variant::ImpossibleBy19And30 => 5 * total < 96 * contracted || total > 30 * contracted,
        _ => total < least || total > most,
    }
}

fn adds(context: Context, sum: i128, total: i128) -> bool {
    match context.variant {
        Variant::TotalNotCompared => true,
        Variant::TotalAtMost => sum <= total,
        Variant::TotalAtLeast => sum >= total,
        _ => sum == total,
    }
}
