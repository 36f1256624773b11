//! Profiles at and beside the limits of their pairs and of their totals.

use super::Rng;
use crate::profile::{pair_limits, possible_totals};
use crate::units::{CONTRACTED, DAY_TOTAL, INTERVALS, PAIRS, QUANTITY};

/// The arguments of a profile call.
#[derive(Clone, Debug)]
pub struct ProfileCase {
    pub quantities: Vec<i64>,
    /// T.
    pub total: i64,
    /// D.
    pub contracted: i64,
}

/// A profile of any answer. About a third say yes; of the others some break a
/// limit, some have an impossible T and some are out of range.
pub fn profile_case(rng: &mut Rng) -> ProfileCase {
    let contracted = contracted(rng);
    let mut case = keeping_profile(rng, contracted);
    match rng.below(100) {
        0..=29 => {}
        30..=58 => disturb(rng, &mut case),
        59..=79 => shift_total(rng, &mut case),
        _ => damage(rng, &mut case),
    }
    case
}

/// A profile that keeps the limits of a D in range, with its T.
pub fn keeping_profile(rng: &mut Rng, contracted: i64) -> ProfileCase {
    let (floor, cap) = pair_limits(contracted).into_inner();
    let style = rng.below(6);
    let mut pairs = [0; PAIRS].map(|_| match style {
        0 => floor,
        1 => cap,
        2 => rng.pick(&[floor, cap]),
        _ => rng.between(floor, cap),
    });
    // A pair beside its limit, hence a total beside its end.
    if rng.percent(50) {
        pairs[rng.below(PAIRS)] = rng.pick(&[(floor + 1).min(cap), (cap - 1).max(floor)]);
    }
    of_pairs(rng, &pairs, contracted)
}

/// A profile of a T in range whose pairs differ by one kWh at most: it keeps
/// the limits of every D that this T is possible for.
pub fn level_profile(rng: &mut Rng, total: i64, contracted: i64) -> ProfileCase {
    of_pairs(rng, &level(total, PAIRS), contracted)
}

/// A profile of such pairs, T being their sum.
pub fn of_pairs(rng: &mut Rng, pairs: &[i64], contracted: i64) -> ProfileCase {
    ProfileCase {
        quantities: pairs.iter().flat_map(|&pair| split(rng, pair)).collect(),
        total: pairs.iter().sum(),
        contracted,
    }
}

/// So many parts of a sum that differ by one at most, the greater ones first.
pub fn level(sum: i64, parts: usize) -> Vec<i64> {
    let count = parts as i64;
    (0..count)
        .map(|part| sum / count + i64::from(part < sum % count))
        .collect()
}

/// Two quantities that add to a pair's kWh.
fn split(rng: &mut Rng, pair: i64) -> [i64; 2] {
    let most = *QUANTITY.end();
    let (low, high) = ((pair - most).max(0), pair.min(most));
    let first = match rng.below(4) {
        0 => low,
        1 => high,
        _ => rng.between(low, high),
    };
    [first, pair - first]
}

/// D, mostly so small that the rounding of its limits matters.
fn contracted(rng: &mut Rng) -> i64 {
    let most = *CONTRACTED.end();
    match rng.below(10) {
        0..=4 => rng.between(0, 12),
        5..=6 => rng.between(13, 200),
        7 => rng.between(0, most),
        8 => most - rng.between(0, 20),
        // Both limits are whole.
        _ => 20 * rng.between(0, most / 20),
    }
}

/// Mostly no: a pair or the total beside its limit.
fn disturb(rng: &mut Rng, case: &mut ProfileCase) {
    let (floor, cap) = pair_limits(case.contracted).into_inner();
    match rng.below(6) {
        0..=2 => {
            let at = rng.below(PAIRS);
            let beside = rng.pick(&[(floor - 1).max(0), cap + 1]);
            // The others make up for it, if they can.
            let mut pairs = level((case.total - beside).max(0), PAIRS - 1);
            pairs.insert(at, beside);
            case.quantities = of_pairs(rng, &pairs, case.contracted).quantities;
        }
        3 => case.total = (case.total + rng.pick(&[-1, 1])).max(0),
        4 => case.quantities.rotate_left(1),
        // One kWh goes to another interval.
        _ => {
            let (from, to) = (rng.below(INTERVALS), rng.below(INTERVALS));
            if case.quantities[from] > 0 && case.quantities[to] < *QUANTITY.end() {
                case.quantities[from] -= 1;
                case.quantities[to] += 1;
            }
        }
    }
}

/// Mostly 15: T beside the ends of the possible ones, or anywhere; the
/// quantities add to it or not.
fn shift_total(rng: &mut Rng, case: &mut ProfileCase) {
    let (least, most) = possible_totals(&pair_limits(case.contracted)).into_inner();
    let total = match rng.below(8) {
        0..=1 => least - 1,
        2..=3 => most + 1,
        4 => least - rng.between(1, 30),
        5 => most + rng.between(1, 30),
        6 => rng.pick(&[(96 * case.contracted + 4) / 5, 30 * case.contracted]),
        _ => rng.between(*DAY_TOTAL.start(), *DAY_TOTAL.end()),
    };
    case.total = total.clamp(*DAY_TOTAL.start(), *DAY_TOTAL.end());
    if rng.percent(50) {
        *case = level_profile(rng, case.total, case.contracted);
    }
}

/// Number 1: a quantity, the list's length, T or D is out of its range, T
/// being possible or not.
fn damage(rng: &mut Rng, case: &mut ProfileCase) {
    if rng.percent(30) {
        shift_total(rng, case);
    }
    match rng.below(6) {
        0..=1 => {
            let any = rng.below(INTERVALS);
            let at = rng.pick(&[0, any, any, INTERVALS - 1]);
            let bad = rng.pick(&[-1, QUANTITY.end() + 1, i64::MIN, i64::MAX]);
            let pair = case.quantities[at] + case.quantities[at ^ 1];
            // The pair may add to what it did.
            if rng.percent(50) {
                case.quantities[at ^ 1] = pair.wrapping_sub(bad);
            }
            case.quantities[at] = bad;
        }
        2..=3 => {
            let count = match rng.below(3) {
                0 => rng.pick(&[INTERVALS - 1, INTERVALS + 1]),
                1 => rng.below(INTERVALS),
                _ => INTERVALS + 1 + rng.below(16),
            };
            case.quantities.resize(count, 0);
        }
        4 => case.total = rng.pick(&[-1, DAY_TOTAL.end() + 1, i64::MIN, i64::MAX]),
        _ if rng.percent(30) => {
            let contracted = CONTRACTED.end() + 1;
            let total = PAIRS as i64 * contracted;
            *case = level_profile(rng, total, contracted);
        }
        _ => case.contracted = rng.pick(&[-1, CONTRACTED.end() + 1, i64::MIN, i64::MAX]),
    }
}
