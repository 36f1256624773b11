//! Profiles from the load forecasters.

use super::figures::beyond;
use super::Script;
use crate::frames::{Frame, PROFILE_WORDS};
use crate::generate::profiles::{
    keeping_profile, level, level_profile, of_pairs, profile_case, ProfileCase,
};
use crate::generate::Rng;
use crate::profile::{pair_limits, possible_totals};
use crate::units::{CONTRACTED, DAY_TOTAL, INTERVALS, PAIRS, QUANTITY};
use std::collections::BTreeSet;

/// D of which both limits are whole, none, one or the other.
const CONTRACTS: [i64; 6] = [1_000, 7, 5, 8, 9, 9_999_999];

pub(super) fn write(script: &mut Script) {
    plain(script);
    broken_pairs(script);
    pairs_at_limits(script);
    other_totals(script);
    shifted_pairs(script);
    small_contracts(script);
    large_contracts(script);
    impossible_totals(script);
    quantities_at_ends(script);
    bad_quantities(script);
    bad_parameters(script);
    lengths(script);
    for _ in 0..120 {
        let case = profile_case(&mut script.rng);
        push(script, case);
    }
}

fn push(script: &mut Script, case: ProfileCase) {
    script.push(Frame::Profile {
        total: case.total,
        contracted: case.contracted,
        quantities: case.quantities,
    });
}

/// Every interval alike: 80, 100 and 125 per cent of D, and beside them.
fn plain(script: &mut Script) {
    for (quantity, total, contracted) in [
        (400, 19_200, 1_000),
        (500, 24_000, 1_000),
        (625, 30_000, 1_000),
        (399, 19_152, 1_000),
        (626, 30_048, 1_000),
        (399, 19_200, 1_000),
        (626, 30_000, 1_000),
        (0, 0, 0),
        (0, 1, 0),
        (1, 48, 2),
    ] {
        push(
            script,
            ProfileCase {
                quantities: vec![quantity; INTERVALS],
                total,
                contracted,
            },
        );
    }
}

/// Pairs of which one has so many kWh and all add to a total midway.
fn pairs_with(contracted: i64, at: usize, kwh: i64) -> Vec<i64> {
    let limits = pair_limits(contracted);
    let total = PAIRS as i64 / 2 * (limits.start() + limits.end());
    let mut pairs = level(total - kwh, PAIRS - 1);
    pairs.insert(at, kwh);
    pairs
}

/// Each pair alone one kWh below its floor or above its cap, T being right.
fn broken_pairs(script: &mut Script) {
    for at in 0..PAIRS {
        let [below, above] = [at, at + 3].map(|turn| CONTRACTS[turn % CONTRACTS.len()]);
        for (contracted, beside) in [
            (below, pair_limits(below).start() - 1),
            (above, pair_limits(above).end() + 1),
        ] {
            let pairs = pairs_with(contracted, at, beside);
            let case = of_pairs(&mut script.rng, &pairs, contracted);
            push(script, case);
        }
    }
}

fn pairs_at_limits(script: &mut Script) {
    for contracted in CONTRACTS {
        let (floor, cap) = pair_limits(contracted).into_inner();
        for at in [0, PAIRS - 1] {
            for limit in [floor, cap] {
                let pairs = pairs_with(contracted, at, limit);
                let case = of_pairs(&mut script.rng, &pairs, contracted);
                push(script, case);
            }
        }
    }
}

/// All pairs keep their limits and T is possible, but not what they add to.
fn other_totals(script: &mut Script) {
    for contracted in [4, 7, 1_000, 10_000_000] {
        let limits = pair_limits(contracted);
        let middle = PAIRS as i64 / 2 * (limits.start() + limits.end());
        let (least, most) = possible_totals(&limits).into_inner();
        for step in [-1, 1] {
            let mut case = level_profile(&mut script.rng, middle, contracted);
            case.total += step;
            push(script, case);
        }
        for (sum, total) in [(least, most), (most, least)] {
            let mut case = level_profile(&mut script.rng, sum, contracted);
            case.total = total;
            push(script, case);
        }
    }
}

/// Pairs that keep their limits, and would not from the second interval on;
/// and the other way round.
fn shifted_pairs(script: &mut Script) {
    for contracted in [4, 10, 1_000, 9_999_998] {
        let ends = [0, contracted, contracted, 0];
        push_shifts(script, ends.repeat(INTERVALS / 4), contracted);
        // One kWh alone is in the other interval of its pair.
        let (floor, cap) = pair_limits(contracted).into_inner();
        for (at, limit) in [(0, cap), (PAIRS / 2, floor), (PAIRS - 1, cap)] {
            let mut quantities = [limit / 2, limit - limit / 2].repeat(PAIRS);
            quantities[2 * at] += 1;
            quantities[2 * at + 1] -= 1;
            push_shifts(script, quantities, contracted);
        }
    }
}

/// The list itself, then begun at its last and at its second interval.
fn push_shifts(script: &mut Script, quantities: Vec<i64>, contracted: i64) {
    let case = ProfileCase {
        total: quantities.iter().sum(),
        quantities,
        contracted,
    };
    let (mut later, mut earlier) = (case.clone(), case.clone());
    later.quantities.rotate_right(1);
    earlier.quantities.rotate_left(1);
    for case in [case, later, earlier] {
        push(script, case);
    }
}

/// Every small D with T at the ends of the possible ones, where 19.2 × D and
/// 30 × D would have them, and beside.
fn small_contracts(script: &mut Script) {
    for contracted in 0..=12 {
        let (least, most) = possible_totals(&pair_limits(contracted)).into_inner();
        let totals = BTreeSet::from([
            least - 1,
            least,
            least + 1,
            most - 1,
            most,
            most + 1,
            (96 * contracted + 4) / 5,
            30 * contracted,
        ]);
        for total in totals.into_iter().filter(|total| *total >= 0) {
            let case = level_profile(&mut script.rng, total, contracted);
            push(script, case);
        }
    }
}

fn large_contracts(script: &mut Script) {
    let most_contracted = *CONTRACTED.end();
    for contracted in most_contracted - 5..=most_contracted {
        let (least, most) = possible_totals(&pair_limits(contracted)).into_inner();
        for total in [least - 1, least, least + 1, most - 1, most, most + 1] {
            let case = level_profile(&mut script.rng, total, contracted);
            push(script, case);
        }
    }
    for total in [DAY_TOTAL.end() - 1, *DAY_TOTAL.end()] {
        let case = level_profile(&mut script.rng, total, most_contracted);
        push(script, case);
    }
}

/// Impossible whatever the quantities are: some that keep the limits of the
/// pairs, some that add to T, any others.
fn impossible_totals(script: &mut Script) {
    for (contracted, total) in [
        (0, 1),
        (0, 480_000_000),
        (3, 71),
        (3, 73),
        (7, 143),
        (7, 193),
        (1_000, 19_199),
        (1_000, 30_001),
        (10_000_000, 191_999_999),
        (10_000_000, 300_000_001),
    ] {
        let rng = &mut script.rng;
        let keeping = keeping_profile(rng, contracted).quantities;
        let adding = level_profile(rng, total, contracted).quantities;
        let any = (0..INTERVALS).map(|_| rng.between(*QUANTITY.start(), *QUANTITY.end()));
        let any = any.collect();
        for quantities in [
            keeping,
            adding,
            any,
            vec![*QUANTITY.start(); INTERVALS],
            vec![*QUANTITY.end(); INTERVALS],
        ] {
            push(
                script,
                ProfileCase {
                    quantities,
                    total,
                    contracted,
                },
            );
        }
    }
}

/// Quantities of 0 and of 10,000,000, with the largest D.
fn quantities_at_ends(script: &mut Script) {
    let most = *QUANTITY.end();
    for pair in [
        [0, most],
        [most, 0],
        [most, 2_500_000],
        [2_500_000, most],
        [most, 2_500_001],
        [8_000_000, 0],
        [0, 7_999_999],
    ] {
        let mut quantities = [5_000_000; INTERVALS].to_vec();
        quantities[..2].copy_from_slice(&pair);
        quantities[INTERVALS - 2..].copy_from_slice(&pair);
        push(
            script,
            ProfileCase {
                total: quantities.iter().sum(),
                quantities,
                contracted: *CONTRACTED.end(),
            },
        );
    }
}

/// A quantity out of range: its pair adding to what is right, alone, with an
/// impossible T, with a T that is passed before the end, and with a broken pair.
fn bad_quantities(script: &mut Script) {
    let contracted = *CONTRACTED.end();
    let (least, most) = possible_totals(&pair_limits(contracted)).into_inner();
    for at in [0, INTERVALS / 2 - 1, INTERVALS - 1] {
        for bad in beyond(&QUANTITY) {
            // The other quantity of the pair can make up for one kWh beyond.
            let pair = if bad < 0 { 9_000_000 } else { 11_000_000 };
            let total = PAIRS as i64 * pair;
            let mut case = level_profile(&mut script.rng, total, contracted);
            let mut alone = case.clone();
            alone.quantities[at] = bad;
            case.quantities[at] = bad;
            case.quantities[at ^ 1] = pair.wrapping_sub(bad);
            let (mut impossible, mut passed) = (case.clone(), case.clone());
            impossible.total = most + 1;
            passed.total = least;
            let mut broken = case.clone();
            broken.quantities[2..4].copy_from_slice(&[0, 0]);
            for case in [case, alone, impossible, passed, broken] {
                push(script, case);
            }
        }
    }
    // Words that add to 0, or would if they were cut to 64 bits.
    for pair in [[i64::MIN, i64::MIN], [i64::MAX, -i64::MAX], [1, -1]] {
        let mut quantities = vec![0; INTERVALS];
        quantities[..2].copy_from_slice(&pair);
        for total in [0, 1] {
            push(
                script,
                ProfileCase {
                    quantities: quantities.clone(),
                    total,
                    contracted: 0,
                },
            );
        }
    }
}

/// T or D out of range, all else being good, or both.
fn bad_parameters(script: &mut Script) {
    for total in beyond(&DAY_TOTAL) {
        for contracted in [0, 1_000, *CONTRACTED.end()] {
            let mut case = keeping_profile(&mut script.rng, contracted);
            case.total = total;
            push(script, case);
        }
    }
    for contracted in beyond(&CONTRACTED) {
        let mut case = keeping_profile(&mut script.rng, 1_000);
        case.contracted = contracted;
        push(script, case.clone());
        case.total = contracted;
        push(script, case);
    }
    // Limits that would be kept, or would if they were cut to 64 bits.
    let contracted = CONTRACTED.end() + 1;
    let case = level_profile(&mut script.rng, PAIRS as i64 * contracted, contracted);
    push(script, case);
    for contracted in [-1, i64::MIN, 1 << 62] {
        push(
            script,
            ProfileCase {
                quantities: vec![0; INTERVALS],
                total: 0,
                contracted,
            },
        );
    }
}

/// Lists not of 48, their words being good: filled with zeros, which leave the
/// sum as it is, or with more pairs, T being the sum.
fn lengths(script: &mut Script) {
    for count in [0, 1, 2, 24, 46, 47, 49, 50, PROFILE_WORDS] {
        let mut filled = level_profile(&mut script.rng, 24_000, 1_000);
        filled.quantities.resize(count, 0);
        let mut impossible = filled.clone();
        impossible.total = 30_001;
        let more = of_length(&mut script.rng, count);
        let zeros = ProfileCase {
            quantities: vec![0; count],
            total: 0,
            contracted: 0,
        };
        for case in [filled, impossible, more, zeros] {
            push(script, case);
        }
    }
}

/// A list of pairs at D = 1,000, the last one perhaps cut, that adds to T.
fn of_length(rng: &mut Rng, count: usize) -> ProfileCase {
    let pairs = vec![1_000; count.div_ceil(2)];
    let mut case = of_pairs(rng, &pairs, 1_000);
    case.quantities.truncate(count);
    case.total = case.quantities.iter().sum();
    case
}
