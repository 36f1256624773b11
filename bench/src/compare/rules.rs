//! Reference prices, shares, tranches and profiles.

use super::tally::Tally;
use super::{same, same_words};
use crate::robijan;
use reference::generate::profiles::profile_case;
use reference::generate::Rng;
use reference::reference_price::reference_price;

/// A value in this range most times, its ends more often, or else any word.
fn value(rng: &mut Rng, low: i64, high: i64) -> i64 {
    match rng.below(20) {
        0 => rng.word(),
        1 => rng.pick(&[low - 1, high + 1]),
        2..=4 => rng.pick(&[low, high, 0]),
        5..=9 => rng.between(low.max(-9), 9),
        _ => rng.between(low, high),
    }
}

fn values(rng: &mut Rng, count: usize, low: i64, high: i64) -> Vec<i64> {
    let mut values: Vec<i64> = (0..count).map(|_| rng.between(low, high)).collect();
    if count > 0 && rng.percent(80) {
        let at = rng.below(count);
        values[at] = value(rng, low, high);
    }
    if rng.percent(30) {
        values.iter_mut().for_each(|value| *value %= 10);
    }
    values
}

pub fn price(rng: &mut Rng, cases: usize, tally: &mut Tally) -> Result<(), String> {
    for case in 0..cases {
        let count = rng.pick(&[0, 1, 1, 2, 2, 2, 3, 3, 4, 4, 5]);
        let other = rng.below(6);
        let mep = values(rng, count, -1_000_000, 1_000_000);
        let ieqs = rng.pick(&[count, count, count, count, other]);
        let ieq = values(rng, ieqs, -10_000_000, 10_000_000);
        let told = robijan::price(&mep, &ieq);
        let answer = reference_price(&mep, &ieq);
        same(
            (told.number, told.price),
            (answer.number.into(), answer.price),
            || format!("case {case}: MEP {mep:?}, IEQ {ieq:?}"),
        )?;
        tally.add("prices", told.number, 0);
    }
    Ok(())
}

/// A share call, and that of the second implementation.
type Share = fn(i64, &[i64], &mut [i64]) -> u64;
type ReferenceShare = fn(i64, &[i64], &mut [i64]) -> u8;

const EDITIONS: [(&str, Share, ReferenceShare); 2] = [
    (
        "shares, first edition",
        robijan::share,
        reference::share::share,
    ),
    (
        "shares, second edition",
        robijan::second_share,
        reference::share::second_share,
    ),
];

pub fn share(rng: &mut Rng, cases: usize, tally: &mut Tally) -> Result<(), String> {
    for case in 0..cases {
        let count = rng.pick(&[0, 1, 2, 3, 4, 8, 31, 32, 32, 33]);
        let uegq = values(rng, count, 0, 10_000_000);
        let total: i64 = uegq.iter().map(|u| (*u).clamp(0, 10_000_000)).sum();
        let residual = match rng.below(4) {
            0 => total + rng.between(-2, 2),
            1 => rng.between(0, total.max(1)),
            _ => value(rng, -1_280_000_000, 1_000_000_000),
        };
        let length = match rng.below(10) {
            0 => rng.below(count + 1),
            _ => count + rng.below(3),
        };
        let mut ours = rng.words(length);
        let mut theirs = ours.clone();
        let described = || format!("case {case}: R {residual}, UEGQ {uegq:?}, {length} words");
        for (edition, share, reference) in EDITIONS {
            let number = share(residual, &uegq, &mut ours);
            let answer = reference(residual, &uegq, &mut theirs);
            let described = || format!("{}, {edition}", described());
            same(number, answer.into(), described)?;
            same_words(&ours, &theirs, described)?;
            tally.add(edition, number, 0);
        }
    }
    Ok(())
}

pub fn tranche(rng: &mut Rng, cases: usize, tally: &mut Tally) -> Result<(), String> {
    for case in 0..cases {
        let [rvq, bvq, mq] = [(); 3].map(|()| value(rng, 0, 10_000_000));
        let told = robijan::tranche(rvq, bvq, mq);
        let answer = reference::tranche::tranche(rvq, bvq, mq);
        same(
            (told.number, told.first, told.second),
            (answer.number.into(), answer.first, answer.second),
            || format!("case {case}: RVQ {rvq}, BVQ {bvq}, MQ {mq}"),
        )?;
        tally.add("tranches", told.number, 0);
    }
    Ok(())
}

/// Profiles at and beside the limits of D and T, most lists of 48 quantities.
pub fn profile(rng: &mut Rng, cases: usize, tally: &mut Tally) -> Result<(), String> {
    for case in 0..cases {
        let given = profile_case(rng);
        let told = robijan::profile(&given.quantities, given.total, given.contracted);
        let answer = reference::profile::profile(&given.quantities, given.total, given.contracted);
        same(
            (told.number, told.keeps),
            (answer.number.into(), answer.keeps.into()),
            || format!("case {case}: {given:?}"),
        )?;
        tally.add(
            match told.keeps {
                1 => "profiles that keep the limits",
                _ => "profiles that do not, or refused",
            },
            told.number,
            0,
        );
    }
    Ok(())
}
