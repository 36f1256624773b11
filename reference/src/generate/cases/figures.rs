//! Reference prices, shares and tranches.

use super::Script;
use crate::edition::Edition;
use crate::frames::{Frame, LIST_WORDS};
use crate::generate::Rng;
use crate::units::{IEQ, PRICE, QUANTITY};
use std::ops::RangeInclusive;

pub(super) fn write(script: &mut Script) {
    prices(script);
    price_refusals(script);
    shares(script, Edition::First, 260);
    share_refusals(script, Edition::First);
    tranches(script);
}

/// A value of a range: small, any, or at an end.
fn value(rng: &mut Rng, range: &RangeInclusive<i64>) -> i64 {
    let (low, high) = (*range.start(), *range.end());
    match rng.below(3) {
        0 => rng.between(low.max(-5), 5),
        1 => rng.between(low, high),
        _ => rng.pick(&[low, low + 1, high - 1, high, 0, 1]),
    }
}

fn values(rng: &mut Rng, range: &RangeInclusive<i64>, count: usize) -> Vec<i64> {
    (0..count).map(|_| value(rng, range)).collect()
}

/// Values next to a range, and wild ones.
pub(super) fn beyond(range: &RangeInclusive<i64>) -> [i64; 4] {
    [range.start() - 1, range.end() + 1, i64::MIN, i64::MAX]
}

fn prices(script: &mut Script) {
    for _ in 0..350 {
        let rng = &mut script.rng;
        let count = rng.between(1, 4) as usize;
        let meps = values(rng, &PRICE, count);
        let ieqs = values(rng, &IEQ, count);
        script.push(Frame::Price { meps, ieqs });
    }
    // Ties and their neighbours, weighted and simple, of both signs.
    for _ in 0..100 {
        let rng = &mut script.rng;
        let (middle, half) = (rng.between(-900_000, 900_000), rng.between(0, 3));
        let meps = vec![middle, middle + 2 * half + rng.between(0, 1)];
        let weight = rng.pick(&[-7, 0, 1, 3, 10_000_000]);
        let ieqs = vec![weight, weight + rng.pick(&[0, 0, 0, -1])];
        script.push(Frame::Price { meps, ieqs });
    }
}

fn price_refusals(script: &mut Script) {
    for count in 1..=4 {
        for index in 0..count {
            for (mep, ieq) in beyond(&PRICE).into_iter().zip(beyond(&IEQ)) {
                let meps = values(&mut script.rng, &PRICE, count);
                let ieqs = values(&mut script.rng, &IEQ, count);
                let (mut high, mut wild) = (meps.clone(), ieqs.clone());
                high[index] = mep;
                wild[index] = ieq;
                script.push(Frame::Price { meps: high, ieqs });
                script.push(Frame::Price { meps, ieqs: wild });
            }
        }
    }
    for (mep_count, ieq_count) in [
        (0, 0),
        (0, 1),
        (1, 0),
        (1, 2),
        (2, 1),
        (4, 3),
        (3, 4),
        (4, 5),
        (5, 4),
        (5, 5),
        (LIST_WORDS, LIST_WORDS),
    ] {
        let meps = values(&mut script.rng, &PRICE, mep_count);
        let ieqs = values(&mut script.rng, &IEQ, ieq_count);
        script.push(Frame::Price { meps, ieqs });
    }
}

/// A share call whose output has any words before it.
pub(super) fn push_share(
    script: &mut Script,
    edition: Edition,
    remaining: i64,
    uegqs: Vec<i64>,
    output: usize,
) {
    let fill = script.rng.word();
    script.push(Frame::Share {
        edition,
        remaining,
        fill,
        uegqs,
        output,
    });
}

/// Shares of any numbers, the first lists having 1 to 32 accounts.
pub(super) fn shares(script: &mut Script, edition: Edition, turns: usize) {
    for turn in 0..turns {
        let rng = &mut script.rng;
        let count = if turn < 32 {
            turn + 1
        } else {
            rng.between(1, 8) as usize
        };
        let uegqs = if rng.percent(5) {
            vec![0; count]
        } else {
            values(rng, &QUANTITY, count)
        };
        let spare: i64 = uegqs.iter().sum();
        let any = rng.between(0, spare);
        let remaining = rng.pick(&[
            any,
            any,
            any,
            spare - 1,
            spare,
            spare + 1,
            spare / 2,
            0,
            1,
            -1,
            -1_280_000_000,
            1_000_000_000,
        ]);
        let output = count + rng.below(4);
        push_share(script, edition, remaining, uegqs, output);
    }
}

pub(super) fn share_refusals(script: &mut Script, edition: Edition) {
    let push = |script: &mut Script, remaining, uegqs, output| {
        push_share(script, edition, remaining, uegqs, output);
    };
    for remaining in [-1_280_000_001, 1_000_000_001, i64::MIN, i64::MAX] {
        push(script, remaining, vec![1, 2], 2);
        push(script, remaining, vec![1, 2], 1);
    }
    for count in [0, 33, LIST_WORDS] {
        push(script, 5, vec![1; count], LIST_WORDS);
        push(script, 5, vec![1; count], 0);
    }
    for count in [1, 2, 7, 32] {
        for index in [0, count / 2, count - 1] {
            for bad in beyond(&QUANTITY) {
                let mut uegqs = values(&mut script.rng, &QUANTITY, count);
                uegqs[index] = bad;
                push(script, 9, uegqs, count);
            }
        }
        for output in [0, count / 2, count - 1] {
            let uegqs = values(&mut script.rng, &QUANTITY, count);
            push(script, 9, uegqs, output);
        }
    }
}

fn tranches(script: &mut Script) {
    for _ in 0..220 {
        let [rvq, bvq, mq] = [(); 3].map(|()| value(&mut script.rng, &QUANTITY));
        script.push(Frame::Tranche { rvq, bvq, mq });
    }
    // The room between MQ and BVQ just above and below the share.
    for _ in 0..60 {
        let rng = &mut script.rng;
        let (rvq, bvq) = (rng.between(0, 5_000_000), rng.between(0, 4_000_000));
        let mq = bvq + rng.pick(&[rvq - 1, rvq, rvq + 1, 0, 1]);
        script.push(Frame::Tranche {
            rvq,
            bvq,
            mq: mq.max(0),
        });
    }
    for index in 0..3 {
        for bad in beyond(&QUANTITY) {
            let mut values = [10, 20, 30];
            values[index] = bad;
            let [rvq, bvq, mq] = values;
            script.push(Frame::Tranche { rvq, bvq, mq });
        }
    }
}
