//! The share call of the second edition, and the first one's beside it.

use super::figures::{beyond, push_share, share_refusals, shares};
use super::Script;
use crate::edition::Edition;
use crate::frames::Frame;
use crate::units::{QUANTITY, REMAINING_LOAD};
use std::collections::BTreeSet;

/// Small lists: alike and unlike accounts, and zeros first, amid and last.
const LISTS: [&[i64]; 20] = [
    &[1],
    &[7],
    &[1, 1],
    &[1, 2],
    &[2, 1],
    &[1, 1, 1],
    &[1, 2, 3],
    &[3, 2, 1],
    &[1, 3, 1],
    &[0, 3, 4],
    &[3, 0, 4],
    &[3, 4, 0],
    &[0, 0, 5],
    &[0, 5, 0],
    &[5, 0, 0],
    &[1, 1, 1, 1, 1],
    &[9, 1, 1, 1, 1],
    &[1, 1, 1, 1, 9],
    &[0, 2, 0, 2, 0, 2, 0],
    &[3, 5, 7, 11, 13, 17],
];

const MOST: i64 = *QUANTITY.end();

pub(super) fn write(script: &mut Script) {
    figures(script);
    for uegqs in LISTS {
        loads(script, uegqs, &[-1, 0, 1, 2]);
    }
    without_spare(script);
    largest(script);
    shares(script, Edition::Second, 70);
    share_refusals(script, Edition::Second);
    unshared_refusals(script);
}

/// A call of the second edition with a word beyond.
fn push(script: &mut Script, remaining: i64, uegqs: &[i64]) {
    let output = uegqs.len() + 1;
    push_share(script, Edition::Second, remaining, uegqs.to_vec(), output);
}

/// The request's figure and those of the specification, in both editions.
fn figures(script: &mut Script) {
    for (remaining, uegqs) in [
        (2, [1, 1, 1]),
        (300, [100, 200, 300]),
        (10, [1, 2, 3]),
        (-5, [1, 2, 3]),
        (10, [0, 0, 0]),
    ] {
        for edition in [Edition::Second, Edition::First] {
            script.push(Frame::Share {
                edition,
                remaining,
                fill: -1,
                uegqs: uegqs.to_vec(),
                output: 4,
            });
        }
    }
}

/// These R, half of S, all of S and the R beside.
fn loads(script: &mut Script, uegqs: &[i64], remaining: &[i64]) {
    let spare: i64 = uegqs.iter().sum();
    let mut loads = BTreeSet::from([spare / 2, spare - 1, spare, spare + 1]);
    loads.extend(remaining);
    for remaining in loads {
        push(script, remaining, uegqs);
    }
}

/// S = 0 with R at the ends of its range.
fn without_spare(script: &mut Script) {
    for remaining in [*REMAINING_LOAD.start(), -1, 0, 1, *REMAINING_LOAD.end()] {
        for count in [1, 3, 32] {
            push(script, remaining, &vec![0; count]);
        }
    }
}

/// 32 accounts of 10,000,000 kWh: the largest sums and products.
fn largest(script: &mut Script) {
    let all = [MOST; 32];
    let (mut first, mut last, mut sparse) = (all, all, all);
    first[0] = MOST - 1;
    last[31] = MOST - 1;
    for account in (0..32).step_by(2) {
        sparse[account] = 0;
    }
    for uegqs in [all, first, last, sparse] {
        let spare: i64 = uegqs.iter().sum();
        // With `last` and R = S − 2 the quotient of the first 16 accounts' sum
        // is 1 / S below a whole number.
        loads(script, &uegqs, &[1, 31, 32, 33, spare / 2 + 1, spare - 2]);
    }
    for remaining in [*REMAINING_LOAD.start(), *REMAINING_LOAD.end()] {
        push(script, remaining, &all);
    }
    loads(script, &[MOST, MOST], &[1, MOST]);
    loads(script, &[MOST, 1, MOST], &[1, MOST]);
}

/// UEGQ out of range where no account has a share, or each has all.
fn unshared_refusals(script: &mut Script) {
    for remaining in [*REMAINING_LOAD.start(), -1, 0, *REMAINING_LOAD.end()] {
        for bad in beyond(&QUANTITY) {
            push(script, remaining, &[3, bad, 4]);
        }
    }
    // R at and beside the ends of its range.
    let (least, most) = (*REMAINING_LOAD.start(), *REMAINING_LOAD.end());
    for remaining in [
        -1_000_000_001,
        -1_000_000_000,
        least,
        most,
        least - 1,
        most + 1,
    ] {
        push(script, remaining, &[3, 0, 4]);
    }
}
