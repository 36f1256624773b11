//! Statements written in packed decimal.

use super::Script;
use crate::frames::{Frame, PACKED_BYTES};
use crate::generate::packed::{pack_case, power_of_ten, statement, PackCase};
use crate::packed::{DIGITS, FIELD_BYTES};
use crate::units::{MOST_AMOUNTS, PACKED_AMOUNT};
use std::collections::BTreeSet;

const MOST: i64 = *PACKED_AMOUNT.end();

/// Amounts told by hand.
pub(super) const FIGURES: [&[i64]; 7] = [
    &[0, 0],
    &[1, -1],
    &[9, -9, 10, -10],
    &[123_456_789_012_345, -123_456_789_012_345],
    &[100_000_000_000_000, -100_000_000_000_000],
    &[MOST, -MOST],
    &[2_000, -2_000, 0],
];

const SMALL: [i64; 8] = [0, 1, -1, 9, -9, 10, -10, 99];
const LARGEST: [i64; 4] = [MOST - 1, 1 - MOST, MOST, -MOST];
/// Of more than 15 digits.
const LONG: [i64; 15] = [
    MOST + 1,
    -MOST - 1,
    MOST + 2,
    -MOST - 2,
    10 * MOST + 9,
    -10 * MOST - 9,
    10 * MOST + 10,
    -10 * MOST - 10,
    1_234_567_890_123_456,
    -1_234_567_890_123_456,
    999_999_999_999_999_999,
    -999_999_999_999_999_999,
    i64::MAX,
    i64::MIN + 1,
    i64::MIN,
];

pub(super) fn write(script: &mut Script) {
    for amounts in FIGURES.map(<[i64]>::to_vec).into_iter().chain(places()) {
        let room = FIELD_BYTES * amounts.len();
        push(script, amounts, room);
    }
    numbers_of_amounts(script);
    outputs(script);
    single_amounts(script);
    long_amounts(script);
    for _ in 0..150 {
        let PackCase { amounts, output } = pack_case(&mut script.rng);
        script.push(Frame::Pack { amounts, output });
    }
}

/// A call with so many bytes of output, which are drawn.
pub(super) fn push(script: &mut Script, amounts: Vec<i64>, room: usize) {
    let output = script.rng.bytes(room);
    script.push(Frame::Pack { amounts, output });
}

/// Each digit at each place, alone and with all places alike, either way.
pub(super) fn places() -> impl Iterator<Item = Vec<i64>> {
    let alone = (0..DIGITS).map(power_of_ten);
    let factors = alone.chain([MOST / 9]);
    factors.map(|factor| {
        let digits = (1..=9).flat_map(|digit| [digit, -digit]);
        digits.map(|digit| digit * factor).collect()
    })
}

/// Numbers of amounts at and beside the limits, with enough output and too little.
fn numbers_of_amounts(script: &mut Script) {
    for count in [0, 1, 2, 3, 32, 33, 34, 40] {
        let exact = FIELD_BYTES * count;
        let rooms = BTreeSet::from([
            0,
            exact.saturating_sub(FIELD_BYTES),
            exact.saturating_sub(1),
            exact,
            exact + 1,
            exact + FIELD_BYTES,
            FIELD_BYTES * MOST_AMOUNTS,
            PACKED_BYTES,
        ]);
        for room in rooms {
            let amounts = statement(&mut script.rng, count);
            push(script, amounts, room);
        }
        push(script, vec![0; count], exact);
    }
}

/// Every output up to more than enough for two amounts, and some for 33.
fn outputs(script: &mut Script) {
    for room in 0..=26 {
        push(script, vec![12_345, -678], room);
    }
    for room in [1, 8, 15, 16, 24, 255, 256, 257, 263, 264, 265, 271, 272] {
        let amounts = statement(&mut script.rng, MOST_AMOUNTS);
        push(script, amounts, room);
    }
}

/// Statements of 3 and of 33 amounts, one of which is this: first, amid and last.
fn with_amount(script: &mut Script, amount: i64, mut each: impl FnMut(&mut Script, Vec<i64>)) {
    for count in [3, MOST_AMOUNTS] {
        for at in [0, count / 2, count - 1] {
            let mut amounts = statement(&mut script.rng, count);
            amounts[at] = amount;
            each(script, amounts);
        }
    }
}

/// Small amounts and the largest ones, with some bytes beyond.
fn single_amounts(script: &mut Script) {
    for amount in SMALL.into_iter().chain(LARGEST) {
        with_amount(script, amount, |script, amounts| {
            let room = FIELD_BYTES * amounts.len() + 5;
            push(script, amounts, room);
        });
    }
}

/// An amount of too many digits, with enough output and too little.
fn long_amounts(script: &mut Script) {
    for amount in LONG {
        with_amount(script, amount, |script, amounts| {
            let exact = FIELD_BYTES * amounts.len();
            for room in [exact, exact - 1] {
                push(script, amounts.clone(), room);
            }
        });
        push(script, vec![amount, 1, -1], 0);
        push(script, vec![amount; 2], 16);
        push(script, vec![1, amount], 20);
    }
}
