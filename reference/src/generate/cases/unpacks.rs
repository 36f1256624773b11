//! Packed decimal read back.

use super::packs::{places, FIGURES};
use super::{packs, Script};
use crate::frames::{Frame, LIST_WORDS};
use crate::generate::packed::{
    fields_of, set_half, statement, unpack_case, FIELD_HALVES, NEGATIVE_ZERO,
};
use crate::generate::Rng;
use crate::packed::FIELD_BYTES;
use crate::units::MOST_AMOUNTS;
use std::collections::BTreeSet;

/// The half byte of a sign.
const SIGN: usize = FIELD_HALVES - 1;
const WRONG_SIGNS: [u8; 14] = [0, 1, 2, 3, 4, 5, 6, 7, 8, 9, 0xA, 0xB, 0xE, 0xF];

/// What is wrong in a field: a half byte, or that it is a negative zero.
#[derive(Clone, Copy)]
enum Flaw {
    Half(usize),
    NegativeZero,
}

const FLAWS: [Flaw; 6] = [
    Flaw::Half(0),
    Flaw::Half(7),
    Flaw::Half(13),
    Flaw::Half(14),
    Flaw::Half(SIGN),
    Flaw::NegativeZero,
];

pub(super) fn write(script: &mut Script) {
    for amounts in FIGURES.map(<[i64]>::to_vec).into_iter().chain(places()) {
        let words = amounts.len() + 1;
        push(script, fields_of(&amounts), words);
    }
    lengths(script);
    wrong_digits(script);
    signs(script);
    every_field(script);
    two_in_a_field(script);
    two_fields(script);
    cut_fields(script);
    wrong_cuts(script);
    short_outputs(script);
    other_numbers(script);
    first_33_of_34(script);
    round_trips(script);
    for _ in 0..250 {
        let case = unpack_case(&mut script.rng);
        let words = case.output.len().min(LIST_WORDS);
        push(script, case.fields, words);
    }
}

/// A call with so many words of output.
fn push(script: &mut Script, fields: Vec<u8>, words: usize) {
    let fill = script.rng.pick(&[-7, 77]);
    script.push(Frame::Unpack {
        fields,
        fill,
        output: words,
    });
}

/// The fields of so many amounts, none of them zero.
fn good_fields(rng: &mut Rng, count: usize) -> Vec<u8> {
    let mut amounts = statement(rng, count);
    for amount in amounts.iter_mut().filter(|amount| **amount == 0) {
        *amount = 70_605;
    }
    fields_of(&amounts)
}

fn spoil(rng: &mut Rng, fields: &mut [u8], at: usize, flaw: Flaw) {
    match flaw {
        Flaw::Half(SIGN) => {
            let sign = rng.pick(&WRONG_SIGNS);
            set_half(fields, FIELD_HALVES * at + SIGN, sign);
        }
        Flaw::Half(half) => {
            let digit = 10 + rng.below(6) as u8;
            set_half(fields, FIELD_HALVES * at + half, digit);
        }
        Flaw::NegativeZero => {
            fields[FIELD_BYTES * at..][..FIELD_BYTES].copy_from_slice(&NEGATIVE_ZERO);
        }
    }
}

/// Good fields, the last perhaps cut; an output too short, enough and longer.
fn lengths(script: &mut Script) {
    for length in (0_usize..=40).chain(255..=280) {
        let mut fields = good_fields(&mut script.rng, length.div_ceil(FIELD_BYTES));
        fields.truncate(length);
        let whole = length / FIELD_BYTES;
        for words in BTreeSet::from([whole.saturating_sub(1), whole, whole + 2]) {
            push(script, fields.clone(), words);
        }
    }
}

/// Each value above 9 at each digit of each of three fields.
fn wrong_digits(script: &mut Script) {
    for field in 0..3 {
        for half in 0..SIGN {
            for value in 0xA..=0xF {
                let mut fields = good_fields(&mut script.rng, 3);
                set_half(&mut fields, FIELD_HALVES * field + half, value);
                push(script, fields, 3);
            }
        }
    }
}

/// Each sign of each of three fields, zero and not.
fn signs(script: &mut Script) {
    for field in 0..3 {
        for sign in 0..=0xF {
            let mut fields = good_fields(&mut script.rng, 3);
            set_half(&mut fields, FIELD_HALVES * field + SIGN, sign);
            push(script, fields.clone(), 4);
            fields[FIELD_BYTES * field..][..FIELD_BYTES].fill(0);
            set_half(&mut fields, FIELD_HALVES * field + SIGN, sign);
            push(script, fields, 4);
        }
    }
    // Nearly a negative zero: one digit alone is 1.
    for half in 0..SIGN {
        let mut fields = NEGATIVE_ZERO.repeat(2);
        set_half(&mut fields, half, 1);
        set_half(&mut fields, FIELD_HALVES + SIGN - 1 - half, 1);
        push(script, fields, 2);
    }
}

/// Each field of two and of 33 alone is wrong.
fn every_field(script: &mut Script) {
    for count in [2, MOST_AMOUNTS] {
        for at in 0..count {
            let half = Flaw::Half(script.rng.below(FIELD_HALVES));
            for flaw in [half, Flaw::NegativeZero] {
                let mut fields = good_fields(&mut script.rng, count);
                spoil(&mut script.rng, &mut fields, at, flaw);
                push(script, fields, count);
            }
        }
    }
}

/// Any two half bytes of a field, those of a byte too, and all of them.
fn two_in_a_field(script: &mut Script) {
    for second in 1..FIELD_HALVES {
        for first in 0..second {
            let at = script.rng.below(3);
            let mut fields = good_fields(&mut script.rng, 3);
            spoil(&mut script.rng, &mut fields, at, Flaw::Half(first));
            spoil(&mut script.rng, &mut fields, at, Flaw::Half(second));
            push(script, fields, 3);
        }
    }
    push(script, vec![0xFF; 16], 2);
    push(script, vec![0xDD; 16], 2);
    push(script, vec![0; 16], 2);
}

/// Two fields are wrong, each in any way.
fn two_fields(script: &mut Script) {
    for (count, first, second) in [(2, 0, 1), (3, 1, 2), (MOST_AMOUNTS, 0, MOST_AMOUNTS - 1)] {
        for earlier in FLAWS {
            for later in FLAWS {
                let mut fields = good_fields(&mut script.rng, count);
                spoil(&mut script.rng, &mut fields, first, earlier);
                spoil(&mut script.rng, &mut fields, second, later);
                push(script, fields, count);
            }
        }
    }
}

/// A last field of which bytes are there, good or not.
fn cut_fields(script: &mut Script) {
    for whole in [0, 1, 2, 3, 32, 33] {
        for over in 1..FIELD_BYTES {
            let fields = good_fields(&mut script.rng, whole + 1);
            let end = FIELD_BYTES * whole + over;
            let good = fields[..end].to_vec();
            let (mut wild, mut zero) = (good.clone(), good.clone());
            wild[FIELD_BYTES * whole..].fill(0xFF);
            // As if its sign were there.
            zero[FIELD_BYTES * whole..].fill(0);
            zero[end - 1] = NEGATIVE_ZERO[FIELD_BYTES - 1];
            for fields in [good, wild, zero] {
                push(script, fields, whole);
            }
        }
    }
}

/// A cut last field, and a whole one before it is wrong.
fn wrong_cuts(script: &mut Script) {
    for whole in [2, 3, MOST_AMOUNTS] {
        for over in 1..FIELD_BYTES {
            let half = Flaw::Half(script.rng.below(FIELD_HALVES));
            for (at, flaw) in [
                (0, half),
                (whole - 1, half),
                (0, Flaw::NegativeZero),
                (whole - 1, Flaw::NegativeZero),
            ] {
                let mut fields = good_fields(&mut script.rng, whole + 1);
                spoil(&mut script.rng, &mut fields, at, flaw);
                fields.truncate(FIELD_BYTES * whole + over);
                if script.rng.percent(50) {
                    fields[FIELD_BYTES * whole..].fill(0xFF);
                }
                push(script, fields, whole + 1);
            }
        }
    }
}

/// Too short an output where a field is wrong or cut, or both, or all are good.
fn short_outputs(script: &mut Script) {
    for whole in [2, 3, MOST_AMOUNTS] {
        for words in BTreeSet::from([0, 1, whole - 1]) {
            for flaw in FLAWS {
                let mut fields = good_fields(&mut script.rng, whole);
                let at = script.rng.below(whole);
                spoil(&mut script.rng, &mut fields, at, flaw);
                push(script, fields.clone(), words);
                fields.extend([0, 1, 2]);
                push(script, fields, words);
            }
            let mut fields = good_fields(&mut script.rng, whole);
            push(script, fields.clone(), words);
            fields.extend([0, 1, 2]);
            push(script, fields, words);
        }
    }
}

/// Numbers of whole fields that are no statement's: good, wrong and cut, with any
/// output.
fn other_numbers(script: &mut Script) {
    for whole in [0, 1, 34, 35, 40, 63] {
        let good = good_fields(&mut script.rng, whole);
        let (mut wrong, mut cut) = (good.clone(), good.clone());
        if whole > 0 {
            spoil(&mut script.rng, &mut wrong, whole - 1, Flaw::NegativeZero);
        }
        cut.extend([0, 1, 2, 3, 4]);
        for fields in [good, wrong, cut] {
            for words in [0, whole.min(LIST_WORDS), LIST_WORDS] {
                push(script, fields.clone(), words);
            }
        }
    }
}

/// What a call on 34 fields would read if it were given 33 of them.
fn first_33_of_34(script: &mut Script) {
    let good = good_fields(&mut script.rng, MOST_AMOUNTS + 1);
    let (mut wrong, mut last_wrong) = (good.clone(), good.clone());
    spoil(&mut script.rng, &mut wrong, MOST_AMOUNTS - 1, Flaw::Half(9));
    spoil(
        &mut script.rng,
        &mut last_wrong,
        MOST_AMOUNTS,
        Flaw::Half(9),
    );
    for fields in [good, wrong, last_wrong] {
        let first = fields[..FIELD_BYTES * MOST_AMOUNTS].to_vec();
        for words in [MOST_AMOUNTS - 1, MOST_AMOUNTS, MOST_AMOUNTS + 1] {
            push(script, fields.clone(), words);
            push(script, first.clone(), words);
        }
    }
}

/// A statement of each number of amounts, written and then read.
fn round_trips(script: &mut Script) {
    for count in 2..=MOST_AMOUNTS {
        let amounts = statement(&mut script.rng, count);
        packs::push(script, amounts.clone(), FIELD_BYTES * count);
        push(script, fields_of(&amounts), count);
    }
}
