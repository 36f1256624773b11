//! Statements in packed decimal; fields well formed, damaged and cut.

use super::Rng;
use crate::packed::{field_of, DIGITS, FIELD_BYTES};
use crate::units::{MOST_AMOUNTS, PACKED_AMOUNT};

/// The half bytes of a field, the last being its sign.
pub const FIELD_HALVES: usize = 2 * FIELD_BYTES;
/// The field of a negative zero.
pub const NEGATIVE_ZERO: [u8; FIELD_BYTES] = [0, 0, 0, 0, 0, 0, 0, 0x0D];

/// The arguments of a call that writes.
#[derive(Clone, Debug)]
pub struct PackCase {
    pub amounts: Vec<i64>,
    /// As it is before the call.
    pub output: Vec<u8>,
}

/// The arguments of a call that reads.
#[derive(Clone, Debug)]
pub struct UnpackCase {
    pub fields: Vec<u8>,
    /// As it is before the call.
    pub output: Vec<i64>,
}

/// Amounts to write. About half are accepted; of the others some are too many or too
/// few, some have an amount that does not fit and some too short an output.
pub fn pack_case(rng: &mut Rng) -> PackCase {
    let count = count(rng);
    let mut amounts = statement(rng, count);
    if count > 0 && rng.percent(25) {
        for _ in 0..=rng.below(2) {
            let any = rng.below(count);
            let at = rng.pick(&[0, any, count - 1]);
            amounts[at] = long_amount(rng);
        }
    }
    let length = room(rng, FIELD_BYTES * count);
    PackCase {
        amounts,
        output: rng.bytes(length),
    }
}

/// Fields to read, mostly of a statement. About a third are accepted; most of the
/// others are damaged in some half bytes, cut or lengthened.
pub fn unpack_case(rng: &mut Rng) -> UnpackCase {
    let mut fields = if rng.percent(4) {
        let length = rng.below(300);
        rng.bytes(length)
    } else {
        let count = count(rng);
        fields_of(&statement(rng, count))
    };
    for _ in 0..rng.pick(&[0, 0, 0, 1, 1, 2, 3]) {
        damage(rng, &mut fields);
    }
    if rng.percent(20) {
        cut_or_lengthen(rng, &mut fields);
    }
    let words = room(rng, fields.len() / FIELD_BYTES);
    let output = (0..words).map(|_| rng.draw() as i64).collect();
    UnpackCase { fields, output }
}

/// So many amounts that fit, of mixed sizes and either sign.
pub fn statement(rng: &mut Rng, count: usize) -> Vec<i64> {
    (0..count).map(|_| amount(rng)).collect()
}

/// The fields of so many amounts that fit, a statement or not.
pub fn fields_of(amounts: &[i64]) -> Vec<u8> {
    amounts.iter().flat_map(|&cents| field_of(cents)).collect()
}

/// Puts a value into a half byte, the upper one of a byte being the earlier.
pub fn set_half(fields: &mut [u8], half: usize, value: u8) {
    let byte = &mut fields[half / 2];
    *byte = if half.is_multiple_of(2) {
        16 * value + *byte % 16
    } else {
        *byte / 16 * 16 + value
    };
}

fn amount(rng: &mut Rng) -> i64 {
    let most = *PACKED_AMOUNT.end();
    let magnitude = match rng.below(10) {
        0 => rng.pick(&[0, 0, 1, 9, 10]),
        1 => most - rng.between(0, 9),
        // One digit alone, at any place.
        2 => rng.between(1, 9) * power_of_ten(rng.below(DIGITS)),
        _ => {
            let digits = 1 + rng.below(DIGITS);
            rng.between(0, power_of_ten(digits) - 1)
        }
    };
    if rng.percent(50) {
        -magnitude
    } else {
        magnitude
    }
}

pub(crate) fn power_of_ten(exponent: usize) -> i64 {
    10_i64.pow(exponent as u32)
}

/// An amount of more than 15 digits.
fn long_amount(rng: &mut Rng) -> i64 {
    let next = PACKED_AMOUNT.end() + 1;
    let magnitude = match rng.below(4) {
        0 => next,
        1 => rng.pick(&[next + 1, 10 * next - 1, 10 * next, 1_000 * next]),
        2 => return rng.pick(&[i64::MIN, i64::MIN + 1, i64::MAX]),
        _ => rng.between(next, i64::MAX),
    };
    rng.pick(&[-magnitude, magnitude])
}

/// Mostly the number of a statement's amounts, else one that is none.
fn count(rng: &mut Rng) -> usize {
    match rng.below(20) {
        0..=11 => 2 + rng.below(MOST_AMOUNTS - 1),
        12..=16 => rng.pick(&[2, 3, MOST_AMOUNTS - 1, MOST_AMOUNTS]),
        17..=18 => rng.pick(&[0, 1, MOST_AMOUNTS + 1]),
        _ => rng.below(41),
    }
}

/// An output's length: mostly enough.
fn room(rng: &mut Rng, needed: usize) -> usize {
    match rng.below(10) {
        0..=4 => needed,
        5..=7 => needed + 1 + rng.below(20),
        8 => needed.saturating_sub(1),
        _ => rng.below(needed + 1),
    }
}

/// One half byte or byte is wrong, or a field is a negative zero.
fn damage(rng: &mut Rng, fields: &mut [u8]) {
    if fields.is_empty() {
        return;
    }
    let any = rng.below(2 * fields.len());
    match rng.below(10) {
        0..=1 => {
            let start = any / FIELD_HALVES * FIELD_BYTES;
            if let Some(field) = fields.get_mut(start..start + FIELD_BYTES) {
                field.copy_from_slice(&NEGATIVE_ZERO);
            }
        }
        2..=3 => {
            let sign = (any | (FIELD_HALVES - 1)).min(2 * fields.len() - 1);
            set_half(fields, sign, rng.below(16) as u8);
        }
        4 => fields[any / 2] = rng.draw() as u8,
        _ => set_half(fields, any, 10 + rng.below(6) as u8),
    }
}

fn cut_or_lengthen(rng: &mut Rng, fields: &mut Vec<u8>) {
    let over = 1 + rng.below(FIELD_BYTES);
    if rng.percent(50) {
        fields.truncate(fields.len().saturating_sub(over));
    } else {
        let next = fields_of(&statement(rng, 1));
        let any = rng.bytes(FIELD_BYTES);
        let more = if rng.percent(60) { next } else { any };
        fields.extend(&more[..over]);
    }
}
