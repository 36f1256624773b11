//! Statements in signed packed decimal, for the holders' ledgers: written as
//! fields and read back.

use crate::numbers::{ACCEPTED, BAD_FIELD, BAD_PARAMETER, OUTPUT_TOO_SHORT};
use crate::units::{MOST_AMOUNTS, PACKED_AMOUNT, STATEMENT_AMOUNTS};
use crate::variant::{Context, Variant, WRONG_PACKED};
use crate::wrong_packed::{wrong_pack, wrong_unpack};

/// A field's 15 digits and its sign are half a byte each.
pub const FIELD_BYTES: usize = 8;
pub(crate) const DIGITS: usize = 15;
/// The byte of the last digit and the sign.
const LAST_BYTE: usize = FIELD_BYTES - 1;

pub(crate) const PLUS: u8 = 0xC;
pub(crate) const MINUS: u8 = 0xD;

#[derive(Clone, Copy, Debug, PartialEq, Eq)]
pub struct UnpackAnswer {
    pub number: u8,
    /// A byte of the fields; 0 unless the number is 16.
    pub position: usize,
    /// The amounts read; 0 when refused.
    pub count: usize,
}

/// Writes a statement's amounts to `output`, a field each, and returns the number.
pub fn pack(amounts: &[i64], output: &mut [u8]) -> u8 {
    let fits = STATEMENT_AMOUNTS.contains(&amounts.len())
        && amounts.iter().all(|cents| PACKED_AMOUNT.contains(cents));
    if !fits {
        return BAD_PARAMETER;
    }
    let (fields, _) = output.as_chunks_mut::<FIELD_BYTES>();
    let Some(fields) = fields.get_mut(..amounts.len()) else {
        return OUTPUT_TOO_SHORT;
    };
    for (field, &amount) in fields.iter_mut().zip(amounts) {
        *field = field_of(amount);
    }
    ACCEPTED
}

/// Reads a statement's fields into `output`, a word each.
pub fn unpack(fields: &[u8], output: &mut [i64]) -> UnpackAnswer {
    let (whole, cut) = fields.as_chunks::<FIELD_BYTES>();
    if !STATEMENT_AMOUNTS.contains(&whole.len()) {
        return refused(BAD_PARAMETER);
    }
    let Some(output) = output.get_mut(..whole.len()) else {
        return refused(OUTPUT_TOO_SHORT);
    };
    // Kept apart until all fields are judged.
    let mut amounts = [0; MOST_AMOUNTS];
    for (at, (amount, field)) in amounts.iter_mut().zip(whole).enumerate() {
        match amount_of(field) {
            Ok(cents) => *amount = cents,
            Err(byte) => return wrong_at(at * FIELD_BYTES + byte),
        }
    }
    if !cut.is_empty() {
        return wrong_at(whole.len() * FIELD_BYTES);
    }
    output.copy_from_slice(&amounts[..whole.len()]);
    UnpackAnswer {
        number: ACCEPTED,
        position: 0,
        count: whole.len(),
    }
}

pub fn pack_in(context: Context, amounts: &[i64], output: &mut [u8]) -> u8 {
    if context.is(Variant::RefusesEverything) {
        BAD_PARAMETER
    } else if WRONG_PACKED.contains(&context.variant) {
        wrong_pack(context, amounts, output)
    } else {
        pack(amounts, output)
    }
}

pub fn unpack_in(context: Context, fields: &[u8], output: &mut [i64]) -> UnpackAnswer {
    if context.is(Variant::RefusesEverything) {
        refused(BAD_PARAMETER)
    } else if WRONG_PACKED.contains(&context.variant) {
        wrong_unpack(context, fields, output)
    } else {
        unpack(fields, output)
    }
}

/// The field of an amount of at most 15 digits.
pub(crate) fn field_of(amount: i64) -> [u8; FIELD_BYTES] {
    let sign = if amount < 0 { MINUS } else { PLUS };
    let magnitude = amount.unsigned_abs();
    let mut field = [0; FIELD_BYTES];
    field[LAST_BYTE] = (magnitude % 10) as u8 * 16 + sign;
    let mut rest = magnitude / 10;
    for byte in field[..LAST_BYTE].iter_mut().rev() {
        let pair = (rest % 100) as u8;
        *byte = pair / 10 * 16 + pair % 10;
        rest /= 100;
    }
    field
}

/// The amount of a field, or its byte that is named wrong.
fn amount_of(field: &[u8; FIELD_BYTES]) -> Result<i64, usize> {
    let halves = u64::from_be_bytes(*field);
    let mut magnitude = 0;
    for at in 0..DIGITS {
        let digit = (halves >> (4 * (DIGITS - at))) & 0xF;
        if digit > 9 {
            return Err(at / 2);
        }
        magnitude = 10 * magnitude + digit as i64;
    }
    match halves as u8 & 0xF {
        PLUS => Ok(magnitude),
        MINUS if magnitude > 0 => Ok(-magnitude),
        _ => Err(LAST_BYTE),
    }
}

pub(crate) fn refused(number: u8) -> UnpackAnswer {
    UnpackAnswer {
        number,
        position: 0,
        count: 0,
    }
}

pub(crate) fn wrong_at(position: usize) -> UnpackAnswer {
    UnpackAnswer {
        position,
        ..refused(BAD_FIELD)
    }
}
