//! Packed decimal with the slips of the wrong variants, one by one. It works half
//! byte by half byte; without a slip it answers as `pack` and `unpack` do.

use crate::numbers::{ACCEPTED, BAD_PARAMETER, OUTPUT_TOO_SHORT};
use crate::packed::{refused, wrong_at, UnpackAnswer, DIGITS, FIELD_BYTES, MINUS, PLUS};
use crate::units::{MOST_AMOUNTS, PACKED_AMOUNT, STATEMENT_AMOUNTS};
use crate::variant::{Context, Variant};

/// The half byte of the sign.
const SIGN: usize = DIGITS;

pub fn wrong_pack(context: Context, amounts: &[i64], output: &mut [u8]) -> u8 {
    let needed = FIELD_BYTES * amounts.len();
    let number = number_fits(context, amounts.len());
    let bad = bad_amount(context, amounts);
    let judged = match context.variant {
        Variant::TooShortBeforeNumber => true,
        Variant::TooShortBeforeAmounts => number,
        _ => number && bad.is_none(),
    };
    if judged && is_short(context, output.len(), needed) {
        if context.is(Variant::FillsRoomBeforeTooShort) {
            write_fields(context, amounts, output);
        }
        return OUTPUT_TOO_SHORT;
    }
    if !number {
        return BAD_PARAMETER;
    }
    if let Some(at) = bad {
        if context.is(Variant::WritesUpToBadAmount) {
            write_fields(context, &amounts[..at], output);
        }
        return BAD_PARAMETER;
    }
    write_fields(context, amounts, output);
    if context.is(Variant::ClearsBeyondStatement) {
        output[needed..].fill(0);
    }
    ACCEPTED
}

pub fn wrong_unpack(context: Context, fields: &[u8], output: &mut [i64]) -> UnpackAnswer {
    let whole = fields.len() / FIELD_BYTES;
    let wrong = first_wrong(context, fields);
    let refusal = refusal(context, fields, wrong, output.len());
    let read = wrong.map_or(whole, |wrong| wrong.field.min(whole));
    let writes = match (refusal, context.variant) {
        (None, _) => true,
        (Some(answer), Variant::FillsRoomBeforeTooShort) => answer.number == OUTPUT_TOO_SHORT,
        (Some(answer), Variant::ReadsUpToWrongField) => {
            answer.number != BAD_PARAMETER && answer.number != OUTPUT_TOO_SHORT
        }
        _ => false,
    };
    if writes {
        let fields = fields.chunks_exact(FIELD_BYTES).take(read);
        for (word, field) in output.iter_mut().zip(fields) {
            *word = amount_of(context, field);
        }
    }
    if let Some(answer) = refusal {
        return answer;
    }
    if context.is(Variant::ClearsBeyondStatement) {
        output[whole..].fill(0);
    }
    UnpackAnswer {
        count: if context.is(Variant::CountsNothing) {
            0
        } else {
            whole
        },
        ..refused(ACCEPTED)
    }
}

fn number_fits(context: Context, number: usize) -> bool {
    let fits = STATEMENT_AMOUNTS.contains(&number);
    match context.variant {
        Variant::TakesNoAmounts => number == 0 || fits,
        Variant::TakesOneAmount => number == 1 || fits,
        Variant::RefusesTwoAmounts => number != 2 && fits,
        Variant::Refuses33Amounts => number != MOST_AMOUNTS && fits,
        Variant::Takes34Amounts => number == MOST_AMOUNTS + 1 || fits,
        _ => fits,
    }
}

fn is_short(context: Context, room: usize, needed: usize) -> bool {
    match context.variant {
        Variant::NeedsExactRoom => room != needed,
        _ => room < needed,
    }
}

/// The first amount that is refused.
fn bad_amount(context: Context, amounts: &[i64]) -> Option<usize> {
    let judged = match context.variant {
        Variant::FirstAmountAloneJudged => amounts.len().min(1),
        Variant::LastAmountUnjudged => amounts.len().saturating_sub(1),
        _ => amounts.len(),
    };
    let most = PACKED_AMOUNT.end().unsigned_abs();
    amounts[..judged].iter().position(|&amount| {
        let magnitude = amount.unsigned_abs();
        match context.variant {
            Variant::TakesMinusTenTo15 => amount < -1 - most as i64 || amount > most as i64,
            Variant::Takes16Digits => magnitude > 10 * most + 9,
            Variant::WrapsLeastAmount => amount.wrapping_abs() > most as i64,
            Variant::Refuses15Nines => magnitude >= most,
            _ => magnitude > most,
        }
    })
}

/// As many fields as have room.
fn write_fields(context: Context, amounts: &[i64], output: &mut [u8]) {
    let fields = output.chunks_exact_mut(FIELD_BYTES);
    for (field, &amount) in fields.zip(amounts) {
        write_field(context, amount, field);
    }
}

fn write_field(context: Context, amount: i64, field: &mut [u8]) {
    let base = base(context);
    let mut rest = amount.unsigned_abs();
    let mut halves = [0; DIGITS + 1];
    for digit in halves[..DIGITS].iter_mut().rev() {
        *digit = (rest % base) as u8;
        rest /= base;
    }
    halves[SIGN] = sign_of(context, amount);
    match context.variant {
        Variant::DigitsFromLeast => halves[..DIGITS].reverse(),
        Variant::SignInFirstHalf => halves.rotate_right(1),
        _ => {}
    }
    for (byte, pair) in field.iter_mut().zip(halves.chunks_exact(2)) {
        *byte = 16 * pair[0] + pair[1];
    }
    if context.is(Variant::BytesReversed) {
        field.reverse();
    }
}

fn base(context: Context) -> u64 {
    if context.is(Variant::DigitsOfBase16) {
        16
    } else {
        10
    }
}

fn sign_of(context: Context, amount: i64) -> u8 {
    match context.variant {
        Variant::ExchangesSigns if amount < 0 => PLUS,
        Variant::ExchangesSigns => MINUS,
        Variant::WritesZeroWithD if amount == 0 => MINUS,
        Variant::WritesPlusAsF if amount >= 0 => 0xF,
        Variant::WritesNegativeAsPositive => PLUS,
        _ if amount < 0 => MINUS,
        _ => PLUS,
    }
}

/// Whether a sign is below zero; none if it is wrong.
fn is_below_zero(context: Context, sign: u8) -> Option<bool> {
    match (context.variant, sign) {
        (Variant::ExchangesSigns, PLUS) => Some(true),
        (Variant::ExchangesSigns, MINUS) => Some(false),
        (_, PLUS) => Some(false),
        (_, MINUS) => Some(true),
        (Variant::TakesSignF, 0xF) => Some(false),
        (Variant::TakesSignsAAndE, 0xA | 0xE) => Some(false),
        (Variant::TakesSignB, 0xB) => Some(true),
        (Variant::SignsUnjudged, _) => Some(false),
        _ => None,
    }
}

/// A field's half bytes, digits from the most significant and then the sign: the
/// place of each in the field, and its value. A cut field has fewer.
fn halves_of(context: Context, field: &[u8]) -> Vec<(usize, u8)> {
    let place = |half: usize| match context.variant {
        Variant::BytesReversed => (DIGITS - half) ^ 1,
        Variant::SignInFirstHalf => (half + 1) % (DIGITS + 1),
        Variant::DigitsFromLeast if half < SIGN => DIGITS - 1 - half,
        _ => half,
    };
    let value = |place: usize| {
        let byte = field[place / 2];
        if place.is_multiple_of(2) {
            byte / 16
        } else {
            byte % 16
        }
    };
    let places = (0..2 * field.len()).map(place);
    places.map(|place| (place, value(place))).collect()
}

/// The amount of a whole field, its digits being what they may.
fn amount_of(context: Context, field: &[u8]) -> i64 {
    let halves = halves_of(context, field);
    let base = base(context) as i64;
    let magnitude = halves[..DIGITS]
        .iter()
        .fold(0, |sum, &(_, digit)| base * sum + i64::from(digit));
    let below_zero = is_below_zero(context, halves[SIGN].1) == Some(true);
    if below_zero && !context.is(Variant::ReadsNegativeAsPositive) {
        -magnitude
    } else {
        magnitude
    }
}

#[derive(Clone, Copy, PartialEq)]
enum Kind {
    Digit,
    Sign,
    NegativeZero,
    Cut,
}

/// What is wrong at a half byte of a field.
#[derive(Clone, Copy)]
struct Wrong {
    field: usize,
    half: usize,
    kind: Kind,
}

/// The wrong half byte that is named, of whole fields.
fn first_wrong(context: Context, fields: &[u8]) -> Option<Wrong> {
    let judged = match context.variant {
        Variant::JudgesCutField => fields.len(),
        _ => fields.len() / FIELD_BYTES * FIELD_BYTES,
    };
    let fields = fields[..judged].chunks(FIELD_BYTES).enumerate();
    let wrong = fields.flat_map(|(at, field)| wrong_halves(context, at, field));
    wrong.min_by_key(|wrong| {
        let Wrong { field, half, kind } = *wrong;
        match context.variant {
            Variant::SignBeforeDigits => (field, usize::from(kind == Kind::Digit), half),
            Variant::LastWrongOfField => (field, 0, SIGN - half),
            Variant::LastWrongField => (usize::MAX - field, 0, half),
            Variant::DigitsOfAllFieldsFirst => (usize::from(kind != Kind::Digit), field, half),
            Variant::NegativeZerosAfterAllFields => {
                (usize::from(kind == Kind::NegativeZero), field, half)
            }
            _ => (field, 0, half),
        }
    })
}

fn wrong_halves(context: Context, at: usize, field: &[u8]) -> Vec<Wrong> {
    let halves = halves_of(context, field);
    let wrong_at = |half, kind| Wrong {
        field: at,
        half,
        kind,
    };
    let digits = halves.iter().take(DIGITS).enumerate();
    let wrong = digits.filter(|(order, (half, digit))| {
        let judged = match context.variant {
            Variant::UpperHalvesUnjudged => half % 2 == 1,
            Variant::LowerHalvesUnjudged => half % 2 == 0,
            Variant::LastDigitUnjudged => *order != DIGITS - 1,
            _ => true,
        };
        judged && u64::from(*digit) >= base(context)
    });
    let mut wrong: Vec<Wrong> = wrong
        .map(|(_, (half, _))| wrong_at(*half, Kind::Digit))
        .collect();
    let Some((half, sign)) = halves.get(SIGN) else {
        return wrong;
    };
    let is_zero = halves[..DIGITS].iter().all(|(_, digit)| *digit == 0);
    match is_below_zero(context, *sign) {
        None => wrong.push(wrong_at(*half, Kind::Sign)),
        Some(true) if is_zero && !context.is(Variant::TakesNegativeZero) => {
            wrong.push(wrong_at(*half, Kind::NegativeZero));
        }
        _ => {}
    }
    wrong
}

/// The refusal that is given, if any.
fn refusal(
    context: Context,
    fields: &[u8],
    wrong: Option<Wrong>,
    room: usize,
) -> Option<UnpackAnswer> {
    let (whole, over) = (fields.len() / FIELD_BYTES, fields.len() % FIELD_BYTES);
    let rounded_up = fields.len().div_ceil(FIELD_BYTES);
    let (counted, needed) = match context.variant {
        Variant::RoundsFieldsUp => (rounded_up, rounded_up),
        Variant::RoomForCutField => (whole, rounded_up),
        _ => (whole, whole),
    };
    let is_bad = !number_fits(context, counted) || over > 0 && context.is(Variant::CutGives1);
    let bad = is_bad.then(|| refused(BAD_PARAMETER));
    let short = is_short(context, room, needed).then(|| refused(OUTPUT_TOO_SHORT));
    let is_cut = over > 0 && !context.is(Variant::IgnoresCutField);
    let cut = is_cut.then_some(Wrong {
        field: whole,
        half: 0,
        kind: Kind::Cut,
    });
    let [wrong, cut] = [wrong, cut].map(|wrong| Some(named(context, wrong?, fields.len())));
    let order = match context.variant {
        Variant::TooShortBeforeNumber => [short, bad, wrong, cut],
        Variant::TooShortAfterFields => [bad, wrong, cut, short],
        Variant::TooShortBeforeCutAlone => [bad, wrong, short, cut],
        Variant::CutBeforeFields => [bad, short, cut, wrong],
        _ => [bad, short, wrong, cut],
    };
    order.into_iter().flatten().next()
}

/// The answer of number 16, for fields of so many bytes.
fn named(context: Context, wrong: Wrong, length: usize) -> UnpackAnswer {
    let Wrong { field, half, kind } = wrong;
    let start = FIELD_BYTES * field;
    let position = match (context.variant, kind) {
        (Variant::WrongDigitAtFieldStart, Kind::Digit)
        | (Variant::WrongSignAtFieldStart, Kind::Sign)
        | (Variant::NegativeZeroAtFieldStart, Kind::NegativeZero) => start,
        (Variant::NegativeZeroAtByteBefore, Kind::NegativeZero) => start + half / 2 - 1,
        (Variant::CutAtLastByte, Kind::Cut) => length - 1,
        (Variant::CutAtFileEnd, Kind::Cut) => length,
        (Variant::PositionsInHalfBytes, _) => 2 * start + half,
        (Variant::PositionsInFields, _) => field,
        (Variant::PositionsWithinField, _) => half / 2,
        _ => start + half / 2,
    };
    let count = match context.variant {
        Variant::CountsBeforeWrongField => field,
        _ => 0,
    };
    UnpackAnswer {
        count,
        ..wrong_at(position)
    }
}
