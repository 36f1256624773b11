//! Each wrong way to write and read packed decimal is shown.

use reference::frames::Frame;
use reference::generate::cases::cases;
use reference::generate::packed::{pack_case, unpack_case};
use reference::generate::Rng;
use reference::packed::{pack, pack_in, unpack, unpack_in, UnpackAnswer};
use reference::player::Player;
use reference::variant::{Context, Variant, WRONG_PACKED};
use reference::wrong_packed::{wrong_pack, wrong_unpack};
use std::collections::BTreeSet;

/// The number and the output after a call that writes.
fn packed(call: impl Fn(&[i64], &mut [u8]) -> u8, amounts: &[i64], output: &[u8]) -> (u8, Vec<u8>) {
    let mut output = output.to_vec();
    let number = call(amounts, &mut output);
    (number, output)
}

/// The answer and the output after a call that reads.
fn unpacked(
    call: impl Fn(&[u8], &mut [i64]) -> UnpackAnswer,
    fields: &[u8],
    output: &[i64],
) -> (UnpackAnswer, Vec<i64>) {
    let mut output = output.to_vec();
    let answer = call(fields, &mut output);
    (answer, output)
}

#[test]
fn without_a_slip_both_calls_are_right() {
    let mut rng = Rng::new(0x9C);
    for _ in 0..30_000 {
        let written = pack_case(&mut rng);
        let (amounts, output) = (&written.amounts, &written.output);
        let right = packed(pack, amounts, output);
        let read = unpack_case(&mut rng);
        let (fields, words) = (&read.fields, &read.output);
        let right_read = unpacked(unpack, fields, words);
        for context in [Context::RIGHT, Context::of(Variant::StoresNothing)] {
            let wrong = packed(|from, to| wrong_pack(context, from, to), amounts, output);
            assert_eq!(wrong, right, "{written:?}");
            let answer = packed(|from, to| pack_in(context, from, to), amounts, output);
            assert_eq!(answer, right, "{written:?}");
            let wrong = unpacked(|from, to| wrong_unpack(context, from, to), fields, words);
            assert_eq!(wrong, right_read, "{read:?}");
            let answer = unpacked(|from, to| unpack_in(context, from, to), fields, words);
            assert_eq!(answer, right_read, "{read:?}");
        }
    }
}

#[test]
fn drawn_cases_show_each_slip() {
    for variant in WRONG_PACKED {
        let context = Context::of(variant);
        let mut rng = Rng::new(0x9D);
        let differs = (0..20_000).any(|_| {
            let written = pack_case(&mut rng);
            let (amounts, output) = (&written.amounts, &written.output);
            let read = unpack_case(&mut rng);
            let (fields, words) = (&read.fields, &read.output);
            packed(|from, to| pack_in(context, from, to), amounts, output)
                != packed(pack, amounts, output)
                || unpacked(|from, to| unpack_in(context, from, to), fields, words)
                    != unpacked(unpack, fields, words)
        });
        assert!(differs, "{variant:?}");
    }
}

/// The slips of a field's form and of both calls are shown by the stored calls of
/// both, each other slip by those of its own call alone.
#[test]
fn stored_calls_show_each_slip() {
    let mut frames = cases();
    frames.retain(Frame::is_packed);
    let (both, others) = WRONG_PACKED.split_at(14);
    let (writing, _) = others.split_at(11);
    let play = |context| {
        let mut player = Player::with_book(context, Vec::new());
        let lines = frames.iter().filter_map(|frame| player.play(frame));
        lines.collect::<Vec<String>>()
    };
    let right = play(Context::RIGHT);
    for variant in WRONG_PACKED {
        let wrong = play(Context::of(variant));
        let changed = right
            .iter()
            .zip(&wrong)
            .filter(|(right, wrong)| right != wrong);
        let shown: BTreeSet<&str> = changed
            .filter_map(|(right, _)| right.split(' ').next())
            .collect();
        let expected: &[&str] = if both.contains(&variant) {
            &["pack", "unpack"]
        } else if writing.contains(&variant) {
            &["pack"]
        } else {
            &["unpack"]
        };
        assert!(shown.iter().eq(expected), "{variant:?}: {shown:?}");
    }
}

#[test]
fn who_refuses_everything_refuses_packed_decimal() {
    let refusing = Context::of(Variant::RefusesEverything);
    assert_eq!(pack_in(refusing, &[1, 2], &mut [0; 16]), 1);
    let answer = unpack_in(refusing, &fields(GOOD), &mut [0; 2]);
    assert_eq!((answer.number, answer.position, answer.count), (1, 0, 0));
}

/// The fields of 12 and -3.
const GOOD: &str = "12C 3D";
/// An output as it was.
const KEPT: &str = "EEEEEEEEEEEEEEEE EEEEEEEEEEEEEEEE";
const TEN_TO_15: i64 = 1_000_000_000_000_000;

/// Fields without their leading zeros; after a plus, so many bytes.
fn fields(words: &str) -> Vec<u8> {
    let padded = words
        .split_whitespace()
        .map(|word| match word.strip_prefix('+') {
            Some(bytes) => bytes.to_owned(),
            None => format!("{word:0>16}"),
        });
    let hex: String = padded.collect();
    let bytes = (0..hex.len()).step_by(2);
    bytes
        .map(|at| u8::from_str_radix(&hex[at..at + 2], 16).unwrap())
        .collect()
}

/// A slip's number and output, told by hand: the amounts, the number, the output, all
/// bytes being hex EE before the call.
const WRITING: [(Variant, &[i64], u8, &str); 27] = [
    (
        Variant::DigitsFromLeast,
        &[12, -3],
        0,
        "210000000000000C 300000000000000D",
    ),
    (
        Variant::SignInFirstHalf,
        &[12, -3],
        0,
        "C000000000000012 D000000000000003",
    ),
    (
        Variant::BytesReversed,
        &[12, -3],
        0,
        "2C01000000000000 3D00000000000000",
    ),
    (Variant::ExchangesSigns, &[12, -3], 0, "12D 3C"),
    (Variant::DigitsOfBase16, &[12, -3], 0, "CC 3D"),
    (Variant::TakesNoAmounts, &[], 0, "+EE"),
    (Variant::TakesOneAmount, &[12], 0, "12C"),
    (Variant::TakesOneAmount, &[], 1, "+EE"),
    (Variant::RefusesTwoAmounts, &[12, -3], 1, KEPT),
    (Variant::TooShortBeforeNumber, &[12], 10, "+EEEEEEEEEEEEEE"),
    (
        Variant::NeedsExactRoom,
        &[12, -3],
        10,
        "EEEEEEEEEEEEEEEE EEEEEEEEEEEEEEEE +EE",
    ),
    (
        Variant::FillsRoomBeforeTooShort,
        &[12, -3],
        10,
        "12C +EEEEEEEEEEEEEE",
    ),
    (Variant::ClearsBeyondStatement, &[12, -3], 0, "12C 3D +0000"),
    (Variant::TakesMinusTenTo15, &[-TEN_TO_15, 1], 0, "0D 1C"),
    (Variant::TakesMinusTenTo15, &[TEN_TO_15, 1], 1, KEPT),
    (
        Variant::Takes16Digits,
        &[1_234_567_890_123_456, 1],
        0,
        "234567890123456C 1C",
    ),
    (
        Variant::WrapsLeastAmount,
        &[i64::MIN, 1],
        0,
        "372036854775808D 1C",
    ),
    (Variant::Refuses15Nines, &[999_999_999_999_999, 1], 1, KEPT),
    (
        Variant::FirstAmountAloneJudged,
        &[1, TEN_TO_15, 2],
        0,
        "1C 0C 2C",
    ),
    (Variant::LastAmountUnjudged, &[1, TEN_TO_15], 0, "1C 0C"),
    (Variant::LastAmountUnjudged, &[TEN_TO_15, 1], 1, KEPT),
    (
        Variant::TooShortBeforeAmounts,
        &[TEN_TO_15, 1],
        10,
        "EEEEEEEEEEEEEEEE",
    ),
    (
        Variant::TooShortBeforeAmounts,
        &[TEN_TO_15],
        1,
        "+EEEEEEEEEEEEEE",
    ),
    (
        Variant::WritesUpToBadAmount,
        &[1, TEN_TO_15],
        1,
        "1C EEEEEEEEEEEEEEEE",
    ),
    (Variant::WritesZeroWithD, &[0, 1], 0, "0D 1C"),
    (Variant::WritesPlusAsF, &[0, -3], 0, "0F 3D"),
    (Variant::WritesNegativeAsPositive, &[12, -3], 0, "12C 3C"),
];

/// A slip's answer and output, told by hand: the fields, the number, position and
/// count, the output, all words being 7 before the call.
const READING: [(Variant, &str, [usize; 3], &[i64]); 59] = [
    (
        Variant::DigitsFromLeast,
        GOOD,
        [0, 0, 2],
        &[210_000_000_000_000, -300_000_000_000_000],
    ),
    (
        Variant::SignInFirstHalf,
        "C000000000000012 D000000000000003",
        [0, 0, 2],
        &[12, -3],
    ),
    (
        Variant::BytesReversed,
        "2C01000000000000 3D00000000000000",
        [0, 0, 2],
        &[12, -3],
    ),
    (Variant::ExchangesSigns, GOOD, [0, 0, 2], &[-12, 3]),
    (Variant::DigitsOfBase16, "CC 3D", [0, 0, 2], &[12, -3]),
    (Variant::TakesNoAmounts, "", [0, 0, 0], &[7]),
    (Variant::TakesOneAmount, "12C", [0, 0, 1], &[12, 7]),
    (Variant::RefusesTwoAmounts, GOOD, [1, 0, 0], &[7, 7]),
    (Variant::TooShortBeforeNumber, "12C", [10, 0, 0], &[]),
    (Variant::NeedsExactRoom, GOOD, [10, 0, 0], &[7, 7, 7]),
    (Variant::FillsRoomBeforeTooShort, GOOD, [10, 0, 0], &[12]),
    (
        Variant::ClearsBeyondStatement,
        GOOD,
        [0, 0, 2],
        &[12, -3, 0],
    ),
    (Variant::RoundsFieldsUp, "12C +00", [16, 8, 0], &[7, 7]),
    (Variant::RoundsFieldsUp, "12C +00", [10, 0, 0], &[7]),
    (Variant::RoomForCutField, "12C 3D +00", [10, 0, 0], &[7, 7]),
    (
        Variant::RoomForCutField,
        "12C 3D +00",
        [16, 16, 0],
        &[7, 7, 7],
    ),
    (
        Variant::TooShortAfterFields,
        "12C A00000000000003D",
        [16, 8, 0],
        &[7],
    ),
    (
        Variant::TooShortAfterFields,
        "12C 3D +00",
        [16, 16, 0],
        &[7],
    ),
    (Variant::TooShortAfterFields, GOOD, [10, 0, 0], &[7]),
    (
        Variant::TooShortBeforeCutAlone,
        "12C A00000000000003D",
        [16, 8, 0],
        &[7],
    ),
    (
        Variant::TooShortBeforeCutAlone,
        "12C 3D +00",
        [10, 0, 0],
        &[7],
    ),
    (Variant::TakesNegativeZero, "0D 3D", [0, 0, 2], &[0, -3]),
    (Variant::TakesSignF, "12F 3D", [0, 0, 2], &[12, -3]),
    (Variant::TakesSignF, "12E 3D", [16, 7, 0], &[7, 7]),
    (Variant::TakesSignsAAndE, "12A 3E", [0, 0, 2], &[12, 3]),
    (Variant::TakesSignsAAndE, "12A 3F", [16, 15, 0], &[7, 7]),
    (Variant::TakesSignB, "12B 3D", [0, 0, 2], &[-12, -3]),
    (Variant::TakesSignB, "0B 3D", [16, 7, 0], &[7, 7]),
    (Variant::SignsUnjudged, "120 3D", [0, 0, 2], &[12, -3]),
    (
        Variant::UpperHalvesUnjudged,
        "A00000000000000C 3D",
        [0, 0, 2],
        &[TEN_TO_15, -3],
    ),
    (
        Variant::UpperHalvesUnjudged,
        "0A0000000000000C 3D",
        [16, 0, 0],
        &[7, 7],
    ),
    (
        Variant::LowerHalvesUnjudged,
        "0A0000000000000C 3D",
        [0, 0, 2],
        &[TEN_TO_15 / 10, -3],
    ),
    (
        Variant::LowerHalvesUnjudged,
        "A00000000000000C 3D",
        [16, 0, 0],
        &[7, 7],
    ),
    (Variant::LowerHalvesUnjudged, "1F 3D", [16, 7, 0], &[7, 7]),
    (Variant::LastDigitUnjudged, "AC 3D", [0, 0, 2], &[10, -3]),
    (Variant::LastDigitUnjudged, "A0C 3D", [16, 6, 0], &[7, 7]),
    (Variant::ReadsNegativeAsPositive, GOOD, [0, 0, 2], &[12, 3]),
    (
        Variant::SignBeforeDigits,
        "00A000000000000F 3D",
        [16, 7, 0],
        &[7, 7],
    ),
    (
        Variant::SignBeforeDigits,
        "00A000000000000C 3F",
        [16, 1, 0],
        &[7, 7],
    ),
    (
        Variant::LastWrongOfField,
        "A0A000000000000C A00000000000003D",
        [16, 1, 0],
        &[7, 7],
    ),
    (
        Variant::LastWrongField,
        "A00000000000000C A0A000000000003D",
        [16, 8, 0],
        &[7, 7],
    ),
    (
        Variant::DigitsOfAllFieldsFirst,
        "12F A00000000000003D",
        [16, 8, 0],
        &[7, 7],
    ),
    (
        Variant::NegativeZerosAfterAllFields,
        "0D 3F",
        [16, 15, 0],
        &[7, 7],
    ),
    (
        Variant::WrongDigitAtFieldStart,
        "12C 0000A0000000003D",
        [16, 8, 0],
        &[7, 7],
    ),
    (
        Variant::WrongSignAtFieldStart,
        "12C 3F",
        [16, 8, 0],
        &[7, 7],
    ),
    (
        Variant::NegativeZeroAtFieldStart,
        "12C 0D",
        [16, 8, 0],
        &[7, 7],
    ),
    (
        Variant::NegativeZeroAtByteBefore,
        "12C 0D",
        [16, 14, 0],
        &[7, 7],
    ),
    (
        Variant::PositionsInHalfBytes,
        "12C 0A0000000000003D",
        [16, 17, 0],
        &[7, 7],
    ),
    (
        Variant::PositionsInFields,
        "12C 0000A0000000003D",
        [16, 1, 0],
        &[7, 7],
    ),
    (
        Variant::PositionsWithinField,
        "12C 0000A0000000003D",
        [16, 2, 0],
        &[7, 7],
    ),
    (
        Variant::CutBeforeFields,
        "A00000000000000C 3D +00",
        [16, 16, 0],
        &[7, 7],
    ),
    (Variant::IgnoresCutField, "12C 3D +00", [0, 0, 2], &[12, -3]),
    (
        Variant::JudgesCutField,
        "12C 3D +000A",
        [16, 17, 0],
        &[7, 7],
    ),
    (Variant::CutAtLastByte, "12C 3D +0000", [16, 17, 0], &[7, 7]),
    (Variant::CutAtFileEnd, "12C 3D +0000", [16, 18, 0], &[7, 7]),
    (Variant::CutGives1, "12C 3D +00", [1, 0, 0], &[7, 7]),
    (
        Variant::ReadsUpToWrongField,
        "12C A00000000000003D",
        [16, 8, 0],
        &[12, 7],
    ),
    (Variant::CountsNothing, GOOD, [0, 0, 0], &[12, -3]),
    (
        Variant::CountsBeforeWrongField,
        "12C A00000000000003D",
        [16, 8, 1],
        &[7, 7],
    ),
];

/// All but those of 33 and 34 amounts.
#[test]
fn slips_are_answered_as_told() {
    let mut told = vec![Variant::Refuses33Amounts, Variant::Takes34Amounts];
    for (variant, amounts, number, expected) in WRITING {
        let context = Context::of(variant);
        let expected = fields(expected);
        let output = vec![0xEE; expected.len()];
        let answer = packed(|from, to| pack_in(context, from, to), amounts, &output);
        assert_eq!(answer, (number, expected), "{variant:?}");
        told.push(variant);
    }
    for (variant, read, [number, position, count], expected) in READING {
        let context = Context::of(variant);
        let output = vec![7; expected.len()];
        let answer = unpacked(
            |from, to| unpack_in(context, from, to),
            &fields(read),
            &output,
        );
        let answered = UnpackAnswer {
            number: number as u8,
            position,
            count,
        };
        assert_eq!(answer, (answered, expected.to_vec()), "{variant:?}");
        told.push(variant);
    }
    for variant in WRONG_PACKED {
        assert!(told.contains(&variant), "{variant:?}");
    }
}

#[test]
fn numbers_of_amounts_slip_in_both_calls() {
    for (variant, count, number) in [
        (Variant::Refuses33Amounts, 32, 0),
        (Variant::Refuses33Amounts, 33, 1),
        (Variant::Takes34Amounts, 34, 0),
        (Variant::Takes34Amounts, 35, 1),
    ] {
        let context = Context::of(variant);
        let mut output = vec![0; 8 * count];
        assert_eq!(pack_in(context, &vec![5; count], &mut output), number);
        let fields = fields("5C").repeat(count);
        let answer = unpack_in(context, &fields, &mut vec![0; count]);
        assert_eq!(answer.number, number, "{variant:?} {count}");
    }
}
