//! Statements in packed decimal.

use reference::generate::packed::{
    fields_of, pack_case, set_half, statement, unpack_case, PackCase, UnpackCase,
};
use reference::generate::Rng;
use reference::packed::{pack, unpack, UnpackAnswer};

const MOST: i64 = 999_999_999_999_999;

const BAD: UnpackAnswer = refused(1, 0);
const TOO_SHORT: UnpackAnswer = refused(10, 0);

const fn refused(number: u8, position: usize) -> UnpackAnswer {
    UnpackAnswer {
        number,
        position,
        count: 0,
    }
}

const fn wrong_at(position: usize) -> UnpackAnswer {
    refused(16, position)
}

const fn accepted(count: usize) -> UnpackAnswer {
    UnpackAnswer {
        number: 0,
        position: 0,
        count,
    }
}

/// An amount and its field, by hand.
const FIGURES: [(i64, [u8; 8]); 14] = [
    (0, [0, 0, 0, 0, 0, 0, 0, 0x0C]),
    (1, [0, 0, 0, 0, 0, 0, 0, 0x1C]),
    (-1, [0, 0, 0, 0, 0, 0, 0, 0x1D]),
    (9, [0, 0, 0, 0, 0, 0, 0, 0x9C]),
    (10, [0, 0, 0, 0, 0, 0, 0x01, 0x0C]),
    (-10, [0, 0, 0, 0, 0, 0, 0x01, 0x0D]),
    (100, [0, 0, 0, 0, 0, 0, 0x10, 0x0C]),
    (2_000, [0, 0, 0, 0, 0, 0x02, 0x00, 0x0C]),
    (
        123_456_789_012_345,
        [0x12, 0x34, 0x56, 0x78, 0x90, 0x12, 0x34, 0x5C],
    ),
    (
        -123_456_789_012_345,
        [0x12, 0x34, 0x56, 0x78, 0x90, 0x12, 0x34, 0x5D],
    ),
    (100_000_000_000_000, [0x10, 0, 0, 0, 0, 0, 0, 0x0C]),
    (
        4_800_000_000_000,
        [0x00, 0x48, 0x00, 0x00, 0x00, 0x00, 0x00, 0x0C],
    ),
    (MOST, [0x99, 0x99, 0x99, 0x99, 0x99, 0x99, 0x99, 0x9C]),
    (-MOST, [0x99, 0x99, 0x99, 0x99, 0x99, 0x99, 0x99, 0x9D]),
];

#[test]
fn figures() {
    for (first, first_field) in FIGURES {
        for (second, second_field) in FIGURES {
            let fields = [first_field, second_field].concat();
            let mut written = [0xEE; 16];
            assert_eq!(pack(&[first, second], &mut written), 0);
            assert_eq!(written[..], fields);
            let mut read = [7; 2];
            assert_eq!(unpack(&fields, &mut read), accepted(2));
            assert_eq!(read, [first, second]);
        }
    }
}

/// The fields by the words of the request, from an amount's decimal digits.
fn told_fields(amounts: &[i64]) -> Vec<u8> {
    let mut hex = String::new();
    for amount in amounts {
        let sign = if *amount < 0 { 'D' } else { 'C' };
        hex += &format!("{:015}{sign}", amount.unsigned_abs());
    }
    let bytes = (0..hex.len()).step_by(2);
    bytes
        .map(|at| u8::from_str_radix(&hex[at..at + 2], 16).unwrap())
        .collect()
}

/// The number and the output after a call that writes.
fn told_pack(case: &PackCase) -> (u8, Vec<u8>) {
    let PackCase { amounts, output } = case;
    let digits = |amount: &i64| amount.unsigned_abs().to_string().len();
    if amounts.len() < 2 || amounts.len() > 33 || amounts.iter().any(|cents| digits(cents) > 15) {
        return (1, output.clone());
    }
    if output.len() < 8 * amounts.len() {
        return (10, output.clone());
    }
    let mut written = told_fields(amounts);
    written.extend(&output[written.len()..]);
    (0, written)
}

/// The amount of a field in hex, or the byte of what is wrong.
fn told_amount(hex: &str) -> Result<i64, usize> {
    let (digits, sign) = hex.split_at(15);
    let is_wrong = |digit: char| !digit.is_ascii_digit();
    if let Some(at) = digits.find(is_wrong) {
        return Err(at / 2);
    }
    let magnitude: i64 = digits.parse().unwrap();
    match (sign, magnitude) {
        ("C", _) => Ok(magnitude),
        ("D", 1..) => Ok(-magnitude),
        _ => Err(7),
    }
}

/// The answer and the output after a call that reads.
fn told_unpack(case: &UnpackCase) -> (UnpackAnswer, Vec<i64>) {
    let UnpackCase { fields, output } = case;
    let whole = fields.len() / 8;
    if !(2..=33).contains(&whole) {
        return (BAD, output.clone());
    }
    if output.len() < whole {
        return (TOO_SHORT, output.clone());
    }
    let mut read = Vec::new();
    for (at, field) in fields.chunks(8).enumerate() {
        let hex: String = field.iter().map(|byte| format!("{byte:02X}")).collect();
        if field.len() < 8 {
            return (wrong_at(8 * at), output.clone());
        }
        match told_amount(&hex) {
            Ok(amount) => read.push(amount),
            Err(byte) => return (wrong_at(8 * at + byte), output.clone()),
        }
    }
    read.extend(&output[whole..]);
    (accepted(whole), read)
}

fn assert_packs_as_told(case: &PackCase) -> u8 {
    let mut output = case.output.clone();
    let number = pack(&case.amounts, &mut output);
    assert_eq!((number, output), told_pack(case), "{case:?}");
    number
}

fn assert_unpacks_as_told(case: &UnpackCase) -> UnpackAnswer {
    let mut output = case.output.clone();
    let answer = unpack(&case.fields, &mut output);
    assert_eq!((answer, output), told_unpack(case), "{case:?}");
    answer
}

#[test]
fn written_and_read_is_the_same_statement() {
    let mut rng = Rng::new(0xC);
    for _ in 0..200 {
        for count in 2..=33 {
            let amounts = statement(&mut rng, count);
            let mut fields = vec![0xEE; 8 * count];
            assert_eq!(pack(&amounts, &mut fields), 0);
            assert_eq!(fields, told_fields(&amounts));
            assert_eq!(fields, fields_of(&amounts));
            let mut read = vec![7; count];
            assert_eq!(unpack(&fields, &mut read), accepted(count));
            assert_eq!(read, amounts);
        }
    }
}

#[test]
fn read_and_written_is_the_same_bytes() {
    let mut rng = Rng::new(0xD);
    let mut read_again = 0;
    for _ in 0..200_000 {
        // Mostly digits, so that half of them or so are accepted.
        let mut fields: Vec<u8> = (0..16)
            .map(|_| (16 * rng.below(10) + rng.below(10)) as u8)
            .collect();
        for half in [15, 31] {
            let sign = 0xA + rng.below(6) as u8;
            set_half(&mut fields, half, rng.pick(&[0xC, 0xD, sign]));
        }
        let mut amounts = [0; 2];
        if unpack(&fields, &mut amounts) == accepted(2) {
            let mut written = [0; 16];
            assert_eq!(pack(&amounts, &mut written), 0);
            assert_eq!(written[..], fields);
            read_again += 1;
        }
    }
    assert!(read_again > 100_000, "{read_again}");
}

#[test]
fn every_digit_stands_at_its_place() {
    for place in 0..15 {
        for digit in 1..=9 {
            let amount = digit * 10_i64.pow(place as u32);
            let half = 14 - place;
            let mut expected = [0, 0, 0, 0, 0, 0, 0, 0x0C, 0, 0, 0, 0, 0, 0, 0, 0x0D];
            set_half(&mut expected, half, digit as u8);
            set_half(&mut expected, 16 + half, digit as u8);
            let mut fields = [0xEE; 16];
            assert_eq!(pack(&[amount, -amount], &mut fields), 0);
            assert_eq!(fields, expected);
            let mut amounts = [0; 2];
            assert_eq!(unpack(&fields, &mut amounts), accepted(2));
            assert_eq!(amounts, [amount, -amount]);
        }
    }
}

#[test]
fn statements_have_2_to_33_amounts() {
    for count in 0..=70 {
        let amounts = vec![-5; count];
        let fields = told_fields(&amounts);
        let is_statement = (2..=33).contains(&count);
        for (room, number) in [(8 * count, 0), (600, 0), (8 * count - count.min(1), 10)] {
            let number = match count {
                2..=33 => number,
                _ => 1,
            };
            let mut output = vec![0xEE; room];
            assert_eq!(pack(&amounts, &mut output), number);
            let untouched = if number == 0 { 8 * count } else { 0 };
            assert_eq!(output[..untouched], fields[..untouched]);
            assert!(output[untouched..].iter().all(|&byte| byte == 0xEE));
        }
        let mut output = [7; 80];
        let answer = unpack(&fields, &mut output);
        assert_eq!(answer, if is_statement { accepted(count) } else { BAD });
        let read = answer.count;
        assert!(output[..read].iter().all(|&word| word == -5));
        assert!(output[read..].iter().all(|&word| word == 7));
        if count > 0 {
            let short = if is_statement { TOO_SHORT } else { BAD };
            assert_eq!(unpack(&fields, &mut output[..count - 1]), short);
        }
    }
}

#[test]
fn amounts_have_15_digits() {
    for (amount, number) in [
        (MOST, 0),
        (-MOST, 0),
        (MOST + 1, 1),
        (-MOST - 1, 1),
        (10 * MOST, 1),
        (-10 * MOST, 1),
        (i64::MAX, 1),
        (i64::MIN + 1, 1),
        (i64::MIN, 1),
    ] {
        for count in 2..=33 {
            for at in 0..count {
                let mut amounts = vec![1; count];
                amounts[at] = amount;
                let mut output = vec![0xEE; 8 * count];
                assert_eq!(pack(&amounts, &mut output), number);
                let written = output.iter().any(|&byte| byte != 0xEE);
                assert_eq!(written, number == 0);
                // 1 comes before 10.
                output.pop();
                let short = if number == 1 { 1 } else { 10 };
                assert_eq!(pack(&amounts, &mut output), short);
                assert_eq!(pack(&amounts, &mut []), short);
            }
        }
    }
}

/// Every value of every half byte of every field of three, all else being good.
#[test]
fn every_half_byte_is_judged() {
    for good in [[0x12, 0x34, 0x56, 0x78, 0x90, 0x12, 0x34, 0x5D], [0; 8]] {
        for half in 0..48 {
            for value in 0..=0xF {
                let mut fields = good.repeat(3);
                for sign in [15, 31, 47] {
                    set_half(&mut fields, sign, 0xC);
                }
                set_half(&mut fields, half, value);
                let is_good = match half % 16 {
                    15 => value == 0xC || (value == 0xD && good[0] > 0),
                    _ => value <= 9,
                };
                let case = UnpackCase {
                    fields,
                    output: vec![7; 4],
                };
                let expected = if is_good {
                    accepted(3)
                } else {
                    wrong_at(half / 2)
                };
                assert_eq!(assert_unpacks_as_told(&case), expected);
            }
        }
    }
}

#[test]
fn zero_has_one_field() {
    for count in 2..=33 {
        for at in 0..count {
            let mut fields = told_fields(&vec![0; count]);
            let mut output = vec![7; count];
            assert_eq!(unpack(&fields, &mut output), accepted(count));
            assert_eq!(output, vec![0; count]);
            fields[8 * at + 7] = 0x0D;
            output.fill(7);
            assert_eq!(unpack(&fields, &mut output), wrong_at(8 * at + 7));
            assert_eq!(output, vec![7; count]);
        }
    }
}

#[test]
fn the_first_wrong_half_byte_is_named() {
    let good = told_fields(&[5, -6, 7]);
    for first in 0..48 {
        for second in first + 1..48 {
            let mut fields = good.clone();
            set_half(&mut fields, first, 0xF);
            set_half(&mut fields, second, 0xF);
            assert_eq!(unpack(&fields, &mut [7; 3]), wrong_at(first / 2));
        }
    }
    // Field by field: a negative zero before a later field's digit, and after an
    // earlier one's sign.
    let mut fields = good.clone();
    fields[7] = 0x0D;
    fields[8] = 0xA0;
    assert_eq!(unpack(&fields, &mut [7; 3]), wrong_at(7));
    let mut fields = good;
    fields[7] = 0x5F;
    fields[15] = 0x0D;
    assert_eq!(unpack(&fields, &mut [7; 3]), wrong_at(7));
}

#[test]
fn a_cut_last_field_comes_after_all_others() {
    for whole in 0..=34 {
        for over in 1..8 {
            let mut fields = told_fields(&vec![-1; whole + 1]);
            fields.truncate(8 * whole + over);
            let is_statement = (2..=33).contains(&whole);
            let at_cut = if is_statement {
                wrong_at(8 * whole)
            } else {
                BAD
            };
            assert_eq!(unpack(&fields, &mut [7; 40]), at_cut);
            // The cut field needs no word.
            assert_eq!(unpack(&fields, &mut vec![7; whole]), at_cut);
            fields[8 * whole..].fill(0xFF);
            assert_eq!(unpack(&fields, &mut [7; 40]), at_cut);
            if is_statement {
                assert_eq!(unpack(&fields, &mut vec![7; whole - 1]), TOO_SHORT);
                fields[8 * whole - 1] = 0x0D;
                assert_eq!(unpack(&fields, &mut [7; 40]), wrong_at(8 * whole - 1));
                fields[3] = 0x0A;
                assert_eq!(unpack(&fields, &mut [7; 40]), wrong_at(3));
            }
        }
    }
}

#[test]
fn lengths_of_the_readings() {
    let amounts = vec![1; 40];
    let fields = told_fields(&amounts);
    for (length, expected) in [
        (0, BAD),
        (8, BAD),
        (15, BAD),
        (16, accepted(2)),
        (17, wrong_at(16)),
        (264, accepted(33)),
        (265, wrong_at(264)),
        (271, wrong_at(264)),
        (272, BAD),
        (320, BAD),
    ] {
        let mut output = [7; 40];
        assert_eq!(unpack(&fields[..length], &mut output), expected);
        let read = expected.count;
        assert_eq!(output[..read], amounts[..read]);
        assert!(output[read..].iter().all(|&word| word == 7));
    }
    // 10 comes before any 16, and 1 before 10.
    assert_eq!(unpack(&[0xFF; 16], &mut [7]), TOO_SHORT);
    assert_eq!(unpack(&[0xFF; 17], &mut []), TOO_SHORT);
    assert_eq!(unpack(&[0xFF; 15], &mut []), BAD);
    assert_eq!(unpack(&[0xFF; 272], &mut []), BAD);
}

#[test]
fn any_amounts_are_told() {
    let mut rng = Rng::new(0x10);
    for _ in 0..20_000 {
        let (count, room) = (rng.below(40), rng.below(330));
        let case = PackCase {
            amounts: rng.words(count),
            output: rng.bytes(room),
        };
        assert_packs_as_told(&case);
    }
}

#[test]
fn any_bytes_are_told() {
    let mut rng = Rng::new(0x16);
    for _ in 0..50_000 {
        let (length, words) = (rng.below(300), rng.below(40));
        let mut fields = rng.bytes(length);
        // Bytes that are nearly good.
        if rng.percent(50) {
            for byte in &mut fields {
                *byte = rng.pick(&[0x00, 0x09, 0x99, 0x0C, 0x0D, 0x9D]);
            }
        }
        let case = UnpackCase {
            fields,
            output: rng.words(words),
        };
        assert_unpacks_as_told(&case);
    }
}

#[test]
fn drawn_cases_are_told() {
    let mut rng = Rng::new(0x15);
    let mut packs = [0; 17];
    let mut unpacks = [0; 17];
    for _ in 0..40_000 {
        let number = assert_packs_as_told(&pack_case(&mut rng));
        packs[number as usize] += 1;
        let answer = assert_unpacks_as_told(&unpack_case(&mut rng));
        unpacks[answer.number as usize] += 1;
    }
    assert!(
        packs[0] > 15_000 && packs[1] > 8_000 && packs[10] > 3_000,
        "{packs:?}"
    );
    assert!(unpacks[0] > 8_000 && unpacks[16] > 12_000, "{unpacks:?}");
    assert!(unpacks[1] > 3_000 && unpacks[10] > 3_000, "{unpacks:?}");
}
