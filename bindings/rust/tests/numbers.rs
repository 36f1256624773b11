//! Each number of the bindings by an input that it is for, document 01's example where there is one.

use robijan::*;

fn refused<T: std::fmt::Debug>(answer: Result<T, Refusal>) -> (u64, u64) {
    let refusal = answer.unwrap_err();
    (refusal.number, refusal.position)
}

/// Lag and horizon 1.
fn terms(accounts: usize, first: usize) -> Terms {
    Terms {
        accounts,
        lag: 1,
        horizon: 1,
        first,
        change: 0,
    }
}

/// A book of two accounts from this day on.
fn book(first: usize) -> Vec<i64> {
    let mut book = vec![0; 5_072];
    open(&mut book, terms(2, first)).unwrap();
    book
}

/// A count of rows, then rows of account 0 without values but zeros: account, day, tranches or facilities, 48 pairs.
fn rows(count: u8, day: u16, given: u8) -> Vec<u8> {
    let mut bytes = vec![count, 0];
    for _ in 0..count {
        bytes.push(0);
        bytes.extend(day.to_le_bytes());
        bytes.push(given);
        bytes.extend([0; 48 * 8]);
    }
    bytes
}

#[test]
fn opening() {
    assert_eq!(numbers::ACCEPTED, 0);
    let mut words = vec![0; 5_072];
    assert_eq!(refused(open(&mut words, terms(0, 9_497))), (1, 0));
    assert_eq!(numbers::OUTSIDE_RANGE, 1);
    assert_eq!(refused(open(&mut words[1..], terms(2, 9_497))), (2, 0));
    assert_eq!(numbers::WORDS_TOO_FEW, 2);
}

#[test]
fn change_days() {
    let mut words = vec![-1; 5_072];
    let changing = |change| Terms {
        change,
        ..terms(2, 20_000)
    };
    for change in [0, 9_497, 20_001, 36_524] {
        open(&mut words, changing(change)).unwrap();
        assert_eq!(change_day(&words), Some(change as i64));
        judge(&words).unwrap();
    }
    // No word is cut on its way.
    for change in [1, 9_496, 36_525, 9_497 + (1 << 32), usize::MAX] {
        assert_eq!(refused(open(&mut words, changing(change))), (1, 0));
        assert_eq!(refused(book_words(changing(change))), (1, 0));
        assert_eq!(change_day(&words), Some(36_524));
    }
    // 1 comes before 2; a bad day in a lent book is 3.
    assert_eq!(refused(open(&mut words[1..], changing(1))), (1, 0));
    for change in [1, 9_496, 36_525, -1, i64::MIN] {
        words[7] = change;
        assert_eq!(refused(judge(&words)), (3, 0));
        assert_eq!(refused(submit(&mut words, &[0; 8])), (3, 0));
        assert_eq!(refused(close(&mut words, &mut [0; 3])), (3, 0));
    }
}

#[test]
fn second_shares() {
    let mut shares = [-1; 4];
    second_share(2, &[1, 1, 1], &mut shares).unwrap();
    assert_eq!(shares, [0, 1, 1, -1]);
    share(2, &[1, 1, 1], &mut shares).unwrap();
    assert_eq!(shares, [0, 0, 0, -1]);
    second_share(1_000_000_000, &[10_000_000, 0], &mut shares).unwrap();
    assert_eq!(shares, [10_000_000, 0, 0, -1]);
    // Refused as the first edition's call is, the output kept.
    let wide = 1 << 32;
    for residual in [1_000_000_001, -1_280_000_001, 2 + wide] {
        assert_eq!(
            refused(second_share(residual, &[1, 1, 1], &mut shares[..2])),
            (1, 0)
        );
    }
    for uegq in [-1, 10_000_001, 1 + wide] {
        assert_eq!(refused(second_share(2, &[1, uegq], &mut shares)), (1, 0));
    }
    assert_eq!(refused(second_share(2, &[], &mut shares)), (1, 0));
    assert_eq!(refused(second_share(2, &[1; 33], &mut [0; 33])), (1, 0));
    assert_eq!(
        refused(second_share(2, &[1, 1, 1], &mut shares[..2])),
        (10, 0)
    );
    assert_eq!(shares, [10_000_000, 0, 0, -1]);
}

/// Rows of both accounts for the day, all zeros but residual rows with 1 kWh to spare at 100 cents, and 1 kWh of load, in interval 0.
fn day_file(contracts: u16, settled: Option<u16>) -> Vec<u8> {
    let mut file = Vec::new();
    for given in [0, 1] {
        file.extend([2, 0]);
        for account in [0, 1] {
            file.push(account);
            file.extend(contracts.to_le_bytes());
            file.push(given);
            file.extend([0; 48 * 8]);
        }
    }
    let Some(settled) = settled else {
        file.extend([0; 4]);
        return file;
    };
    file.extend([2, 0]);
    for account in [0, 1] {
        file.push(account);
        file.extend(settled.to_le_bytes());
        file.extend([1, 0, 0, 0, 0, 0, 0, 0, 0, 0, 0, 0]);
        file.extend(100_000i32.to_le_bytes());
        file.extend([0; 47 * 16]);
    }
    file.extend([1, 0]);
    file.extend(settled.to_le_bytes());
    file.extend([1, 0, 0, 0]);
    file.extend([0; 47 * 4]);
    file
}

/// The odd kWh of 9,497, settled at the close of 9,498.
#[test]
fn editions() {
    for (change, odd) in [(0, 0), (9_497, 100), (9_498, 0)] {
        let mut book = vec![0; 5_072];
        open(
            &mut book,
            Terms {
                change,
                ..terms(2, 9_497)
            },
        )
        .unwrap();
        let mut statement = [7; 3];
        submit(&mut book, &day_file(9_497, None)).unwrap();
        assert_eq!(close(&mut book, &mut statement).unwrap().residuals, 0);
        assert_eq!(statement, [0, 0, 0]);
        submit(&mut book, &day_file(9_498, Some(9_497))).unwrap();
        assert_eq!(close(&mut book, &mut statement).unwrap().residuals, 96);
        assert_eq!(statement, [0, odd, -odd]);
        assert_eq!(balance(&book, 1), Some(odd));
        assert_eq!(change_day(&book), Some(change as i64));
    }
}

#[test]
fn submission() {
    let mut book = book(9_497);
    assert_eq!(refused(submit(&mut book, &[0; 7])), (4, 6));
    assert_eq!(numbers::FIELD_NOT_WHOLE, 4);
    assert_eq!(refused(submit(&mut book, &[1, 0, 2])), (5, 2));
    assert_eq!(numbers::FIELD_OUT_OF_RANGE, 5);
    assert_eq!(refused(submit(&mut book, &[1, 0, 0, 0x1A, 0x25])), (6, 3));
    assert_eq!(numbers::DAY_NOT_OPEN, 6);
    assert_eq!(refused(submit(&mut book, &rows(2, 9_497, 0))), (7, 391));
    assert_eq!(numbers::ROW_REPEATED, 7);
    assert_eq!(refused(submit(&mut book, &[0; 9])), (8, 8));
    assert_eq!(numbers::BYTES_AFTER_END, 8);
    book[0] = 394;
    assert_eq!(refused(submit(&mut book, &[0; 8])), (3, 0));
    assert_eq!(numbers::NOT_WELL_FORMED, 3);
}

#[test]
fn closing() {
    let mut two = book(9_497);
    assert_eq!(refused(close(&mut two, &mut [0; 2])), (10, 0));
    assert_eq!(numbers::OUTPUT_TOO_SHORT, 10);
    assert_eq!(refused(close(&mut two, &mut [0; 3])), (11, 84));
    assert_eq!(numbers::DATUM_ABSENT, 11);

    // One account's last day of all.
    let mut one = vec![0; 2_760];
    open(&mut one, terms(1, 36_524)).unwrap();
    let file = [rows(1, 36_524, 0), rows(1, 36_524, 1), vec![0; 4]].concat();
    submit(&mut one, &file).unwrap();
    let closed = close(&mut one, &mut [0; 2]).unwrap();
    assert_eq!((closed.day, closed.residuals), (36_524, 0));
    assert_eq!(next_day(&one), Some(36_525));
    assert_eq!(refused(close(&mut one, &mut [0; 2])), (9, 0));
    assert_eq!(numbers::BOOK_FINISHED, 9);
}

#[test]
fn profiles() {
    // The limits of a pair are 80 and 125 kWh, of the day 1,920 and 3,000.
    let mut profile = [50; 48];
    assert_eq!(keeps_limits(&profile, 2_400, 100), Ok(true));
    assert_eq!(keeps_limits(&profile, 2_401, 100), Ok(false));
    // Pairs begin at even indices.
    (profile[0], profile[1], profile[2]) = (20, 60, 70);
    assert_eq!(keeps_limits(&profile, 2_400, 100), Ok(true));
    profile[1] = 59;
    assert_eq!(keeps_limits(&profile, 2_399, 100), Ok(false));
    assert_eq!(refused(keeps_limits(&profile, 1_919, 100)), (15, 0));
    assert_eq!(refused(keeps_limits(&profile, 3_001, 100)), (15, 0));
    assert_eq!(numbers::TOTAL_IMPOSSIBLE, 15);
    // Total and contracted quantity have ranges of their own.
    assert_eq!(refused(keeps_limits(&profile, 480_000_000, 100)), (15, 0));
    assert_eq!(refused(keeps_limits(&profile, 100, 480_000_000)), (1, 0));
    assert_eq!(refused(keeps_limits(&profile[1..], 2_400, 100)), (1, 0));
    // No word is cut on its way.
    profile[1] = 60;
    let wide = 1 << 32;
    assert_eq!(refused(keeps_limits(&profile, 2_400 + wide, 100)), (1, 0));
    assert_eq!(refused(keeps_limits(&profile, 2_400, 100 + wide)), (1, 0));
}

/// The largest amount of 15 digits.
const MOST: i64 = 999_999_999_999_999;

/// The fields of these amounts.
fn packed(amounts: &[i64]) -> Vec<u8> {
    let mut fields = vec![0xAA; PACKED_FIELD_BYTES * amounts.len()];
    pack(amounts, &mut fields).unwrap();
    fields
}

/// The number and position with which these fields are refused; no word is written, and none is counted.
fn unpack_refused(fields: &[u8], words: usize) -> (u64, u64) {
    let mut output = vec![7; words];
    let refusal = refused(unpack(fields, &mut output));
    assert_eq!(raw::unpack(fields, &mut output).count, 0);
    assert!(output.iter().all(|word| *word == 7));
    refusal
}

#[test]
fn packing() {
    let mut fields = [0xAA; 17];
    for (amounts, wanted) in [
        (
            [2_400, -1],
            [0, 0, 0, 0, 0, 0x02, 0x40, 0x0C, 0, 0, 0, 0, 0, 0, 0, 0x1D],
        ),
        // Most significant first, and no word is cut on its way.
        (
            [123_456_789_012_345, -(1 + (1 << 32))],
            [
                0x12, 0x34, 0x56, 0x78, 0x90, 0x12, 0x34, 0x5C, 0, 0, 0x04, 0x29, 0x49, 0x67, 0x29,
                0x7D,
            ],
        ),
        (
            [0, -10],
            [0, 0, 0, 0, 0, 0, 0, 0x0C, 0, 0, 0, 0, 0, 0, 0x01, 0x0D],
        ),
        (
            [MOST, -MOST],
            [
                0x99, 0x99, 0x99, 0x99, 0x99, 0x99, 0x99, 0x9C, 0x99, 0x99, 0x99, 0x99, 0x99, 0x99,
                0x99, 0x9D,
            ],
        ),
    ] {
        pack(&amounts, &mut fields).unwrap();
        assert_eq!(fields[..16], wanted);
        assert_eq!(fields[16], 0xAA);
    }
    assert_eq!(PACKED_FIELD_BYTES, 8);
    assert_eq!(packed(&[-5; 33]), [0, 0, 0, 0, 0, 0, 0, 0x5D].repeat(33));
}

/// The fields stand in the order of their amounts.
#[test]
fn packing_in_order() {
    let amounts: Vec<i64> = (1..=9).collect();
    let mut fields = [0; 9 * PACKED_FIELD_BYTES];
    pack(&amounts, &mut fields).unwrap();
    for (amount, field) in amounts.iter().zip(fields.chunks_exact(PACKED_FIELD_BYTES)) {
        assert_eq!(field, [0, 0, 0, 0, 0, 0, 0, 16 * *amount as u8 + 0xC]);
    }
    let mut read = [0; 9];
    fields[..2 * PACKED_FIELD_BYTES].rotate_left(PACKED_FIELD_BYTES);
    assert_eq!(unpack(&fields, &mut read), Ok(9));
    assert_eq!(read, [2, 1, 3, 4, 5, 6, 7, 8, 9]);
}

#[test]
fn packing_refused() {
    let mut fields = [0xAA; 272];
    // 1, before 10 too.
    for amounts in [
        &[][..],
        &[5],
        &[5; 34],
        &[0, MOST + 1],
        &[-MOST - 1, 0],
        &[i64::MAX, 0],
        &[0, i64::MIN],
        &[5, 5, i64::MIN],
    ] {
        for length in [0, 272] {
            assert_eq!(refused(pack(amounts, &mut fields[..length])), (1, 0));
        }
    }
    for (amounts, length) in [(2, 0), (2, 8), (2, 15), (3, 16), (33, 263)] {
        let refusal = refused(pack(&[5; 33][..amounts], &mut fields[..length]));
        assert_eq!(refusal, (10, 0));
    }
    assert_eq!(fields, [0xAA; 272]);
}

#[test]
fn unpacking() {
    let some = [0, 1, -1, 9, -10, 2_400, -(1 << 32), MOST, -MOST];
    let statement: Vec<i64> = some.iter().copied().cycle().take(33).collect();
    for count in 2..=33 {
        let fields = packed(&statement[..count]);
        let mut output = [7; 34];
        assert_eq!(unpack(&fields, &mut output), Ok(count));
        assert_eq!(output[..count], statement[..count]);
        assert!(output[count..].iter().all(|word| *word == 7));
        assert_eq!(packed(&output[..count]), fields);
        // As many words as fields do.
        assert_eq!(unpack(&fields, &mut output[..count]), Ok(count));
        assert_eq!(unpack_refused(&fields, count - 1), (10, 0));
    }
}

#[test]
fn wrong_fields() {
    assert_eq!(numbers::PACKED_FIELD_WRONG, 16);
    let good = packed(&[123_456_789_012_345, -123_456_789_012_345, 5]);
    // Each half byte of two fields with each value.
    for (half, value) in (0..32).flat_map(|half| (0..16).map(move |value| (half, value))) {
        let (mut fields, at) = (good.clone(), half / 2);
        fields[at] = match half % 2 {
            0 => value << 4 | fields[at] & 0x0F,
            _ => fields[at] & 0xF0 | value,
        };
        let right = match half % 16 {
            15 => value == 0xC || value == 0xD,
            _ => value < 10,
        };
        match right {
            true => assert_eq!(unpack(&fields, &mut [0; 3]), Ok(3)),
            false => assert_eq!(unpack_refused(&fields, 3), (16, at as u64)),
        }
    }
    // A cut field comes last of all, whatever its bytes; of the others the first, a zero with D among them.
    let mut fields = good[..23].to_vec();
    for (at, byte) in [(16, 0xFF), (15, 0x5E), (12, 0x1A), (8, 0xA1)] {
        fields[at] = byte;
        assert_eq!(unpack_refused(&fields, 2), (16, at as u64));
    }
    for (sign, at) in [(0x0D, 7), (0x0C, 8), (0x0E, 7)] {
        fields[..8].copy_from_slice(&[0, 0, 0, 0, 0, 0, 0, sign]);
        assert_eq!(unpack_refused(&fields, 2), (16, at));
    }
    // 10 comes before 16.
    assert_eq!(unpack_refused(&fields, 1), (10, 0));
}

#[test]
fn lengths_of_fields() {
    // So many bytes of good fields, and of fields that are all wrong.
    let (good, wrong) = (packed(&[5; 33]), [0xFF; 280]);
    for length in [0, 1, 7, 8, 15] {
        for words in [0, 33] {
            assert_eq!(unpack_refused(&good[..length], words), (1, 0));
            assert_eq!(unpack_refused(&wrong[..length], words), (1, 0));
        }
    }
    for length in [272, 279, 280] {
        assert_eq!(unpack_refused(&wrong[..length], 0), (1, 0));
        assert_eq!(unpack_refused(&wrong[..length], 34), (1, 0));
    }
    // A cut field, at its first byte; it needs no word.
    for cut in 1..8 {
        assert_eq!(unpack_refused(&good[..16 + cut], 2), (16, 16));
        assert_eq!(unpack_refused(&good[..16 + cut], 1), (10, 0));
        let longest = [&good[..], &wrong[..cut]].concat();
        assert_eq!(unpack_refused(&longest, 33), (16, 264));
        assert_eq!(unpack_refused(&longest, 32), (10, 0));
        assert_eq!(unpack_refused(&wrong[..264 + cut], 33), (16, 0));
    }
}

#[test]
fn calendar() {
    assert_eq!(refused(day(2026, 2, 29)), (12, 0));
    assert_eq!(numbers::NO_SUCH_DATE, 12);
    assert_eq!(refused(is_business_day(9_497, &[5, 5])), (13, 0));
    assert_eq!(numbers::BAD_HOLIDAYS, 13);
    assert_eq!(refused(statement_day(36_450)), (14, 0));
    assert_eq!(numbers::PAST_LAST_DAY, 14);
}

#[test]
fn texts() {
    for number in 0..=numbers::PACKED_FIELD_WRONG {
        assert_ne!(numbers::text(number), "unknown number");
    }
    // Where the position is a byte or a word, it is said.
    let told = |number| {
        Refusal {
            number,
            position: 9,
        }
        .to_string()
    };
    for number in 0..=numbers::PACKED_FIELD_WRONG {
        let byte = matches!(number, 4..=8 | 16);
        assert_eq!(told(number).ends_with(", at byte 9"), byte);
        assert_eq!(told(number).ends_with(", at word 9"), number == 11);
    }
}
