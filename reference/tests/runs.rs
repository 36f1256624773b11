//! The stored runs of `settle`, each output written out by hand.

use reference::book::Opening;
use reference::generate::inputs::Input;
use reference::generate::runs::runs;
use reference::settle::settle;
use std::collections::BTreeMap;

fn input(name: &str) -> Vec<u8> {
    let run = runs().into_iter().find(|run| run.name == name);
    run.unwrap_or_else(|| panic!("no run {name}")).input
}

/// "Program settle" and readings 18 and 19: each run's lines.
const OUTPUTS: &[(&str, &[&str])] = &[
    // The five bytes are one item, at 0.
    ("empty_input", &["bad 0"]),
    ("opening_cut_at_1", &["bad 0"]),
    ("opening_cut_at_2", &["bad 0"]),
    ("opening_cut_at_3", &["bad 0"]),
    ("opening_cut_at_4", &["bad 0"]),
    ("opening_only", &["open 0 0"]),
    // N 1 to 32, L 1 to 75, H 1 to 92, F 9,497 to 36,524; then the size:
    // 64 + 8N + 48(L + H)(4 + 24N) of 5,072 words. Nothing follows.
    ("no_accounts", &["open 1 0"]),
    ("accounts_33", &["open 1 0"]),
    ("no_lag", &["open 1 0"]),
    ("no_horizon", &["open 1 0"]),
    ("horizon_93", &["open 1 0"]),
    ("first_day_9496", &["open 1 0"]),
    ("first_day_36525", &["open 1 0"]),
    ("first_day_65535", &["open 1 0"]),
    ("lag_76", &["open 1 0"]),
    ("horizon_76", &["open 2 0"]),
    ("lag_75", &["open 2 0"]),
    ("three_accounts", &["open 2 0"]),
    ("lag_and_horizon_of_4", &["open 2 0"]),
    ("two_accounts_lag_2", &["open 2 0"]),
    ("largest_book", &["open 2 0"]),
    ("three_accounts_first_day_9496", &["open 1 0"]),
    // (15,000 − 10,000) × 1,000 kWh are 5,000 cents, 48 times.
    (
        "first_day_bytes",
        &["open 0 0", "submit 0 0", "close 0 9510 0 240000 -240000"],
    ),
    // The first flag: 64 header words, 8 of the account, 4 of the interval.
    ("first_day_36524", &["open 0 0", "close 11 76"]),
    ("example", &["open 0 0", "close 11 76"]),
    ("two_zero_bytes", &["open 0 0", "submit 4 2", "close 11 76"]),
    (
        "empty_file",
        &["open 0 0", "submit 4 0", "close 11 76", "submit 4 0"],
    ),
    // The second day's slot is at 72 + 48 × 28 = 1,416.
    (
        "refused_and_accepted",
        &[
            "open 0 0",
            "submit 5 2",
            "submit 0 0",
            "submit 6 3",
            "close 0 9497 0 240000 -240000",
            "submit 8 8",
            "submit 0 0",
            "close 11 1420",
        ],
    ),
    // The table of numbers.
    (
        "numbers_4_to_8",
        &[
            "open 0 0",
            "submit 4 6",
            "submit 5 2",
            "submit 6 3",
            "submit 7 391",
            "submit 8 8",
            "close 11 84",
        ],
    ),
    // A section of one row with 48 pairs has 2 + 4 + 384 bytes: the sections
    // begin at 0, 390, 780 and 782, the file ends at 784. The second row's
    // first value is at 390 + 6.
    (
        "refused_file_stores_nothing",
        &[
            "open 0 0",
            "submit 4 782",
            "close 11 76",
            "submit 8 784",
            "close 11 76",
            "submit 5 396",
            "close 11 76",
            "submit 0 0",
            "close 0 9497 0 240000 -240000",
        ],
    ),
    // Hex 43 and 53 are no accounts; in the third file hex 53 is a count.
    (
        "commands_within_files",
        &[
            "open 0 0",
            "submit 5 2",
            "submit 5 2",
            "submit 5 4",
            "close 11 76",
            "submit 8 8",
            "close 11 76",
        ],
    ),
    // The residual: R = 1,005 − 1,000, so 5 of 10 kWh at 100 above V, 500
    // thousandths an interval, 24 cents a day.
    (
        "revisions",
        &[
            "open 0 0",
            "submit 0 0",
            "submit 0 0",
            "submit 0 0",
            "submit 5 396",
            "close 0 9497 0 240000 -240000",
            "submit 0 0",
            "submit 0 0",
            "submit 0 0",
            "submit 0 0",
            "close 0 9498 48 240024 -240024",
        ],
    ),
    (
        "file_of_16384",
        &["open 0 0", "submit 8 8", "submit 0 0", "close 11 76"],
    ),
    ("file_of_16383", &["open 0 0", "submit 8 8", "close 11 76"]),
    // 8 counts, four rows of 1,540 bytes (4 + 48 × 32), four of 771 (3 + 48 ×
    // 16), two of 194 (2 + 192): 9,640. Each account: 1,000 above V on 400
    // kWh, 19,200 cents; 100 above V on 10 kWh spare, 48 cents.
    (
        "longest_accepted_file",
        &[
            "open 0 0",
            "submit 0 0",
            "close 0 9497 0 240000 240000 -480000",
            "submit 0 0",
            "close 0 9498 96 19248 19248 -38496",
        ],
    ),
    // 7 is at the third NCC row's day, where the file of two would end. The
    // second day's slot is at 80 + 48 × 52 = 2,576.
    (
        "files_of_16384_late_faults",
        &[
            "open 0 0",
            "submit 0 0",
            "close 0 9497 0 240000 240000 -480000",
            "submit 8 9640",
            "submit 5 9636",
            "submit 7 9640",
            "close 11 2580",
            "submit 0 0",
            "close 0 9498 96 19248 19248 -38496",
        ],
    ),
    ("length_16385", &["open 0 0", "bad 6"]),
    ("length_16385_alone", &["open 0 0", "bad 6"]),
    ("length_16640", &["open 0 0", "bad 6"]),
    ("length_32768", &["open 0 0", "bad 6"]),
    ("length_65535_alone", &["open 0 0", "close 11 76", "bad 7"]),
    (
        "length_bytes",
        &[
            "open 0 0",
            "submit 8 8",
            "close 11 76",
            "submit 8 8",
            "submit 0 0",
            "close 11 76",
        ],
    ),
    // Five files of 1 + 2 + 16,384 bytes after the five; a close; 11 bytes.
    (
        "input_above_65536",
        &[
            "open 0 0",
            "submit 8 8",
            "submit 8 8",
            "submit 8 8",
            "submit 8 8",
            "submit 8 8",
            "close 11 76",
            "submit 0 0",
            "bad 81952",
        ],
    ),
    // The command's own position; of a submission the length's.
    ("unknown_byte", &["open 0 0", "bad 5"]),
    ("length_missing", &["open 0 0", "bad 6"]),
    ("length_cut", &["open 0 0", "bad 6"]),
    ("file_missing", &["open 0 0", "bad 6"]),
    ("file_cut", &["open 0 0", "bad 6"]),
    // 5 + 1 + 2 + 16,384 + 1 = 16,393.
    (
        "unknown_byte_late",
        &["open 0 0", "submit 8 8", "close 11 76", "bad 16393"],
    ),
    (
        "length_missing_late",
        &["open 0 0", "submit 8 8", "close 11 76", "bad 16394"],
    ),
    (
        "length_cut_late",
        &["open 0 0", "submit 8 8", "close 11 76", "bad 16394"],
    ),
    (
        "file_missing_late",
        &["open 0 0", "submit 8 8", "close 11 76", "bad 16394"],
    ),
    (
        "file_cut_late",
        &["open 0 0", "submit 8 8", "close 11 76", "bad 16394"],
    ),
    (
        "length_16385_late",
        &["open 0 0", "submit 8 8", "close 11 76", "bad 16394"],
    ),
    // 5 + 1 + 2 + 784 + 1.
    (
        "unknown_byte_after_a_day",
        &[
            "open 0 0",
            "submit 0 0",
            "close 0 9497 0 240000 -240000",
            "bad 793",
        ],
    ),
    ("lower_case_close", &["open 0 0", "bad 5"]),
    ("lower_case_submit", &["open 0 0", "close 11 76", "bad 6"]),
    ("line_feed", &["open 0 0", "close 11 76", "bad 6"]),
    ("second_opening", &["open 0 0", "close 11 76", "bad 6"]),
    // Slots at 80 and 2,576; account a's entry is 4 + 24a words after, its
    // meter flag 9, its residual flag 18 further; the NCC flag is word 1.
    (
        "absent_flags_two_accounts",
        &[
            "open 0 0",
            "close 11 84",
            "submit 0 0",
            "close 11 93",
            "submit 0 0",
            "close 11 108",
            "submit 0 0",
            "close 11 117",
            "submit 0 0",
            "close 0 9497 0 0 0 0",
            "close 11 2580",
            "submit 0 0",
            "close 11 2589",
            "submit 0 0",
            "close 11 2604",
            "submit 0 0",
            "close 11 2613",
            "submit 0 0",
            "close 11 81",
            "submit 0 0",
            "close 11 102",
            "submit 0 0",
            "close 11 126",
            "submit 0 0",
            "close 0 9498 96 0 0 0",
        ],
    ),
    // Slots at 72, 1,416 and 2,760.
    (
        "absent_flags_lag_2",
        &[
            "open 0 0",
            "close 11 76",
            "submit 0 0",
            "close 11 85",
            "submit 0 0",
            "close 0 9497 0 0 0",
            "close 11 1420",
            "submit 0 0",
            "close 11 1429",
            "submit 0 0",
            "close 0 9498 0 0 0",
            "close 11 2764",
            "submit 0 0",
            "close 11 2773",
            "submit 0 0",
            "close 11 73",
            "submit 0 0",
            "close 11 94",
            "submit 0 0",
            "close 0 9499 48 0 0",
            "close 11 76",
        ],
    ),
    // The figures 500, −500 and 499: 1, −1 and 0.
    (
        "half_cents",
        &[
            "open 0 0",
            "submit 0 0",
            "close 0 9497 0 1 -1",
            "submit 0 0",
            "close 0 9498 0 -1 1",
            "submit 0 0",
            "submit 0 0",
            "close 0 9499 48 0 0",
        ],
    ),
    // −150 and −103 cents on each of 48 MWh.
    (
        "negative_ieq",
        &[
            "open 0 0",
            "submit 0 0",
            "close 0 9497 0 -7200 7200",
            "submit 0 0",
            "close 0 9498 0 -4944 4944",
        ],
    ),
    // 2,000,000 × 40,000,000 kWh are 80,000,000,000 cents, 48 times; with
    // 10,000,000 kWh of residual a day's bound, 4,800,000,000,000.
    (
        "largest_amounts",
        &[
            "open 0 0",
            "submit 0 0",
            "close 0 9497 0 3840000000000 3840000000000 -7680000000000",
            "submit 0 0",
            "submit 0 0",
            "submit 0 0",
            "close 0 9498 96 4800000000000 4800000000000 -9600000000000",
            "submit 0 0",
            "submit 0 0",
            "close 0 9499 96 -3840000000000 -3840000000000 7680000000000",
        ],
    ),
    // Reading 5: vesting days are from C on, and C is 36,525.
    (
        "finished_book",
        &[
            "open 0 0",
            "submit 0 0",
            "close 0 36524 0 240000 -240000",
            "close 9 0",
            "submit 6 3",
            "submit 6 3",
            "submit 0 0",
            "submit 0 0",
            "close 9 0",
            "close 9 0",
        ],
    ),
    // −1,000 × 1,000 kWh, 48 times.
    (
        "close_without_residuals",
        &[
            "open 0 0",
            "submit 0 0",
            "close 0 9497 0 240000 -240000",
            "submit 0 0",
            "close 0 9498 0 -48000 48000",
        ],
    ),
    // Base: 4,000 × 1,000 kWh, 192,000. R = 600, share 500, tranche 1 of 300:
    // 2,000 × 300 − 1,000 × 200 are 400 cents an interval, 19,200.
    (
        "close_with_residuals",
        &[
            "open 0 0",
            "submit 0 0",
            "close 0 9497 0 240000 -240000",
            "submit 0 0",
            "close 0 9498 48 211200 -211200",
            "submit 0 0",
            "close 0 9499 48 0 0",
        ],
    ),
    // R = 3,300 − 3,000, S = 600: shares 50 and 250. Account 0: tender 2,000 ×
    // 100, 9,600 cents; tranche 1 3,000 × 20, tranche 2 −3,000 × 30, −1,440.
    // Account 1: 5,000 × 400, 96,000; tranche 2 400 × 250, 4,800.
    (
        "two_accounts",
        &[
            "open 0 0",
            "close 11 84",
            "submit 0 0",
            "close 0 9497 0 240000 -96000 -144000",
            "submit 0 0",
            "close 11 81",
            "submit 0 0",
            "close 0 9498 96 8160 100800 -108960",
            "close 11 84",
        ],
    ),
    // R = 10 of UEGQ 20, 500 above V: 5 cents an interval, 240 a day.
    (
        "lag_1_horizon_2",
        &[
            "open 0 0",
            "submit 0 0",
            "submit 6 3",
            "close 0 9497 0 240000 -240000",
            "close 11 73",
            "submit 0 0",
            "close 0 9498 48 240240 -240240",
            "submit 0 0",
            "close 11 1417",
            "submit 0 0",
            "close 0 9499 48 240240 -240240",
            "close 11 76",
        ],
    ),
    (
        "lag_2_horizon_1",
        &[
            "open 0 0",
            "submit 0 0",
            "submit 6 3",
            "close 0 9497 0 240000 -240000",
            "submit 0 0",
            "close 0 9498 0 240000 -240000",
            "submit 0 0",
            "close 11 73",
            "submit 0 0",
            "close 0 9499 48 240240 -240240",
            "close 11 76",
        ],
    ),
    (
        "last_days",
        &[
            "open 0 0",
            "submit 0 0",
            "close 0 36523 0 240000 -240000",
            "submit 6 3",
            "submit 0 0",
            "close 0 36524 48 240240 -240240",
            "close 9 0",
        ],
    ),
    // 1,000 × 100 kWh a day more: 4,800 cents each.
    (
        "twelve_days",
        &[
            "open 0 0",
            "submit 0 0",
            "close 0 9497 0 0 0",
            "submit 0 0",
            "close 0 9498 48 5040 -5040",
            "submit 0 0",
            "close 0 9499 48 9840 -9840",
            "submit 0 0",
            "close 0 9500 48 14640 -14640",
            "submit 0 0",
            "close 0 9501 48 19440 -19440",
            "submit 0 0",
            "close 0 9502 48 24240 -24240",
            "submit 0 0",
            "close 0 9503 48 29040 -29040",
            "submit 0 0",
            "close 0 9504 48 33840 -33840",
            "submit 0 0",
            "close 0 9505 48 38640 -38640",
            "submit 0 0",
            "close 0 9506 48 43440 -43440",
            "submit 0 0",
            "close 0 9507 48 48240 -48240",
            "submit 0 0",
            "close 0 9508 48 53040 -53040",
        ],
    ),
];

/// The run whose output is too long to be written out.
fn many_closes() -> String {
    let before = "close 11 76\n".repeat(6_000);
    let after = "close 11 1420\n".repeat(5_999);
    format!("open 0 0\n{before}submit 0 0\nclose 0 9497 0 240000 -240000\n{after}")
}

#[test]
fn every_run_prints_what_is_written_here() {
    let mut outputs: BTreeMap<&str, String> = OUTPUTS
        .iter()
        .map(|(name, lines)| (*name, lines.join("\n") + "\n"))
        .collect();
    assert_eq!(outputs.len(), OUTPUTS.len());
    outputs.insert("many_closes", many_closes());
    let runs = runs();
    for run in &runs {
        let printed = String::from_utf8(settle(&run.input)).unwrap();
        assert_eq!(Some(&printed), outputs.get(run.name), "{}", run.name);
    }
    assert_eq!(runs.len(), outputs.len());
}

#[test]
fn inputs_are_the_bytes_that_are_meant() {
    let expected: [(&str, &[u8]); 9] = [
        ("example", &[1, 1, 1, 0x19, 0x25, 0x43]),
        ("opening_cut_at_4", &[1, 1, 1, 0x19]),
        (
            "two_zero_bytes",
            &[1, 1, 1, 0x19, 0x25, 0x53, 2, 0, 0, 0, 0x43],
        ),
        (
            "empty_file",
            &[1, 1, 1, 0x19, 0x25, 0x53, 0, 0, 0x43, 0x53, 0, 0],
        ),
        (
            "three_accounts",
            &[
                3, 1, 1, 0x19, 0x25, 0x43, 0x53, 8, 0, 0, 0, 0, 0, 0, 0, 0, 0, 0xFF,
            ],
        ),
        (
            "horizon_76",
            &[
                1, 1, 76, 0x19, 0x25, 0x43, 0x53, 8, 0, 0, 0, 0, 0, 0, 0, 0, 0, 0xFF,
            ],
        ),
        (
            "length_16385_alone",
            &[1, 1, 1, 0x19, 0x25, 0x53, 0x01, 0x40],
        ),
        (
            "file_cut",
            &[1, 1, 1, 0x19, 0x25, 0x53, 10, 0, 0, 0, 0, 0, 0, 0, 0, 0, 0],
        ),
        ("line_feed", &[1, 1, 1, 0x19, 0x25, 0x43, 0x0A, 0x43]),
    ];
    for (name, bytes) in expected {
        assert_eq!(input(name), bytes, "{name}");
    }
    assert_eq!(input("first_day_bytes")[..5], [1, 1, 1, 0x26, 0x25]);
    assert_eq!(input("finished_book")[..5], [1, 1, 1, 0xAC, 0x8E]);
    assert_eq!(input("lag_1_horizon_2")[..5], [1, 1, 2, 0x19, 0x25]);
    assert_eq!(input("lag_2_horizon_1")[..5], [1, 2, 1, 0x19, 0x25]);
    assert_eq!(input("length_bytes")[5..8], [0x53, 2, 1]);
    assert_eq!(input("length_16385").len(), 5 + 3 + 16_385 + 13);
    assert_eq!(input("file_of_16384")[5..8], [0x53, 0, 0x40]);
    assert!(input("input_above_65536").len() > 65_536);
}

#[test]
fn the_longest_accepted_file() {
    // The opening, a file of four rows without tenders (8 + 4 × 388), a
    // close, the file, a close.
    let input = input("longest_accepted_file");
    let at = 5 + 3 + 1_560 + 1;
    assert_eq!(input[at], 0x53);
    assert_eq!(input[at + 1..at + 3], 9_640_u16.to_le_bytes());
    assert_eq!(input.len(), at + 3 + 9_640 + 1);

    // In none of the four books is one longer: N rows an open day in sections
    // 1 and 2, N and 1 a day of the window in sections 3 and 4.
    let longest = |vesting: usize, residual: usize, ncc: usize| {
        8 + vesting * 2 * 1_540 + residual * 771 + ncc * 194
    };
    assert_eq!(longest(2, 4, 2), 9_640);
    assert!(longest(2, 3, 3) < 9_640 && longest(1, 3, 3) < 9_640 && longest(1, 2, 2) < 9_640);
}

#[test]
fn an_input_is_written_in_order() {
    let opening = Opening {
        lag: 2,
        horizon: 3,
        ..Opening::smallest(0x0504)
    };
    let input = Input::open(opening)
        .close()
        .submit(&[7, 8])
        .bytes(&[9])
        .finish();
    assert_eq!(input, [1, 2, 3, 4, 5, 0x43, 0x53, 2, 0, 7, 8, 9]);
}
