//! The stored runs of `settle`: named inputs, each with what it is for.
//!
//! The rows are alike in all 48 intervals and their numbers round, so that the
//! amounts can be told by hand.

use super::files::{even_row, Draft, DraftRow};
use super::inputs::{submit_bytes, Input};
use crate::book::Opening;
use crate::history::{METER, NCC, RESIDUAL, VESTING};
use crate::settle::{CLOSE, LONGEST_FILE, SUBMIT};

pub struct Run {
    pub name: &'static str,
    pub input: Vec<u8>,
}

/// 1 January 2026, the earliest first day.
const DAY: u16 = 9_497;
const LAST_DAY: u16 = 36_524;

/// A file without rows, which is accepted.
const NO_ROWS: [u8; 8] = [0; 8];
/// Refused with 8 at 8, as long as a file may be.
const LONGEST_ZEROS: [u8; LONGEST_FILE] = [0; LONGEST_FILE];
/// What would be performed if the program read on: a close, a submission and
/// an unknown byte.
const MORE: [u8; 13] = [CLOSE, SUBMIT, 8, 0, 0, 0, 0, 0, 0, 0, 0, 0, 0xFF];

pub fn runs() -> Vec<Run> {
    let parts = [
        openings(),
        submissions(),
        lengths(),
        bad_items(),
        closes(),
        lives(),
    ];
    parts
        .into_iter()
        .flatten()
        .map(|(name, input)| Run { name, input })
        .collect()
}

type Named = (&'static str, Vec<u8>);

/// N = 1, L = H = 1.
const ONE: Opening = from(DAY);

const fn from(first_day: u16) -> Opening {
    Opening::smallest(first_day as u64)
}

fn one() -> Input {
    Input::open(ONE)
}

/// N = 2, L = H = 1: all 5,072 words.
fn two() -> Input {
    Input::open(Opening { accounts: 2, ..ONE })
}

fn vesting(account: usize, day: u16, bvq: i64, bvp: i64) -> DraftRow {
    even_row((VESTING, account, day.into()), 0, &[bvq, bvp])
}

/// One facility, so that V is its MEP.
fn meter(account: usize, day: u16, v: i64) -> DraftRow {
    even_row((METER, account, day.into()), 1, &[v, 1])
}

/// UEGQ, MQ, RVP1 and RVP2.
fn residual(account: usize, day: u16, values: [i64; 4]) -> DraftRow {
    even_row((RESIDUAL, account, day.into()), 0, &values)
}

fn ncc(day: u16, load: i64) -> DraftRow {
    even_row((NCC, 0, day.into()), 0, &[load])
}

/// The vesting and meter row of a day that comes to 240,000 cents: 5,000 cents
/// per MWh on 1,000 kWh, 48 times.
fn plain_day(account: usize, day: u16) -> [DraftRow; 2] {
    [
        vesting(account, day, 1_000, 15_000),
        meter(account, day, 10_000),
    ]
}

fn file(rows: &[DraftRow]) -> Vec<u8> {
    Draft {
        rows: rows.to_vec(),
    }
    .bytes()
}

fn openings() -> Vec<Named> {
    let opening = one().finish();
    let refused = |opening| Input::open(opening).bytes(&MORE).finish();
    vec![
        // Fewer than five bytes are a bad item at 0.
        ("empty_input", vec![]),
        ("opening_cut_at_1", opening[..1].to_vec()),
        ("opening_cut_at_2", opening[..2].to_vec()),
        ("opening_cut_at_3", opening[..3].to_vec()),
        ("opening_cut_at_4", opening[..4].to_vec()),
        // An input may end with its opening.
        ("opening_only", opening),
        // A refused opening prints its line, and what follows is not read:
        // each parameter just out of its range is 1.
        ("no_accounts", refused(Opening { accounts: 0, ..ONE })),
        (
            "accounts_33",
            refused(Opening {
                accounts: 33,
                ..ONE
            }),
        ),
        ("no_lag", refused(Opening { lag: 0, ..ONE })),
        ("no_horizon", refused(Opening { horizon: 0, ..ONE })),
        ("horizon_93", refused(Opening { horizon: 93, ..ONE })),
        ("first_day_9496", refused(from(DAY - 1))),
        ("first_day_36525", refused(from(LAST_DAY + 1))),
        ("first_day_65535", refused(from(65_535))),
        // L and H exchanged would give the other's number: 76 is no lag, but
        // a horizon, for which the words are too few.
        ("lag_76", refused(Opening { lag: 76, ..ONE })),
        ("horizon_76", refused(Opening { horizon: 76, ..ONE })),
        // The largest lag is one.
        ("lag_75", refused(Opening { lag: 75, ..ONE })),
        // All in range, but more than 5,072 words: 7,384, 5,448 and 7,568,
        // and the largest book.
        ("three_accounts", refused(Opening { accounts: 3, ..ONE })),
        (
            "lag_and_horizon_of_4",
            refused(Opening {
                lag: 2,
                horizon: 2,
                ..ONE
            }),
        ),
        (
            "two_accounts_lag_2",
            refused(Opening {
                accounts: 2,
                lag: 2,
                ..ONE
            }),
        ),
        (
            "largest_book",
            refused(Opening {
                accounts: 32,
                lag: 75,
                horizon: 92,
                ..from(LAST_DAY)
            }),
        ),
        // 1 comes before 2.
        (
            "three_accounts_first_day_9496",
            refused(Opening {
                accounts: 3,
                ..from(DAY - 1)
            }),
        ),
        // Both bytes of F count, and either order of them is a first day:
        // hex 26 25 is 9,510, the other way round 9,765.
        (
            "first_day_bytes",
            Input::open(from(9_510))
                .submit_rows(&plain_day(0, 9_510))
                .close()
                .finish(),
        ),
        // The largest F, which no signed 16 bits hold.
        (
            "first_day_36524",
            Input::open(from(LAST_DAY)).close().finish(),
        ),
    ]
}

fn submissions() -> Vec<Named> {
    let [vesting_row, meter_row] = plain_day(0, DAY);
    let day_file = file(&plain_day(0, DAY));
    vec![
        // The specification's example.
        ("example", one().close().finish()),
        // The first count alone: 4 at the second.
        ("two_zero_bytes", one().submit(&[0, 0]).close().finish()),
        // A length of 0 is a file, whose first count is missing.
        ("empty_file", one().submit(&[]).close().submit(&[]).finish()),
        // A refusal ends nothing: refused, accepted, refused, closed, refused.
        (
            "refused_and_accepted",
            one()
                .submit(&[1, 0, 1])
                .submit(&day_file)
                .submit(&[1, 0, 0, 0x1A, 0x25])
                .close()
                .submit(&[0; 9])
                .submit(&NO_ROWS)
                .close()
                .finish(),
        ),
        // The positions of the table's examples 4 to 8, N = 2.
        (
            "numbers_4_to_8",
            two()
                .submit(&[0; 7])
                .submit(&[1, 0, 2])
                .submit(&[1, 0, 0, 0x1A, 0x25])
                .submit_rows(&[vesting(0, DAY, 0, 0), vesting(0, DAY, 0, 0)])
                .submit(&[0; 9])
                .close()
                .finish(),
        ),
        // A file refused for its last byte, or for bytes after its end, has
        // stored none of its rows.
        (
            "refused_file_stores_nothing",
            one()
                .submit(&day_file[..day_file.len() - 1])
                .close()
                .submit(&[&day_file[..], &[0]].concat())
                .close()
                .submit_rows(&[vesting_row.clone(), meter(0, DAY, 1_000_001)])
                .close()
                .submit(&day_file)
                .close()
                .finish(),
        ),
        // Command bytes inside files are no commands.
        (
            "commands_within_files",
            one()
                .submit(&[CLOSE; 12])
                .submit(&[SUBMIT; 9])
                .submit(&[0, 0, SUBMIT, 0, CLOSE, CLOSE])
                .close()
                .submit(&[0, 0, 0, 0, 0, 0, 0, 0, CLOSE, CLOSE])
                .close()
                .finish(),
        ),
        // The last accepted row counts, a refused one does not; a row with
        // fewer pairs takes the others away.
        (
            "revisions",
            one()
                .submit_rows(&[
                    even_row((VESTING, 0, DAY.into()), 1, &[1_000, 15_000, 1_000, 15_000]),
                    even_row((METER, 0, DAY.into()), 2, &[9_000, 1, 5_000, 1]),
                ])
                .submit_rows(&[meter_row])
                .submit_rows(&[vesting_row])
                .submit_rows(&[vesting(0, DAY, 9_000, 9_000), meter(0, DAY, -1_000_001)])
                .close()
                .submit_rows(&plain_day(0, DAY + 1))
                .submit_rows(&[residual(0, DAY, [500, 0, 0, 0]), ncc(DAY, 9_000)])
                .submit_rows(&[residual(0, DAY, [10, 0, 0, 10_100])])
                .submit_rows(&[ncc(DAY, 1_005)])
                .close()
                .finish(),
        ),
    ]
}

/// The longest file that a book of `settle` accepts, 9,640 bytes: N = 2, the
/// first day closed, all rows of both days with all pairs. No accepted file,
/// and none refused with 4, comes to 16,384 bytes.
fn longest_accepted_rows() -> Vec<DraftRow> {
    let next = DAY + 1;
    let mut rows = vec![ncc(DAY, 9_000), ncc(next, 9_000)];
    for account in 0..2 {
        let hedges = [100, 11_000, 100, 11_000, 100, 11_000, 100, 11_000];
        let facilities = [10_000, 1, 10_000, 1, 10_000, 1, 10_000, 1];
        rows.extend([
            even_row((VESTING, account, next.into()), 3, &hedges),
            even_row((METER, account, next.into()), 4, &facilities),
            residual(account, DAY, [10, 0, 0, 10_100]),
            residual(account, next, [10, 0, 0, 10_100]),
        ]);
    }
    rows
}

/// N = 2 with its first day closed.
fn second_day() -> Input {
    let rows = [plain_day(0, DAY), plain_day(1, DAY)].concat();
    two().submit_rows(&rows).close()
}

fn padded(mut file: Vec<u8>) -> Vec<u8> {
    file.resize(LONGEST_FILE, 0);
    file
}

fn lengths() -> Vec<Named> {
    let longest_accepted = file(&longest_accepted_rows());
    let mut repeated = longest_accepted_rows();
    repeated.push(ncc(DAY, 9_000));
    let mut last_load_negative = longest_accepted.clone();
    last_load_negative[9_636..].fill(0xFF);
    vec![
        // The longest length, and the run goes on right after its file.
        (
            "file_of_16384",
            one()
                .submit(&LONGEST_ZEROS)
                .submit(&NO_ROWS)
                .close()
                .finish(),
        ),
        // One less, likewise.
        ("file_of_16383", one().submit(&[0; 16_383]).close().finish()),
        // Far above 1,000 bytes and accepted whole.
        ("longest_accepted_file", {
            second_day().submit(&longest_accepted).close().finish()
        }),
        // Of 16,384 bytes and refused for a late one: by 8, 5 and 7. Then the
        // same rows are accepted.
        (
            "files_of_16384_late_faults",
            second_day()
                .submit(&padded(longest_accepted.clone()))
                .submit(&padded(last_load_negative))
                .submit(&padded(file(&repeated)))
                .close()
                .submit(&longest_accepted)
                .close()
                .finish(),
        ),
        // One more than the longest is bad, with its file there or not.
        (
            "length_16385",
            one().submit(&[0; 16_385]).bytes(&MORE).finish(),
        ),
        (
            "length_16385_alone",
            one().bytes(&[SUBMIT, 0x01, 0x40]).finish(),
        ),
        // Hex 00 41: the upper byte alone is too large.
        (
            "length_16640",
            one().submit(&[0; 16_640]).bytes(&MORE).finish(),
        ),
        // No signed 16 bits: with the bytes there and without.
        (
            "length_32768",
            one().submit(&[0; 32_768]).bytes(&MORE).finish(),
        ),
        (
            "length_65535_alone",
            one()
                .close()
                .bytes(&[SUBMIT, 0xFF, 0xFF])
                .bytes(&MORE)
                .finish(),
        ),
        // 258 is hex 02 01, 513 the other way round; 8 is hex 08 00.
        (
            "length_bytes",
            one()
                .submit(&[0; 258])
                .close()
                .submit(&[0; 513])
                .submit(&NO_ROWS)
                .close()
                .finish(),
        ),
        // More bytes than 16 bits count, all of them read.
        ("input_above_65536", {
            let files = (0..5).fold(one(), |input, _| input.submit(&LONGEST_ZEROS));
            files
                .close()
                .submit(&NO_ROWS)
                .bytes(&[0xFF])
                .close()
                .finish()
        }),
    ]
}

fn bad_items() -> Vec<Named> {
    // The next item stands at 16,393.
    let late = || one().submit(&LONGEST_ZEROS).close();
    vec![
        // At the first item.
        ("unknown_byte", one().bytes(&[0x00]).bytes(&MORE).finish()),
        ("length_missing", one().bytes(&[SUBMIT]).finish()),
        ("length_cut", one().bytes(&[SUBMIT, 8]).finish()),
        (
            "file_missing",
            one().bytes(&submit_bytes(&NO_ROWS)[..3]).finish(),
        ),
        // A file short of one byte is not submitted, though its own first
        // fault comes before.
        (
            "file_cut",
            one().bytes(&submit_bytes(&[0; 10])[..12]).finish(),
        ),
        // The same far on.
        (
            "unknown_byte_late",
            late().bytes(&[0x00]).bytes(&MORE).finish(),
        ),
        ("length_missing_late", late().bytes(&[SUBMIT]).finish()),
        ("length_cut_late", late().bytes(&[SUBMIT, 8]).finish()),
        (
            "file_missing_late",
            late().bytes(&submit_bytes(&NO_ROWS)[..3]).finish(),
        ),
        (
            "file_cut_late",
            late().bytes(&submit_bytes(&NO_ROWS)[..10]).finish(),
        ),
        (
            "length_16385_late",
            late().submit(&[0; 16_385]).bytes(&MORE).finish(),
        ),
        // After a settled day.
        (
            "unknown_byte_after_a_day",
            one()
                .submit_rows(&plain_day(0, DAY))
                .close()
                .bytes(&[0x42])
                .close()
                .finish(),
        ),
        // Bytes that a lenient reader would take.
        ("lower_case_close", one().bytes(b"c").close().finish()),
        (
            "lower_case_submit",
            one()
                .close()
                .bytes(b"s")
                .bytes(&[8, 0])
                .bytes(&NO_ROWS)
                .finish(),
        ),
        ("line_feed", one().close().bytes(b"\n").close().finish()),
        ("second_opening", {
            let again = one().close().finish();
            one().close().bytes(&again).finish()
        }),
    ]
}

fn closes() -> Vec<Named> {
    // Each row is submitted after a close that reports its flag.
    let row_by_row = |input: Input, rows: &[DraftRow]| {
        let mut input = input;
        for row in rows {
            input = input.close().submit_rows(std::slice::from_ref(row));
        }
        input.close()
    };
    let no_hedges = |account, day| [vesting(account, day, 0, 0), meter(account, day, 0)];
    let no_residual = |account, day| residual(account, day, [0; 4]);
    let next = DAY + 1;
    vec![
        // 11 at every flag of the first interval, N = 2.
        ("absent_flags_two_accounts", {
            let first = [no_hedges(0, DAY), no_hedges(1, DAY)].concat();
            let second = [
                &no_hedges(0, next)[..],
                &no_hedges(1, next),
                &[ncc(DAY, 0), no_residual(0, DAY), no_residual(1, DAY)],
            ];
            row_by_row(row_by_row(two(), &first), &second.concat()).finish()
        }),
        // The same with a lag of 2, all three slots, and the first one again.
        ("absent_flags_lag_2", {
            let input = Input::open(Opening { lag: 2, ..ONE });
            let input = row_by_row(input, &no_hedges(0, DAY));
            let input = row_by_row(input, &no_hedges(0, next));
            let third = [
                &no_hedges(0, DAY + 2)[..],
                &[ncc(DAY, 0), no_residual(0, DAY)],
            ];
            row_by_row(input, &third.concat()).close().finish()
        }),
        // Many closes in a row, before and after the day's rows.
        (
            "many_closes",
            one()
                .closes(6_000)
                .submit_rows(&plain_day(0, DAY))
                .closes(6_000)
                .finish(),
        ),
        // A day's sum is rounded once: 500, −500 and 499 thousandths.
        ("half_cents", {
            let sum = |day: u16, thousandths| {
                let mut row = vesting(0, day, 0, 0);
                row.values[..2].copy_from_slice(&[1, thousandths]);
                [row, meter(0, day, 0)]
            };
            Input::open(Opening { lag: 2, ..ONE })
                .submit_rows(&sum(DAY, 500))
                .close()
                .submit_rows(&sum(next, -500))
                .close()
                .submit_rows(&sum(DAY + 2, 499))
                .submit_rows(&[ncc(DAY, 0), no_residual(0, DAY)])
                .close()
                .finish()
        }),
        // V of a facility that draws, IEQ −1: it weighs nothing, V is 150. And
        // the simple average where all draw: 103 for 101 and 104.
        ("negative_ieq", {
            let day = |day: u16, facilities: u8, pairs: &[i64]| {
                let meter = even_row((METER, 0, day.into()), facilities, pairs);
                [vesting(0, day, 1_000, 0), meter]
            };
            Input::open(Opening { lag: 2, ..ONE })
                .submit_rows(&day(DAY, 3, &[100, 2, 200, 2, 300, -1]))
                .close()
                .submit_rows(&day(next, 2, &[101, -5, 104, 0]))
                .close()
                .finish()
        }),
        // The largest amounts, no 32 bits: ±2,000,000 cents per MWh on four
        // times 10,000,000 kWh, then on residuals too.
        ("largest_amounts", {
            let most = |account, day: u16, price: i64| {
                let hedge = [10_000_000, price];
                [
                    even_row((VESTING, account, day.into()), 3, &hedge.repeat(4)),
                    meter(account, day, -price),
                ]
            };
            let both = |day, price| [most(0, day, price), most(1, day, price)].concat();
            let spare = [10_000_000, 0, 1_000_000, 1_000_000];
            two()
                .submit_rows(&both(DAY, 1_000_000))
                .close()
                .submit_rows(&both(next, 1_000_000))
                .submit_rows(&[residual(0, DAY, spare), residual(1, DAY, spare)])
                .submit_rows(&[ncc(DAY, 1_000_000_000)])
                .close()
                .submit_rows(&both(DAY + 2, -1_000_000))
                .submit_rows(&[no_residual(0, next), no_residual(1, next), ncc(next, 0)])
                .close()
                .finish()
        }),
        // The last day: 9 after it, and of files only residual and NCC rows of
        // that day are still open.
        (
            "finished_book",
            Input::open(from(LAST_DAY))
                .submit_rows(&plain_day(0, LAST_DAY))
                .close()
                .close()
                .submit_rows(&plain_day(0, LAST_DAY))
                .submit_rows(&plain_day(0, LAST_DAY + 1))
                .submit_rows(&[residual(0, LAST_DAY, [1, 1, 1, 1]), ncc(LAST_DAY, 1)])
                .submit(&NO_ROWS)
                .closes(2)
                .finish(),
        ),
    ]
}

/// Lives of the books that fit.
fn lives() -> Vec<Named> {
    let next = DAY + 1;
    let third = DAY + 2;
    // 10 of 20 kWh spare, all tranche 2, 500 cents per MWh above V: 240 cents.
    let small_residual = |day| [residual(0, day, [20, 0, 0, 10_500]), ncc(day, 1_010)];
    vec![
        // Days without residuals, of both signs: L = 2 leaves two of them.
        (
            "close_without_residuals",
            Input::open(Opening { lag: 2, ..ONE })
                .submit_rows(&plain_day(0, DAY))
                .close()
                .submit_rows(&[vesting(0, next, 1_000, 9_000), meter(0, next, 10_000)])
                .close()
                .finish(),
        ),
        // A residual in both tranches; then one of no share, all amounts 0.
        (
            "close_with_residuals",
            one()
                .submit_rows(&plain_day(0, DAY))
                .close()
                .submit_rows(&[
                    vesting(0, next, 1_000, 15_000),
                    meter(0, next, 11_000),
                    residual(0, DAY, [500, 1_300, 12_000, 9_000]),
                    ncc(DAY, 1_600),
                ])
                .close()
                .submit_rows(&[
                    vesting(0, third, 0, 0),
                    meter(0, third, 10_000),
                    residual(0, next, [500, 1_300, 12_000, 9_000]),
                    ncc(next, 900),
                ])
                .close()
                .finish(),
        ),
        // The whole life of N = 2: signs differ, shares of a half, a tender
        // tranche, two facilities, closes too early.
        (
            "two_accounts",
            two()
                .close()
                .submit_rows(&[
                    vesting(1, DAY, 2_000, 9_000),
                    vesting(0, DAY, 1_000, 15_000),
                    meter(1, DAY, 10_000),
                    meter(0, DAY, 10_000),
                ])
                .close()
                .submit_rows(&[
                    even_row((VESTING, 0, next.into()), 1, &[500, 10_000, 100, 12_000]),
                    meter(0, next, 10_000),
                    vesting(1, next, 400, 15_000),
                    even_row((METER, 1, next.into()), 2, &[10_000, 3, 10_001, 1]),
                ])
                .close()
                .submit_rows(&[
                    residual(0, DAY, [100, 1_020, 13_000, 7_000]),
                    residual(1, DAY, [500, 0, 20_000, 10_400]),
                    ncc(DAY, 3_300),
                ])
                .close()
                .close()
                .finish(),
        ),
        // Two days open ahead; the residual of the first day settles with the
        // second. L and H exchanged would refuse the first file.
        (
            "lag_1_horizon_2",
            Input::open(Opening { horizon: 2, ..ONE })
                .submit_rows(&[plain_day(0, DAY), plain_day(0, next)].concat())
                .submit_rows(&plain_day(0, third))
                .close()
                .close()
                .submit_rows(&small_residual(DAY))
                .close()
                .submit_rows(&plain_day(0, third))
                .close()
                .submit_rows(&small_residual(next))
                .close()
                .close()
                .finish(),
        ),
        // One day open ahead; the residual settles two days later. L and H
        // exchanged would accept the second file.
        (
            "lag_2_horizon_1",
            Input::open(Opening { lag: 2, ..ONE })
                .submit_rows(&plain_day(0, DAY))
                .submit_rows(&plain_day(0, next))
                .close()
                .submit_rows(&plain_day(0, next))
                .close()
                .submit_rows(&plain_day(0, third))
                .close()
                .submit_rows(&small_residual(DAY))
                .close()
                .close()
                .finish(),
        ),
        // The last two days with a horizon of 2: none opens past 36,524.
        ("last_days", {
            let eve = LAST_DAY - 1;
            Input::open(Opening {
                horizon: 2,
                ..from(eve)
            })
            .submit_rows(&[plain_day(0, eve), plain_day(0, LAST_DAY)].concat())
            .close()
            .submit_rows(&plain_day(0, LAST_DAY + 1))
            .submit_rows(&small_residual(eve))
            .close()
            .close()
            .finish()
        }),
        // Twelve days, each with 100 kWh more at 1,000 cents per MWh, and a
        // residual of 240 cents from the second on.
        ("twelve_days", {
            let mut input = one();
            for number in 0..12 {
                let day = DAY + number;
                let bvq = 100 * i64::from(number);
                let mut rows = vec![vesting(0, day, bvq, 11_000), meter(0, day, 10_000)];
                if number > 0 {
                    rows.push(residual(0, day - 1, [20, 0, 0, 10_500]));
                    rows.push(ncc(day - 1, bvq - 90));
                }
                input = input.submit_rows(&rows).close();
            }
            input.finish()
        }),
    ]
}
