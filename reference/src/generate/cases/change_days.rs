//! Change days: X at the opening, X in word 7 of a lent book, and closes whose
//! residual day comes before X, on it and after it.

use super::desk::Desk;
use super::lists::list;
use super::Script;
use crate::book::{size, Opening};
use crate::edition::NEVER;
use crate::frames::Frame;
use crate::generate::books::change_day_case;
use crate::generate::files::{even_row, DraftRow, Style};
use crate::generate::lists::change_day;
use crate::history::{Key, METER, NCC, RESIDUAL, VESTING};
use crate::layout::{CHANGE_DAY, MSSL_BALANCE};
use crate::numbers::ACCEPTED;
use crate::units::{INTERVALS, QUANTITY};

const EIGHT_ZEROS: [u8; 8] = [0; 8];
const F: u64 = 20_000;
const TWO: Opening = two(F, NEVER);

/// Two accounts, of which the second has the odd kWh.
const fn two(first_day: u64, change_day: u64) -> Opening {
    Opening {
        accounts: 2,
        change_day,
        ..Opening::smallest(first_day)
    }
}

pub(super) fn write(script: &mut Script) {
    openings(script);
    unreached(script);
    words(script);
    word_after(script);
    crossings(script);
    poked_crossings(script);
    shared_days(script);
    unlike_intervals(script);
    most_accounts(script);
    lists(script);
}

/// X good and bad, with words enough and too few, over the words of the opening
/// before.
fn openings(script: &mut Script) {
    for first_day in [F, 9_497, 36_524] {
        for change_day in [
            0,
            1,
            9_496,
            9_497,
            9_498,
            F - 1,
            F,
            F + 1,
            36_523,
            36_524,
            36_525,
            (1 << 16) + 9_497,
            1 << 32,
            (1 << 32) + 9_497,
            1 << 63,
            (1 << 63) + 9_497,
            // Minus 9,497.
            u64::MAX - 9_496,
            u64::MAX,
        ] {
            let opening = two(first_day, change_day);
            let size = size(opening).unwrap_or(0) as usize;
            if first_day == F {
                for lent in [0, size - 1] {
                    script.push(Frame::Open { lent, opening });
                }
            }
            open(script, size, opening);
        }
    }
}

/// Opens; a book that was opened is well formed.
fn open(script: &mut Script, lent: usize, opening: Opening) {
    let figures = script.push(Frame::Open { lent, opening });
    if figures[0] == i64::from(ACCEPTED) {
        script.submit(lent, &EIGHT_ZEROS);
    }
}

/// X just reached by the last close's residual day, and just not.
fn unreached(script: &mut Script) {
    for change_day in [36_514, 36_515] {
        let opening = Opening {
            lag: 10,
            ..two(30_000, change_day)
        };
        let lent = size(opening).unwrap_or(0) as usize;
        open(script, lent, opening);
    }
}

/// Word 7 of a new book, of one ready to close and of a finished one.
fn words(script: &mut Script) {
    word_values(&mut Desk::open(script, Style::Tiny, TWO));

    let mut desk = Desk::open(script, Style::Tiny, two(F, F + 1));
    feed(&mut desk);
    desk.close();
    feed(&mut desk);
    word_values(&mut desk);
    desk.close();

    let mut desk = Desk::open(script, Style::Tiny, two(36_524, 36_524));
    feed(&mut desk);
    desk.close();
    word_values(&mut desk);
}

/// Each value that word 7 may not have and may have.
fn word_values(desk: &mut Desk) {
    let kept = desk.book()[CHANGE_DAY];
    let (lent, words) = (desk.lent, desk.history.accounts() + 1);
    let script = &mut desk.script;
    let case = change_day_case();
    for value in case.off {
        script.poke(CHANGE_DAY, value);
        script.submit(lent, &EIGHT_ZEROS);
        script.close(lent, words);
    }
    // 3 comes before a file's numbers, 9 and 10.
    script.submit(lent, &[]);
    script.close(lent, 0);
    for value in case.fine {
        script.poke(CHANGE_DAY, value);
        script.submit(lent, &EIGHT_ZEROS);
        script.close(lent, 0);
    }
    script.poke(CHANGE_DAY, kept);
}

/// The words beside X hold no X.
fn word_after(script: &mut Script) {
    for change_day in [NEVER, F] {
        let desk = Desk::open(script, Style::Tiny, two(F, change_day));
        let lent = desk.lent;
        for index in [MSSL_BALANCE, CHANGE_DAY + 1] {
            for value in [1, F as i64] {
                script.poke(index, value);
                script.submit(lent, &EIGHT_ZEROS);
                script.close(lent, 3);
            }
            script.poke(index, 0);
        }
    }
}

/// A row of 1 kWh: of N accounts alike, N − 1 kWh are left to share. The first
/// kWh of a share is in tranche 1.
fn row(accounts: usize, key: &Key) -> DraftRow {
    let (section, account, day) = *key;
    let load = 2 * accounts as i64 - 1;
    let first_price = 100 + 1_000 * (1 + day % 5);
    let second_price = first_price + 7_000 * (1 + account as i64);
    match section {
        VESTING => even_row(*key, 0, &[1, 1_100]),
        METER => even_row(*key, 1, &[100, 1]),
        RESIDUAL => even_row(*key, 0, &[1, 2, first_price, second_price]),
        _ => even_row(*key, 0, &[load]),
    }
}

/// Submits what the next close lacks.
fn feed(desk: &mut Desk) {
    let accounts = desk.history.accounts();
    let rows = desk
        .missing()
        .iter()
        .map(|key| row(accounts, key))
        .collect();
    desk.submit_rows(rows);
}

/// The same, the intervals of day r having these R and UEGQ in turn.
fn feed_loads(desk: &mut Desk, loads: &[(i64, &[i64])]) {
    let accounts = desk.history.accounts();
    let mut rows: Vec<DraftRow> = Vec::new();
    for key in desk.missing() {
        let mut row = row(accounts, &key);
        for (interval, (remaining, uegqs)) in (0..INTERVALS).zip(loads.iter().cycle()) {
            match key.0 {
                RESIDUAL => row.values[4 * interval] = uegqs[key.1],
                NCC => row.values[interval] = remaining + accounts as i64,
                _ => {}
            }
        }
        rows.push(row);
    }
    desk.submit_rows(rows);
}

/// L, F, X and how many days are closed.
const CROSSINGS: [(u64, u64, u64, usize); 18] = [
    // Never.
    (1, F, NEVER, 3),
    // Before F.
    (1, F, 9_497, 3),
    (1, F, F - 1, 3),
    (3, F, F - 2, 5),
    // On the first residual day, on later ones, and after the last.
    (1, F, F, 3),
    (1, F, F + 1, 4),
    (1, F, F + 2, 4),
    (1, F, F + 3, 4),
    (1, F, F + 4, 4),
    (1, F, 36_524, 3),
    // Closing days past X, residual days not.
    (2, F, F, 4),
    (2, F, F + 1, 5),
    (3, F, F + 1, 6),
    (3, F, F + 3, 5),
    // At the ends of the calendar.
    (1, 9_497, 9_497, 3),
    (1, 9_497, 9_498, 4),
    (1, 36_521, 36_523, 5),
    (1, 36_521, 36_524, 5),
];

fn crossings(script: &mut Script) {
    for (lag, first_day, change_day, closes) in CROSSINGS {
        let opening = Opening {
            lag,
            ..two(first_day, change_day)
        };
        let mut desk = Desk::open(script, Style::Tiny, opening);
        for _ in 0..closes {
            feed(&mut desk);
            desk.close();
        }
    }
}

/// Word 7 changed before each close, from its residual day on.
fn poked_crossings(script: &mut Script) {
    let mut desk = Desk::open(script, Style::Tiny, TWO);
    feed(&mut desk);
    desk.close();
    let values: [fn(i64) -> i64; 8] = [
        |day| day,
        |day| day + 1,
        |day| day - 1,
        |_| 0,
        |_| 9_497,
        |_| 36_524,
        |_| F as i64,
        |day| day + 2,
    ];
    for value in values {
        feed(&mut desk);
        let residual_day = desk.history.next_day() - 1;
        desk.script.poke(CHANGE_DAY, 9_496);
        desk.script.close(desk.lent, 3);
        desk.script.poke(CHANGE_DAY, value(residual_day));
        desk.submit(&EIGHT_ZEROS);
        desk.close_poked();
    }
}

/// R and UEGQ of three accounts, all intervals of a day alike.
const SHARED_DAYS: [(i64, [i64; 3]); 17] = [
    (-1, [3, 4, 5]),
    (0, [3, 4, 5]),
    (1, [3, 4, 5]),
    (2, [1, 1, 1]),
    (6, [3, 4, 5]),
    (7, [5, 4, 3]),
    (11, [3, 4, 5]),
    (12, [3, 4, 5]),
    (13, [3, 4, 5]),
    (999_999_997, [3, 4, 5]),
    (4, [0, 3, 4]),
    (4, [3, 0, 4]),
    (4, [3, 4, 0]),
    (3, [0, 0, 5]),
    (3, [5, 0, 0]),
    (0, [0, 0, 0]),
    (5, [0, 0, 0]),
];

fn shared_days(script: &mut Script) {
    let opening = Opening {
        accounts: 3,
        ..two(F, F)
    };
    let mut desk = Desk::open(script, Style::Tiny, opening);
    feed(&mut desk);
    desk.close();
    for (remaining, uegqs) in SHARED_DAYS {
        feed_loads(&mut desk, &[(remaining, &uegqs)]);
        desk.close();
    }
}

/// Intervals of unlike R and S: the sums of each begin at 0.
fn unlike_intervals(script: &mut Script) {
    let opening = Opening {
        accounts: 4,
        ..two(F, F + 1)
    };
    let mut desk = Desk::open(script, Style::Tiny, opening);
    feed(&mut desk);
    desk.close();
    let loads: [&[(i64, &[i64])]; 3] = [
        &[(2, &[1, 2, 0, 0]), (1, &[1, 0, 0, 0])],
        &[(1, &[1, 0, 0, 0]), (2, &[1, 2, 0, 0])],
        &[
            (3, &[1, 2, 3, 4]),
            (1, &[0, 1, 1, 1]),
            (5, &[4, 0, 2, 1]),
            (9, &[2, 2, 2, 2]),
            (-4, &[5, 6, 7, 8]),
            (13, &[5, 6, 7, 8]),
            (2, &[0, 0, 0, 0]),
        ],
    ];
    for loads in loads {
        feed_loads(&mut desk, loads);
        desk.close();
    }
}

/// 32 accounts of 10,000,000 kWh, before X and on it.
fn most_accounts(script: &mut Script) {
    let opening = Opening {
        accounts: 32,
        ..two(F, F + 1)
    };
    let mut desk = Desk::open(script, Style::Tiny, opening);
    feed(&mut desk);
    desk.close();
    let all = [*QUANTITY.end(); 32];
    let mut last = all;
    last[31] -= 1;
    let spare: i64 = all.iter().sum();
    let mut loads: Vec<(i64, &[i64])> = Vec::new();
    for remaining in [
        1,
        31,
        32,
        33,
        spare / 2,
        spare - 3,
        spare - 2,
        spare - 1,
        spare,
    ] {
        loads.extend([(remaining, &all[..]), (remaining, &last[..])]);
    }
    loads.extend([(spare + 1, &all[..]), (900_000_000, &all[..])]);
    for _ in 0..2 {
        feed_loads(&mut desk, &loads);
        desk.close();
    }
}

/// Lists of calls on books with any X.
fn lists(script: &mut Script) {
    for turn in 0..6 {
        let rng = &mut script.rng;
        let first_day = match turn {
            0 => 36_521,
            1 => 9_497,
            _ => rng.between(9_497, 36_524),
        };
        let opening = Opening {
            accounts: rng.pick(&[2, 3]),
            lag: rng.pick(&[1, 1, 2]),
            horizon: rng.pick(&[1, 2]),
            change_day: change_day(rng, first_day),
            ..Opening::smallest(first_day as u64)
        };
        let style = [Style::Tiny, Style::Usual, Style::HalfCent][turn % 3];
        list(&mut Desk::open(script, style, opening), 12);
    }
}
