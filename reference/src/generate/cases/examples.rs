//! Every example and figure of the specification that a call shows.

use super::desk::Desk;
use super::Script;
use crate::book::Opening;
use crate::edition::Edition;
use crate::frames::Frame;
use crate::generate::files::{even_row, Draft, Style};
use crate::history::{METER, VESTING};

const WORDS: usize = 5_072;
const EIGHT_ZEROS: [u8; 8] = [0; 8];

pub(super) fn write(script: &mut Script) {
    table(script);
    finished(script);
    figures(script);
    for (sums, v) in [
        (&[(400, 15_000)][..], 10_000),
        (&[(1, 499)], 0),
        (&[(1, 500)], 0),
        (&[(1, -500)], 0),
        (&[(1, -499)], 0),
        (&[(1, 250), (1, 249)], 0),
        (&[(1, 250), (1, 250)], 0),
        (&[(1, -250), (1, -250)], 0),
        (&[(1, 1_499)], 0),
        (&[(1, -1_500)], 0),
    ] {
        day_amount(script, sums, v);
    }
    calendar(script);
}

/// The table of numbers, 1 to 11 but 9, on the book of N = 2, L = H = 1.
fn table(script: &mut Script) {
    let open = |lent, accounts| Frame::Open {
        lent,
        opening: Opening {
            accounts,
            ..Opening::smallest(9_497)
        },
    };
    script.push(open(WORDS, 0));
    script.push(open(WORDS - 1, 2));
    script.push(open(WORDS, 2));

    script.poke(0, 394);
    script.submit(WORDS, &EIGHT_ZEROS);
    script.close(WORDS, 3);
    script.poke(0, 395);

    let row = even_row((VESTING, 0, 9_497), 0, &[0, 0]);
    let twice = Draft {
        rows: vec![row.clone(), row],
    };
    for file in [
        &[0; 7][..],
        &[1, 0, 2],
        &[1, 0, 0, 0x1A, 0x25],
        &[1, 0, 0, 0xFF, 0xFF],
        &twice.bytes(),
        &[0; 9],
        &[],
        &EIGHT_ZEROS,
    ] {
        script.submit(WORDS, file);
    }
    script.close(WORDS, 2);
    script.close(WORDS, 3);

    // The book of `settle`'s example.
    script.push(open(WORDS, 1));
    script.close(WORDS, 33);
}

/// Number 9, before 10.
fn finished(script: &mut Script) {
    let mut desk = Desk::open(script, Style::Usual, Opening::smallest(36_524));
    desk.feed(50);
    desk.close();
    desk.close();
    desk.close_with(0);
    desk.submit(&EIGHT_ZEROS);
}

fn figures(script: &mut Script) {
    for (remaining, uegqs) in [
        (300, [100, 200, 300]),
        (2, [1, 1, 1]),
        (10, [1, 2, 3]),
        (-5, [1, 2, 3]),
        (10, [0, 0, 0]),
    ] {
        script.push(Frame::Share {
            edition: Edition::First,
            remaining,
            fill: -1,
            uegqs: uegqs.to_vec(),
            output: 4,
        });
    }
    for (rvq, bvq, mq) in [(150, 400, 500), (150, 500, 400), (150, 0, 0)] {
        script.push(Frame::Tranche { rvq, bvq, mq });
    }
    for (meps, ieqs) in [
        ([10_000, 10_001], [3, 1]),
        ([101, 104], [-5, 0]),
        ([-101, -104], [-5, 0]),
    ] {
        script.push(Frame::Price {
            meps: meps.to_vec(),
            ieqs: ieqs.to_vec(),
        });
    }
}

/// The first intervals have these base quantities and prices, the others none.
fn day_amount(script: &mut Script, base: &[(i64, i64)], v: i64) {
    let mut desk = Desk::open(script, Style::Usual, Opening::smallest(9_497));
    let mut vesting = even_row((VESTING, 0, 9_497), 0, &[0, 0]);
    for (interval, (bvq, bvp)) in base.iter().enumerate() {
        vesting.values[2 * interval] = *bvq;
        vesting.values[2 * interval + 1] = *bvp;
    }
    desk.submit_rows(vec![vesting, even_row((METER, 0, 9_497), 1, &[v, 1])]);
    desk.close();
}

fn calendar(script: &mut Script) {
    for date in [
        [2026, 2, 29],
        [2000, 1, 1],
        [2026, 1, 1],
        [2099, 12, 31],
        [2026, 3, 20],
        [2026, 3, 31],
        [2026, 4, 1],
        [2026, 3, 11],
    ] {
        script.push(Frame::DateToDay(date));
    }
    for day in [0, 6, 9_497, 36_524] {
        script.push(Frame::DayToDate(day));
        script.push(Frame::Weekday(day));
    }
    for day in [0, 9_497, 36_449, 36_450] {
        script.push(Frame::StatementDay(day));
    }
    // 20 March 2026.
    for holidays in [vec![], vec![9_575], vec![5, 5]] {
        script.push(Frame::BusinessDay(9_575, holidays.clone()));
        script.push(Frame::FinalStatement(9_497, holidays.clone()));
        script.push(Frame::ResidualDue([2026, 1], holidays));
    }
}
