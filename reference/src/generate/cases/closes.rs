//! Closes that are accepted: half cents, revisions, books of uneven intervals,
//! the last days.

use super::desk::Desk;
use super::Script;
use crate::book::Opening;
use crate::generate::books::{word_case, DAY_BOUND};
use crate::generate::files::{even_row, Style};
use crate::history::{METER, NCC, RESIDUAL, VESTING};
use crate::layout::MSSL_BALANCE;

pub(super) fn write(script: &mut Script) {
    half_cents(script);
    extremes(script);
    revisions(script);
    uneven(script);
    last_days(script);
}

/// Day sums of half cents and their neighbours, through tender and residual
/// amounts too.
fn half_cents(script: &mut Script) {
    let sums = [499, 500, 501, 1_499, 1_500, 1_501, 999_500];
    for (turn, sum) in sums.into_iter().flat_map(|sum| [sum, -sum]).enumerate() {
        let mut desk = Desk::open(script, Style::Usual, Opening::smallest(9_497));
        // The residual is one kWh at price `sum`, on a day of no other amount.
        desk.submit_rows(vec![
            even_row((VESTING, 0, 9_497), 0, &[0, 0]),
            even_row((METER, 0, 9_497), 1, &[0, 1]),
        ]);
        desk.close();
        let interval = desk.script.rng.below(48);
        let mut vesting = even_row((VESTING, 0, 9_498), 1, &[0, 0, 0, 0]);
        let mut residual = even_row((RESIDUAL, 0, 9_497), 0, &[1, 0, 0, 0]);
        let mut ncc = even_row((NCC, 0, 9_497), 0, &[0]);
        if turn % 2 == 0 {
            ncc.values[interval] = 1;
            residual.values[4 * interval + 3] = sum;
        } else {
            vesting.values[4 * interval + 2] = 1;
            vesting.values[4 * interval + 3] = sum;
        }
        desk.submit_rows(vec![
            vesting,
            even_row((METER, 0, 9_498), 1, &[0, 1]),
            residual,
            ncc,
        ]);
        desk.close();
    }
}

/// The largest amounts of both signs, day after day.
fn extremes(script: &mut Script) {
    for sign in [1, -1] {
        let mut desk = Desk::open(script, Style::Extreme, Opening::smallest(36_522));
        let pair = [10_000_000, sign * 1_000_000];
        for day in 36_522..=36_524 {
            let mut rows = vec![
                even_row((VESTING, 0, day), 3, &pair.repeat(4)),
                even_row((METER, 0, day), 1, &[-sign * 1_000_000, 10_000_000]),
            ];
            if day > 36_522 {
                let values = [10_000_000, 10_000_000, pair[1], pair[1]];
                rows.push(even_row((RESIDUAL, 0, day - 1), 0, &values));
                rows.push(even_row((NCC, 0, day - 1), 0, &[1_000_000_000]));
            }
            desk.submit_rows(rows);
            desk.close();
        }
        desk.close();
    }
}

/// A day's rows given again, with fewer pairs and more, before its close and
/// after it.
fn revisions(script: &mut Script) {
    for style in [Style::Tiny, Style::Usual, Style::Wide] {
        let mut desk = Desk::open(
            script,
            style,
            Opening {
                lag: 2,
                horizon: 2,
                ..Opening::smallest(15_000)
            },
        );
        for day in 15_000..15_004 {
            for full in [100, 0, 50] {
                let keys = [(VESTING, 0, day), (METER, 0, day)];
                let rows = desk.rows(&keys, full);
                desk.submit_rows(rows);
            }
            desk.feed(50);
            let settled = day - 1;
            if settled >= 15_000 {
                let keys = [(RESIDUAL, 0, settled), (NCC, 0, settled)];
                for _ in 0..2 {
                    let rows = desk.rows(&keys, 100);
                    desk.submit_rows(rows);
                }
            }
            desk.close();
        }
    }
}

/// Well-formed books whose intervals are not alike, and balances at their
/// bounds, closed.
fn uneven(script: &mut Script) {
    for turn in 0..24 {
        let accounts = 1 + turn % 2;
        let style = [Style::Tiny, Style::Usual, Style::Wide][turn as usize % 3];
        let mut desk = Desk::open(
            script,
            style,
            Opening {
                accounts,
                ..Opening::smallest(11_000 + turn)
            },
        );
        desk.feed(30);
        desk.close();
        desk.feed(30);
        let slots = desk.layout.first_interval_at();
        for _ in 0..60 {
            let index = slots + desk.script.rng.below(desk.layout.size() - slots);
            poke_fine(&mut desk, index);
        }
        let bound = desk.script.rng.pick(&[DAY_BOUND, -DAY_BOUND]);
        desk.script.poke(desk.layout.balance_at(0), bound);
        desk.script.poke(MSSL_BALANCE, -bound);
        desk.script.close(desk.lent, accounts as usize + 1);
        desk.script.close(desk.lent, accounts as usize + 1);
    }
}

/// Another value that the word may have, but not that of an absent row.
fn poke_fine(desk: &mut Desk, index: usize) {
    let case = word_case(desk.book(), index);
    let fine: Vec<i64> = case.fine.into_iter().filter(|word| *word != 0).collect();
    if !fine.is_empty() {
        let word = desk.script.rng.pick(&fine);
        desk.script.poke(index, word);
    }
}

/// Books kept to the end of the calendar: finished, the last days' residual and
/// NCC rows are still taken, and nothing else.
fn last_days(script: &mut Script) {
    for (lag, horizon) in [(1, 1), (2, 3), (3, 1)] {
        let mut desk = Desk::open(
            script,
            Style::Usual,
            Opening {
                lag,
                horizon,
                ..Opening::smallest(36_522)
            },
        );
        while !desk.history.finished() {
            desk.feed(10);
            desk.close();
        }
        for words in [0, 2, 40] {
            desk.close_with(words);
        }
        for day in 36_520..=36_526 {
            for section in [VESTING, METER, RESIDUAL, NCC] {
                let rows = desk.rows(&[(section, 0, day)], 0);
                desk.submit_rows(rows);
            }
        }
        desk.close();
    }
}
