//! Large books: 32 accounts, a lag of 75 days, a horizon of 92.

use super::desk::Desk;
use super::Script;
use crate::book::Opening;
use crate::generate::files::{even_row, Style};
use crate::history::{Key, METER, NCC, RESIDUAL, VESTING};
use crate::layout::{ENTRY_WORDS, ENTRY_ZERO, RESIDUAL_FLAG, VESTING_FLAG};

pub(super) fn write(script: &mut Script) {
    most_accounts(script);
    many_accounts(script);
    long_lag(script);
    longest_window(script);
    widest_book(script);
}

/// 32 accounts at the largest amounts, then at the least R, −1,280,000,000.
fn most_accounts(script: &mut Script) {
    let mut desk = Desk::open(
        script,
        Style::Extreme,
        Opening {
            accounts: 32,
            ..Opening::smallest(9_497)
        },
    );
    let most = [10_000_000, 1_000_000];
    for (day, tranches, load) in [(9_497, 0, 0), (9_498, 3, 1_000_000_000), (9_499, 0, 0)] {
        let mut rows = Vec::new();
        for account in 0..32 {
            let pairs = most.repeat(1 + usize::from(tranches));
            rows.push(even_row((VESTING, account, day), tranches, &pairs));
            let meter = [-1_000_000, 10_000_000];
            rows.push(even_row((METER, account, day), 1, &meter));
            if day > 9_497 {
                let values = [10_000_000, 10_000_000, 1_000_000, 1_000_000];
                rows.push(even_row((RESIDUAL, account, day - 1), 0, &values));
            }
        }
        if day > 9_497 {
            rows.push(even_row((NCC, 0, day - 1), 0, &[load]));
        }
        desk.submit_rows(rows);
        desk.close_with(32);
        desk.close_with(33);
    }
}

/// 32 accounts of any numbers.
fn many_accounts(script: &mut Script) {
    let mut desk = Desk::open(
        script,
        Style::Usual,
        Opening {
            accounts: 32,
            horizon: 2,
            ..Opening::smallest(28_000)
        },
    );
    desk.feed(15);
    desk.close();
    let mut keys = desk.missing();
    let last = keys.pop();
    let rows = desk.rows(&keys, 15);
    desk.submit_rows(rows);
    desk.close();
    let keys: Vec<Key> = last.into_iter().collect();
    let rows = desk.rows(&keys, 15);
    desk.submit_rows(rows);
    desk.close();
    let last_entry = desk.layout.size() - ENTRY_WORDS;
    for index in [
        desk.layout.balance_at(31),
        last_entry + ENTRY_ZERO,
        last_entry + RESIDUAL_FLAG,
        last_entry + VESTING_FLAG,
    ] {
        let kept = desk.book()[index];
        desk.script.poke(index, i64::MIN);
        desk.script.submit(desk.lent, &[0; 8]);
        desk.script.poke(index, kept);
    }
}

/// L = 75 and H = 92: residuals are settled from the 76th day on.
fn long_lag(script: &mut Script) {
    let mut desk = Desk::open(
        script,
        Style::Usual,
        Opening {
            lag: 75,
            horizon: 92,
            ..Opening::smallest(9_497)
        },
    );
    let days: Vec<i64> = (9_497..9_576).collect();
    for days in days.chunks(20) {
        let keys: Vec<Key> = days
            .iter()
            .flat_map(|&day| [(VESTING, 0, day), (METER, 0, day)])
            .collect();
        let rows = desk.rows(&keys, 0);
        desk.submit_rows(rows);
    }
    // The window's ends, and the days beside them.
    for (section, day) in [
        (NCC, 9_496),
        (NCC, 9_588),
        (VESTING, 9_588),
        (VESTING, 9_589),
        (RESIDUAL, 9_589),
    ] {
        let rows = desk.rows(&[(section, 0, day)], 0);
        desk.submit_rows(rows);
    }
    for day in 9_497..9_576 {
        if day >= 9_497 + 75 {
            desk.close();
            desk.feed(0);
        }
        desk.close();
    }
    // Days settled are closed for good.
    for day in [9_499, 9_500, 9_501] {
        let rows = desk.rows(&[(NCC, 0, day), (RESIDUAL, 0, day)], 0);
        desk.submit_rows(rows);
    }
}

/// The largest book with both of the longest that the program holds.
fn longest_window(script: &mut Script) {
    let mut desk = Desk::open(
        script,
        Style::Wide,
        Opening {
            accounts: 4,
            lag: 75,
            horizon: 92,
            ..Opening::smallest(30_000)
        },
    );
    desk.feed(30);
    desk.close();
    let keys = [
        (VESTING, 3, 30_001),
        (VESTING, 3, 30_092),
        (METER, 2, 30_092),
        (RESIDUAL, 3, 30_000),
        (NCC, 0, 30_092),
    ];
    let rows = desk.rows(&keys, 0);
    desk.submit_rows(rows);
    desk.close();
    let size = desk.layout.size();
    for index in [size - 1, desk.layout.first_interval_at(), size / 2] {
        let kept = desk.book()[index];
        desk.script.poke(index, 1);
        desk.script.submit(desk.lent, &[0; 8]);
        desk.script.poke(index, kept);
    }
    desk.script.submit(size - 1, &[0; 8]);
    desk.script.submit(size, &[0; 8]);
}

/// 32 accounts over as many slots as the program holds.
fn widest_book(script: &mut Script) {
    let mut desk = Desk::open(
        script,
        Style::Usual,
        Opening {
            accounts: 32,
            lag: 10,
            horizon: 11,
            ..Opening::smallest(36_500)
        },
    );
    let rows = desk.rows(
        &[(METER, 31, 36_510), (VESTING, 31, 36_510), (NCC, 0, 36_510)],
        0,
    );
    desk.submit_rows(rows);
    desk.close();
    let last = desk.layout.size() - 1;
    desk.script.poke(last, 1);
    desk.script.submit(desk.lent, &[0; 8]);
    desk.script.poke(last, 0);
}
