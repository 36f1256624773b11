//! Files with a single fault, at fields all over the file.

use super::desk::Desk;
use super::Script;
use crate::book::Opening;
use crate::generate::files::{every_damage, slim, Draft, Style};
use crate::history::{Key, METER, NCC, RESIDUAL, VESTING};

/// Faults tried of each file.
const FAULTS: usize = 60;
/// Of a file's faults the longer half is tried so many times in a hundred.
const LONG: u64 = 35;

pub(super) fn write(script: &mut Script) {
    for (accounts, lag, horizon, first_day, closes) in [
        (1, 1, 1, 9_497, 0),
        (2, 2, 3, 20_000, 3),
        (3, 1, 2, 36_523, 2),
    ] {
        let opening = Opening {
            accounts,
            lag,
            horizon,
            ..Opening::smallest(first_day)
        };
        let mut desk = Desk::open(script, Style::Extreme, opening);
        for _ in 0..closes {
            desk.feed(0);
            desk.close();
        }
        for section in [VESTING, METER, RESIDUAL, NCC] {
            damage(&mut desk, &[section]);
        }
        damage(&mut desk, &[VESTING, METER, RESIDUAL, NCC]);
        heads(&mut desk);
        repeats(&mut desk);
    }
}

/// The starts of rows, each field in range or out of it, cut anywhere: which
/// fault comes first.
fn heads(desk: &mut Desk) {
    for _ in 0..150 {
        let section = desk.script.rng.below(4);
        let days = desk.history.open_days(section);
        let accounts = desk.history.accounts() as u8;
        let rng = &mut desk.script.rng;
        let mut file = vec![0; 2 * section];
        file.extend(rng.pick(&[1_u16, 1, 1, 2, 65_535]).to_le_bytes());
        if section != NCC {
            let last = accounts - 1;
            file.push(rng.pick(&[0, last, last, last, accounts, 32, 255]));
        }
        let (first, last) = (*days.start() as u16, *days.end() as u16);
        let days = [
            first,
            last,
            first,
            last,
            first - 1,
            last + 1,
            0,
            36_524,
            36_525,
            65_535,
        ];
        file.extend(rng.pick(&days).to_le_bytes());
        if section <= METER {
            file.push(rng.pick(&[0, 1, 1, 2, 3, 3, 4, 5, 255]));
        }
        for _ in 0..rng.below(4) {
            let values = [0_i32, 1, -1, 1_000_000, 1_000_001, 10_000_001, -10_000_001];
            file.extend(rng.pick(&values).to_le_bytes());
        }
        if rng.percent(40) {
            file.truncate(rng.below(file.len()));
        }
        desk.submit(&file);
    }
}

/// A row given twice in its section, rows of other keys before it and between;
/// one of a closed day, one of no account; and bytes after the end.
fn repeats(desk: &mut Desk) {
    // One account and one day have few files.
    let turns = if desk.history.accounts() == 1 { 4 } else { 24 };
    for turn in 0..turns {
        let section = turn % 4;
        let days = desk.history.open_days(section);
        let accounts = if section == NCC {
            1
        } else {
            desk.history.accounts()
        };
        let mut keys: Vec<Key> = days
            .flat_map(|day| (0..accounts).map(move |account| (section, account, day)))
            .collect();
        let rng = &mut desk.script.rng;
        rng.shuffle(&mut keys);
        keys.truncate(1 + rng.below(5));
        if keys.is_empty() {
            continue;
        }
        let mut rows = desk.rows(&keys, 0);
        let rng = &mut desk.script.rng;
        let mut longer = Draft { rows: rows.clone() }.bytes();
        longer.extend(vec![0; 1 + rng.below(3)]);
        let (mut closed, mut unknown) = (rows.clone(), rows.clone());
        let late = rng.below(rows.len());
        closed[late].key.2 += rng.pick(&[-100, 100]);
        unknown[late].key.1 += 3;
        let mut twice = rows[rng.below(rows.len())].clone();
        if rng.percent(50) {
            // The day is judged before the values.
            twice.values.fill(i64::from(i32::MAX));
        }
        rows.push(twice);
        let last = rows.len() - 1;
        let again = rng.below(rows.len());
        rows.swap(again, last);
        desk.submit(&longer);
        for rows in [rows, closed, unknown] {
            desk.submit_rows(rows);
        }
    }
}

/// Faults of a file with a row of each section, the days being the window's
/// ends.
fn damage(desk: &mut Desk, sections: &[usize]) {
    let account = desk.history.accounts() - 1;
    let keys = sections.iter().map(|&section| {
        let days = desk.history.open_days(section);
        let account = if section == NCC { 0 } else { account };
        (section, account, *days.end())
    });
    // A finished book has no day left for vesting and meter rows.
    let keys: Vec<Key> = keys
        .filter(|key| desk.history.open_days(key.0).contains(&key.2))
        .collect();
    if keys.is_empty() {
        return;
    }
    let rows = desk.rows(&keys, 100).into_iter();
    let draft = Draft {
        rows: rows
            .map(|row| if row.count > 2 { slim(row) } else { row })
            .collect(),
    };
    desk.submit(&draft.bytes());
    let half = draft.bytes().len() / 2;
    let mut files = Vec::new();
    every_damage(&draft, &desk.history, |file, _| files.push(file.to_vec()));
    desk.script.rng.shuffle(&mut files);
    let mut left = FAULTS;
    for file in files {
        if left > 0 && (file.len() < half || desk.script.rng.percent(LONG)) {
            desk.submit(&file);
            left -= 1;
        }
    }
}
