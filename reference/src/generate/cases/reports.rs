//! Hedge totals of residual days: accounts of 0 to 3 tranches at every place,
//! with a base contract and without. R is positive, so that the shares depend on
//! each quantity.

use super::desk::Desk;
use super::Script;
use crate::book::Opening;
use crate::edition::NEVER;
use crate::generate::files::{even_row, DraftRow, Style};
use crate::history::{Key, METER, NCC, RESIDUAL, VESTING};
use crate::report::HedgeReport;
use crate::units::{INTERVALS, MOST_ACCOUNTS, MOST_TRANCHES};

const F: i64 = 20_000;

/// Each account's BVQ, then its TVQ, no two sums of some of them being equal. The
/// third account has no base contract.
const HEDGES: [&[i64]; 4] = [&[640, 10, 20, 40], &[1_280], &[0, 80, 160], &[2_560, 320]];

/// Others, with zeros before, between and after the tranches.
const SPARSE_HEDGES: [&[i64]; 5] = [
    &[0, 0, 0, 10],
    &[640],
    &[320, 0, 20, 0],
    &[0],
    &[0, 40, 0, 80],
];

pub(super) fn write(script: &mut Script) {
    rotated(script, &HEDGES);
    rotated(script, &SPARSE_HEDGES);
    unlike_counts(script);
    most_accounts(script);
    drawn_days(script);
}

/// Each account first once, the editions by turns.
fn rotated(script: &mut Script, hedges: &[&[i64]]) {
    for first in 0..hedges.len() {
        let mut hedges = hedges.to_vec();
        hedges.rotate_left(first);
        let change_day = [NEVER, F as u64][first % 2];
        let mut desk = hedged(script, change_day, &hedges);
        let rows = settling_rows(&desk, 2_000, 3_000);
        desk.submit_rows(rows);
        desk.close();
    }
}

/// A book with day F closed, its accounts having these hedges.
fn hedged<'a>(script: &'a mut Script, change_day: u64, hedges: &[&[i64]]) -> Desk<'a> {
    let opening = Opening {
        accounts: hedges.len() as u64,
        change_day,
        ..Opening::smallest(F as u64)
    };
    let mut desk = Desk::open(script, Style::Usual, opening);
    let mut rows = Vec::new();
    for (account, quantities) in hedges.iter().enumerate() {
        rows.push(vesting_row(account, quantities));
        rows.push(meter_row(&(METER, account, F)));
    }
    desk.submit_rows(rows);
    desk.close();
    desk
}

/// The quantities of day F are these by once, twice and three times, in turn.
fn vesting_row(account: usize, quantities: &[i64]) -> DraftRow {
    let mut values = Vec::new();
    for interval in 0..INTERVALS {
        let times = 1 + interval as i64 % 3;
        for (round, quantity) in (0..).zip(quantities) {
            values.extend([times * quantity, 5_000 + 7 * account as i64 + round]);
        }
    }
    DraftRow {
        key: (VESTING, account, F),
        count: quantities.len() as u8 - 1,
        values,
    }
}

fn meter_row(key: &Key) -> DraftRow {
    even_row(*key, 1, &[100 * key.1 as i64, 1])
}

/// What the next close lacks, with this UEGQ or somewhat more and this R.
fn settling_rows(desk: &Desk, spare: i64, remaining: i64) -> Vec<DraftRow> {
    let totals = hedge_totals(desk);
    let row = |key: &Key| match key.0 {
        VESTING => even_row(*key, 0, &[0, 0]),
        METER => meter_row(key),
        RESIDUAL => residual_row(desk, key, spare + 50 * key.1 as i64),
        _ => DraftRow {
            values: totals.iter().map(|total| total + remaining).collect(),
            ..even_row(*key, 0, &[])
        },
    };
    desk.missing().iter().map(row).collect()
}

/// A holder without base contract has MQ 0.
fn residual_row(desk: &Desk, key: &Key, uegq: i64) -> DraftRow {
    let account = key.1;
    let bvq = desk.book()[desk.layout.vesting_flag_at(F, 0, account) + 1];
    let price = 10_000 + 1_000 * account as i64;
    even_row(*key, 0, &[uegq, 2 * bvq, price, 3 * price])
}

/// The hedge total of each interval of day F.
fn hedge_totals(desk: &Desk) -> Vec<i64> {
    let intervals = desk.layout.intervals(desk.book(), F);
    intervals
        .map(|interval| HedgeReport::of(interval).total())
        .collect()
}

/// A lent book in whose intervals the accounts have 3, 2, 1 and 0 tranches by
/// turns.
fn unlike_counts(script: &mut Script) {
    let hedges: &[i64] = &[900, 50, 60, 70];
    for change_day in [NEVER, F as u64] {
        let mut desk = hedged(script, change_day, &[hedges; 3]);
        for interval in 0..INTERVALS {
            for account in 0..3 {
                let flag = desk.layout.vesting_flag_at(F, interval, account);
                keep_tranches(&mut desk, flag, (interval + account) % (MOST_TRANCHES + 1));
            }
        }
        let rows = settling_rows(&desk, 2_000, 3_000);
        desk.submit_rows(rows);
        desk.close_poked();
    }
}

/// Leaves so many tranches of the three after a flag.
fn keep_tranches(desk: &mut Desk, flag: usize, count: usize) {
    desk.script.poke(flag, 1 + count as i64);
    let pairs = flag + 1..flag + 3 + 2 * MOST_TRANCHES;
    for index in pairs.skip(2 + 2 * count) {
        desk.script.poke(index, 0);
    }
}

/// 32 accounts of large quantities.
fn most_accounts(script: &mut Script) {
    let hedges: Vec<Vec<i64>> = (0..MOST_ACCOUNTS as i64)
        .map(|account| {
            let base = if account % 5 == 0 { 0 } else { 3_300_000 };
            let tranches = (1..=account % 4).map(|tranche| 3_000_000 + 99 * account + tranche);
            [base].into_iter().chain(tranches).collect()
        })
        .collect();
    let hedges: Vec<&[i64]> = hedges.iter().map(Vec::as_slice).collect();
    let mut desk = hedged(script, F as u64, &hedges);
    let rows = settling_rows(&desk, 9_000_000, 160_000_000);
    desk.submit_rows(rows);
    desk.close();
}

/// Days of any numbers, some of whose load is left in each interval.
fn drawn_days(script: &mut Script) {
    for (accounts, change_day) in [(3, NEVER), (3, F as u64), (5, NEVER), (6, F as u64)] {
        let opening = Opening {
            accounts,
            change_day,
            ..Opening::smallest(F as u64)
        };
        let mut desk = Desk::open(script, Style::Usual, opening);
        desk.feed(100);
        desk.close();
        let keys = desk.missing();
        let mut rows = desk.rows(&keys, 100);
        let mut loads = hedge_totals(&desk);
        for (interval, load) in loads.iter_mut().enumerate() {
            *load += desk.script.rng.between(1, spare(&rows, interval));
        }
        for row in rows.iter_mut().filter(|row| row.key.0 == NCC) {
            row.values.clone_from(&loads);
        }
        desk.submit_rows(rows);
        desk.close();
    }
}

/// The sum of UEGQ.
fn spare(rows: &[DraftRow], interval: usize) -> i64 {
    let residuals = rows.iter().filter(|row| row.key.0 == RESIDUAL);
    residuals.map(|row| row.values[4 * interval]).sum()
}
