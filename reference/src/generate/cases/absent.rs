//! Closes that lack a datum, at every interval and account of the search, and
//! books that lack a row of a closed day.

use super::desk::Desk;
use super::Script;
use crate::book::Opening;
use crate::generate::files::{even_row, DraftRow, Style};
use crate::history::{Key, METER, NCC, RESIDUAL, VESTING};

pub(super) fn write(script: &mut Script) {
    for (accounts, lag, horizon, closes) in [
        (1, 1, 1, 1),
        (2, 1, 1, 1),
        (3, 2, 1, 2),
        (2, 3, 2, 0),
        (1, 3, 1, 5),
    ] {
        let opening = Opening {
            accounts,
            lag,
            horizon,
            ..Opening::smallest(12_345)
        };
        let mut desk = Desk::open(script, Style::Usual, opening);
        for _ in 0..closes {
            feed_zeros(&mut desk);
            desk.close();
        }
        closed_flags_off(&mut desk);
        one_row_short(&mut desk);
        feed_zeros(&mut desk);
        flags_off(&mut desk);
        desk.close();
    }
}

/// A row all of zeros: its flag alone makes it present.
fn zero_row(key: &Key) -> DraftRow {
    match key.0 {
        VESTING => even_row(*key, 0, &[0, 0]),
        METER => even_row(*key, 1, &[0, 0]),
        RESIDUAL => even_row(*key, 0, &[0, 0, 0, 0]),
        _ => even_row(*key, 0, &[0]),
    }
}

fn feed_zeros(desk: &mut Desk) {
    let rows = desk.missing().iter().map(zero_row).collect();
    desk.submit_rows(rows);
}

/// All that the close needs, given row by row from the last one on.
fn one_row_short(desk: &mut Desk) {
    let mut missing = desk.missing();
    while missing.len() > 1 {
        desk.close();
        if let Some(key) = missing.pop() {
            desk.submit_rows(vec![zero_row(&key)]);
        }
    }
    desk.close();
}

/// Flags of closed days taken away and given back: without a vesting or a meter
/// row the book is not well formed.
fn closed_flags_off(desk: &mut Desk) {
    let closed = *desk.history.open_days(NCC).start()..desk.history.next_day();
    for day in closed {
        for account in 0..desk.history.accounts() {
            for section in [VESTING, METER, RESIDUAL] {
                for interval in [0, 30, 47] {
                    let at = flag_at(desk, &(section, account, day), interval);
                    let kept = desk.book()[at];
                    desk.script.poke(at, 0);
                    desk.script.submit(desk.lent, &[0; 8]);
                    desk.script.poke(at, kept);
                }
            }
        }
    }
}

/// Flags of single intervals taken away and given back; words alone tell which
/// one the search meets first.
fn flags_off(desk: &mut Desk) {
    let needed: Vec<Key> = desk.history.needed();
    let accounts = desk.history.accounts();
    for key in needed {
        for interval in [0, 1, 23, 46, 47] {
            let at = flag_at(desk, &key, interval);
            let kept = desk.book()[at];
            desk.script.poke(at, 0);
            desk.script.close(desk.lent, accounts + 1);
            desk.script.poke(at, kept);
        }
    }
    // Two at a time, the earlier one being met; then one of them.
    let needed: Vec<Key> = desk.history.needed();
    for _ in 0..40 {
        let rng = &mut desk.script.rng;
        let picks = [(); 2].map(|()| (rng.pick(&needed), rng.below(48)));
        let flags = picks.map(|(key, interval)| flag_at(desk, &key, interval));
        if flags[0] == flags[1] {
            continue;
        }
        let kept = flags.map(|flag| desk.book()[flag]);
        for flag in flags {
            desk.script.poke(flag, 0);
        }
        desk.script.close(desk.lent, accounts + 2);
        desk.script.poke(flags[0], kept[0]);
        desk.script.close(desk.lent, accounts + 1);
        desk.script.poke(flags[1], kept[1]);
    }
}

/// The flag word of a row in an interval.
fn flag_at(desk: &Desk, &(section, account, day): &Key, interval: usize) -> usize {
    match section {
        VESTING => desk.layout.vesting_flag_at(day, interval, account),
        METER => desk.layout.meter_flag_at(day, interval, account),
        RESIDUAL => desk.layout.residual_flag_at(day, interval, account),
        NCC => desk.layout.ncc_flag_at(day, interval),
        _ => unreachable!("a file has four sections"),
    }
}
