//! Rounding differences: days that leave 499 and 500 thousandths an account, word 8
//! of lent books at its bound and beside it, and refused closes, which keep it.

use super::desk::Desk;
use super::lists::list;
use super::Script;
use crate::book::Opening;
use crate::frames::Frame;
use crate::generate::books::difference_case;
use crate::generate::files::{even_row, Draft, DraftRow, Style};
use crate::generate::lists::change_day;
use crate::history::{Key, METER, NCC, RESIDUAL, VESTING};
use crate::layout::{HEADER_WORDS, NEXT_DAY, ROUNDING_DIFFERENCE};
use crate::units::{INTERVALS, LAST_DAY, MOST_ACCOUNTS};

const EIGHT_ZEROS: [u8; 8] = [0; 8];
const F: u64 = 20_000;

const fn of(accounts: u64, lag: u64, first_day: u64) -> Opening {
    Opening {
        accounts,
        lag,
        ..Opening::smallest(first_day)
    }
}

pub(super) fn write(script: &mut Script) {
    one_account(script);
    residual_parts(script);
    several_accounts(script);
    most_accounts(script);
    reached_bounds(script);
    bounds(script);
    far_bounds(script);
    words_after(script);
    refused_closes(script);
    finished(script);
    openings(script);
    lists(script);
}

/// A row of V 0, and of the account's base or residual amount in thousandths: 1 kWh
/// in one interval, and a load that leaves every account all of its UEGQ.
fn row(key: &Key, base: &[i64], residual: &[i64]) -> DraftRow {
    let (section, account, _) = *key;
    match section {
        VESTING => in_one_interval(key, &[1, base[account]]),
        METER => even_row(*key, 1, &[0, 1]),
        RESIDUAL => in_one_interval(key, &[1, 0, 0, residual[account]]),
        _ => even_row(*key, 0, &[1_000]),
    }
}

fn in_one_interval(key: &Key, values: &[i64]) -> DraftRow {
    let (_, account, day) = *key;
    let zeros = vec![0; values.len()];
    let mut row = even_row(*key, 0, &zeros);
    let interval = (day as usize + 5 * account) % INTERVALS;
    row.values[interval * values.len()..][..values.len()].copy_from_slice(values);
    row
}

/// Submits what the next close lacks, the accounts' amounts being these.
fn feed(desk: &mut Desk, base: &[i64], residual: &[i64]) {
    let missing = desk.missing();
    let rows = missing.iter().map(|key| row(key, base, residual));
    desk.submit_rows(rows.collect());
}

/// A day of these base amounts, closed.
fn close_day(desk: &mut Desk, base: &[i64]) {
    feed(desk, base, &[0; MOST_ACCOUNTS]);
    desk.close();
}

/// Sums after which word 8 is below zero, at it and above it by turns.
const SUMS: [i64; 18] = [
    500, -499, 1_499, -500, -1_500, 0, 499, -501, 501, 1_500, 2_500, 1, -1_499, 999_500, 1_000,
    -2_000, 999, -999,
];

fn one_account(script: &mut Script) {
    for sign in [1, -1] {
        let mut desk = Desk::open(script, Style::Tiny, of(1, 1, F));
        for sum in SUMS {
            close_day(&mut desk, &[sign * sum]);
        }
    }
}

/// A day's base and residual amount, of which one alone or neither leaves what both
/// do.
const PARTS: [(i64, i64); 13] = [
    (250, 249),
    (250, 250),
    (499, 1),
    (1_000, -500),
    (-250, -249),
    (-250, -250),
    (0, 499),
    (0, -500),
    (500, 500),
    (600, -101),
    (-499, -1),
    (300, 300),
    (1_500, -1),
];

fn residual_parts(script: &mut Script) {
    for (accounts, lag) in [(1, 1), (1, 2), (2, 1)] {
        let mut desk = Desk::open(script, Style::Tiny, of(accounts, lag, F));
        for _ in 0..lag {
            close_day(&mut desk, &[0, 0]);
        }
        let others = PARTS.iter().cycle().skip(4);
        for ((base, residual), (other_base, other_residual)) in PARTS.iter().zip(others) {
            feed(
                &mut desk,
                &[*base, *other_base],
                &[*residual, *other_residual],
            );
            desk.close();
        }
    }
}

fn all(accounts: usize, sum: i64) -> Vec<i64> {
    vec![sum; accounts]
}

fn by_turns(accounts: usize, sums: [i64; 2]) -> Vec<i64> {
    sums.into_iter().cycle().take(accounts).collect()
}

fn one_alone(accounts: usize, account: usize, sum: i64) -> Vec<i64> {
    let mut sums = all(accounts, 0);
    sums[account] = sum;
    sums
}

fn several_accounts(script: &mut Script) {
    for accounts in [2, 3, 5] {
        let mut desk = Desk::open(script, Style::Tiny, of(accounts, 1, F));
        let accounts = accounts as usize;
        for sums in [
            all(accounts, 250),
            all(accounts, 499),
            all(accounts, 500),
            all(accounts, -499),
            all(accounts, -500),
            by_turns(accounts, [499, -499]),
            by_turns(accounts, [500, -500]),
            by_turns(accounts, [499, 500]),
            one_alone(accounts, 0, 499),
            one_alone(accounts, 0, -500),
            one_alone(accounts, accounts - 1, 499),
            one_alone(accounts, accounts - 1, -500),
        ] {
            close_day(&mut desk, &sums);
        }
    }
}

fn most_accounts(script: &mut Script) {
    let mut desk = Desk::open(script, Style::Tiny, of(32, 1, F));
    close_day(&mut desk, &all(32, 500));
    close_day(&mut desk, &by_turns(32, [-500, 499]));
    close_day(&mut desk, &one_alone(32, 31, -501));
}

/// Half cents day after day, so that word 8 is at its bound.
fn reached_bounds(script: &mut Script) {
    for (accounts, sum) in [(1, 500), (1, -500), (2, 500), (2, -1_500)] {
        let mut desk = Desk::open(script, Style::Tiny, of(accounts, 1, F));
        for _ in 0..3 {
            close_day(&mut desk, &all(accounts as usize, sum));
        }
    }
}

/// Word 8 of lent books: of new ones 0 alone, of others to the bound of their days.
/// A close at the bound leaves the next one's.
fn bounds(script: &mut Script) {
    for (accounts, days) in [(1, 0), (1, 1), (1, 3), (2, 0), (2, 2), (3, 1)] {
        let mut desk = Desk::open(script, Style::Tiny, of(accounts, 1, F));
        let accounts = accounts as usize;
        for _ in 0..days {
            close_day(&mut desk, &all(accounts, 250));
        }
        let bound = 500 * accounts as i64 * days;
        let sign = if days % 2 == 0 { 1 } else { -1 };
        feed(&mut desk, &all(accounts, -500 * sign), &all(accounts, 0));
        word_values(&mut desk, bound);
        desk.script.poke(ROUNDING_DIFFERENCE, sign * bound);
        desk.close();
        desk.close();
        close_day(&mut desk, &all(accounts, 499));
    }
}

/// Values that word 8 may not have, whatever the statement, and may have.
fn word_values(desk: &mut Desk, bound: i64) {
    let kept = desk.book()[ROUNDING_DIFFERENCE];
    let (lent, accounts) = (desk.lent, desk.history.accounts());
    let script = &mut desk.script;
    let case = difference_case(bound);
    let beyond = 500 * accounts as i64;
    let far = [bound + beyond, -bound - beyond];
    for (at, value) in case.off.into_iter().chain(far).enumerate() {
        script.poke(ROUNDING_DIFFERENCE, value);
        script.submit(lent, &EIGHT_ZEROS);
        // 3 comes before 10.
        script.close(lent, if at % 2 == 0 { accounts + 1 } else { 0 });
    }
    for value in case.fine {
        script.poke(ROUNDING_DIFFERENCE, value);
        script.submit(lent, &EIGHT_ZEROS);
        script.close(lent, accounts);
    }
    script.poke(ROUNDING_DIFFERENCE, kept);
}

/// Lent books of nearly all days, at the bound, with the last one closed.
fn far_bounds(script: &mut Script) {
    for (accounts, sign) in [(1, 1), (3, -1)] {
        // An even number of days, so that each slot keeps its day's place.
        let first_day = 9_497;
        let mut desk = Desk::open(script, Style::Tiny, of(accounts, 1, first_day as u64));
        let accounts = accounts as usize;
        close_day(&mut desk, &all(accounts, 0));
        let (lent, script) = (desk.lent, &mut desk.script);
        script.poke(NEXT_DAY, LAST_DAY);
        let bound = 500 * accounts as i64 * (LAST_DAY - first_day);
        for value in [bound + 1, -bound - 1, -sign * bound, sign * bound] {
            script.poke(ROUNDING_DIFFERENCE, value);
            script.submit(lent, &EIGHT_ZEROS);
            script.close(lent, accounts + 1);
        }
        let base = all(accounts, -500 * sign);
        let residual = all(accounts, 0);
        let mut keys = vec![(NCC, 0, LAST_DAY - 1)];
        for account in 0..accounts {
            keys.extend([(VESTING, account, LAST_DAY), (METER, account, LAST_DAY)]);
            keys.push((RESIDUAL, account, LAST_DAY - 1));
        }
        let rows = keys.iter().map(|key| row(key, &base, &residual));
        let rows = rows.collect();
        script.submit(lent, &Draft { rows }.bytes());
        for words in [accounts + 1, accounts + 1, 0] {
            script.close(lent, words);
        }
        script.poke(ROUNDING_DIFFERENCE, -sign * (bound + 500 * accounts as i64));
        script.submit(lent, &EIGHT_ZEROS);
    }
}

/// The words after word 8 are zero still.
fn words_after(script: &mut Script) {
    let mut desk = Desk::open(script, Style::Tiny, of(2, 1, F));
    close_day(&mut desk, &[499, 499]);
    feed(&mut desk, &[1, 2], &[0, 0]);
    let (lent, script) = (desk.lent, &mut desk.script);
    for index in ROUNDING_DIFFERENCE + 1..HEADER_WORDS {
        script.poke(index, [1, -500][index % 2]);
        if index % 3 == 0 {
            script.close(lent, 3);
        } else {
            script.submit(lent, &EIGHT_ZEROS);
        }
        script.poke(index, 0);
    }
    desk.close();
}

/// Row after row given, and a close refused after each; then one with too short a
/// statement.
fn refused_closes(script: &mut Script) {
    for (accounts, lag) in [(1, 1), (2, 1), (2, 2)] {
        let mut desk = Desk::open(script, Style::Tiny, of(accounts, lag, F));
        for _ in 0..lag {
            close_day(&mut desk, &[-500, -501]);
        }
        let keys = desk.missing();
        desk.close();
        for key in &keys {
            desk.submit_rows(vec![row(key, &[-499, 1_499], &[1, -1_000])]);
            if desk.missing().is_empty() {
                for words in [accounts as usize, 0, 1] {
                    desk.close_with(words);
                }
            }
            desk.close();
        }
        // Nothing of the next day is there.
        desk.close();
        desk.script.poke(0, 394);
        desk.script.close(desk.lent, 3);
        desk.script.poke(0, 395);
        close_day(&mut desk, &[499, 499]);
    }
}

/// A 9 keeps word 8, too.
fn finished(script: &mut Script) {
    for sum in [499, -501, 2_500] {
        let mut desk = Desk::open(script, Style::Tiny, of(2, 1, 36_523));
        close_day(&mut desk, &[sum, -1]);
        close_day(&mut desk, &[sum, 1]);
        for words in [3, 2, 0] {
            desk.close_with(words);
        }
        desk.submit(&EIGHT_ZEROS);
    }
}

/// Opened anew, a book has no difference; refused, an opening keeps it.
fn openings(script: &mut Script) {
    let opening = of(2, 1, F);
    let mut desk = Desk::open(script, Style::Tiny, opening);
    close_day(&mut desk, &[499, -501]);
    let lent = desk.layout.size();
    let bad = Opening {
        change_day: 1,
        ..opening
    };
    for (lent, opening) in [(lent - 1, opening), (lent, bad), (lent, opening)] {
        script.push(Frame::Open { lent, opening });
        script.submit(lent, &EIGHT_ZEROS);
    }
}

/// Lists of calls of any numbers.
fn lists(script: &mut Script) {
    for turn in 0..6 {
        let rng = &mut script.rng;
        let first_day = match turn {
            0 => 36_520,
            1 => 9_497,
            _ => rng.between(9_497, 36_524),
        };
        let opening = Opening {
            horizon: rng.pick(&[1, 2]),
            change_day: change_day(rng, first_day),
            ..of(rng.pick(&[1, 2, 3]), rng.pick(&[1, 1, 2]), first_day as u64)
        };
        let style = [Style::HalfCent, Style::Tiny, Style::Wide][turn % 3];
        list(&mut Desk::open(script, style, opening), 12);
    }
}
