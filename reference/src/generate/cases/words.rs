//! Books with a single word off, and words that are no book.

use super::desk::Desk;
use super::Script;
use crate::book::Opening;
use crate::frames::Frame;
use crate::generate::books::{off, word_case, WordCase};
use crate::generate::files::{even_row, Draft, STYLES};
use crate::history::{METER, NCC, RESIDUAL, VESTING};
use crate::layout::{CHANGE_DAY, ENTRY_WORDS, HEADER_WORDS, NCC_WORDS};

const EIGHT_ZEROS: [u8; 8] = [0; 8];

pub(super) fn write(script: &mut Script) {
    for (turn, (accounts, lag, horizon, first_day, closes)) in [
        (1, 1, 1, 9_497, 0),
        (2, 1, 1, 9_497, 1),
        (1, 1, 2, 9_500, 3),
        (1, 2, 1, 36_521, 4),
        (1, 2, 2, 36_522, 2),
        (3, 2, 1, 36_524, 0),
    ]
    .into_iter()
    .enumerate()
    {
        let opening = Opening {
            accounts,
            lag,
            horizon,
            ..Opening::smallest(first_day)
        };
        let mut desk = Desk::open(script, STYLES[turn % 4], opening);
        for _ in 0..closes {
            desk.feed(30);
            desk.close();
        }
        let draft = Draft::random(&mut desk.script.rng, desk.style, &desk.history, 2);
        desk.submit_rows(draft.rows);
        if turn % 2 == 1 {
            desk.feed(30);
        }
        header_words(&mut desk);
        slot_words(&mut desk);
        lent_words(&mut desk);
    }
    full_intervals(script);
    wild_headers(script);
}

/// Every word of an account with all its pairs in use, of a closed day and of
/// an open one.
fn full_intervals(script: &mut Script) {
    let mut desk = Desk::open(
        script,
        STYLES[0],
        Opening {
            accounts: 2,
            ..Opening::smallest(16_000)
        },
    );
    for day in [16_000, 16_001] {
        let mut rows = vec![even_row((NCC, 0, day), 0, &[9])];
        for account in 0..2 {
            let vesting = [5, 100, 6, -100, 7, 300, 8, -300];
            rows.push(even_row((VESTING, account, day), 3, &vesting));
            let meter = [10, 1, -20, 2, 30, -3, -40, 4];
            rows.push(even_row((METER, account, day), 4, &meter));
            let residual = [3, 4, 200, -200];
            rows.push(even_row((RESIDUAL, account, day), 0, &residual));
        }
        desk.submit_rows(rows);
        if day == 16_000 {
            desk.close();
        }
    }
    for day in [16_000, 16_001] {
        let ncc = desk.layout.interval_at(day, 5);
        let entry = desk.layout.entry_at(day, 5, 1);
        for index in (ncc..ncc + NCC_WORDS).chain(entry..entry + ENTRY_WORDS) {
            word(&mut desk, index, 100, 100);
        }
    }
    desk.close();
}

/// Every word before the slots.
fn header_words(desk: &mut Desk) {
    let slots = desk.layout.first_interval_at();
    for index in (0..8).chain([31, 62, 63]).chain(HEADER_WORDS..slots) {
        let case = match index {
            // Some of the bad ones; `change_days` has the others.
            CHANGE_DAY => off(&[1, -1, i64::MIN, i64::MAX]),
            _ => word_case(desk.book(), index),
        };
        word_of(desk, index, case, 100, 40);
    }
}

/// Words all over the slots.
fn slot_words(desk: &mut Desk) {
    let (slots, size) = (desk.layout.first_interval_at(), desk.layout.size());
    for _ in 0..90 {
        let index = slots + desk.script.rng.below(size - slots);
        word(desk, index, 50, 30);
    }
    // Flags and what follows them, of the first and the last account.
    let first = slots..slots + NCC_WORDS + ENTRY_WORDS;
    for index in first.chain(size - desk.layout.interval_words()..size) {
        word(desk, index, 30, 20);
    }
}

/// Each value that a word may or may not have, so many in a hundred of them.
fn word(desk: &mut Desk, index: usize, off: u64, fine: u64) {
    let case = word_case(desk.book(), index);
    word_of(desk, index, case, off, fine);
}

fn word_of(desk: &mut Desk, index: usize, case: WordCase, off: u64, fine: u64) {
    let kept = desk.book()[index];
    let (lent, accounts) = (desk.lent, desk.history.accounts());
    let script = &mut desk.script;
    for value in case.off {
        if !script.rng.percent(off) {
            continue;
        }
        script.poke(index, value);
        if script.rng.percent(50) {
            script.submit(lent, &EIGHT_ZEROS);
        } else {
            // 3 comes before 9 and 10.
            let words = script.rng.below(accounts + 2);
            script.close(lent, words);
        }
    }
    for value in case.fine {
        if script.rng.percent(fine) {
            script.poke(index, value);
            script.submit(lent, &EIGHT_ZEROS);
        }
    }
    script.poke(index, kept);
}

/// Too few words are lent, down to none.
fn lent_words(desk: &mut Desk) {
    let size = desk.layout.size();
    for lent in [size - 1, size - ENTRY_WORDS, size / 2, 65, 64, 63, 7, 1, 0] {
        desk.script.submit(lent, &[]);
        desk.script.close(lent, 40);
    }
    desk.script.submit(size, &EIGHT_ZEROS);
    desk.close_with(0);
}

/// Headers of any numbers, near-legal ones more often, over a book.
fn wild_headers(script: &mut Script) {
    for turn in 0..80 {
        let size = {
            let desk = Desk::open(script, STYLES[0], Opening::smallest(20_000));
            desk.layout.size()
        };
        for _ in 0..1 + turn % 3 {
            let index = script.rng.below(7);
            let word = script.rng.word();
            script.poke(index, word);
        }
        script.submit(size, &EIGHT_ZEROS);
        script.close(size, 2);
    }
    // N, L and H that ask for more words than the machine can count.
    for word in [i64::MAX, i64::MIN, 1 << 32, 1 << 62] {
        for index in 1..=3 {
            script.push(Frame::Open {
                lent: 3_000,
                opening: Opening::smallest(20_000),
            });
            script.poke(index, word);
            script.close(3_000, 2);
        }
    }
}
