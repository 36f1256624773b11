//! Lists of submissions and closes on small books, of every style.

use super::desk::Desk;
use super::Script;
use crate::book::Opening;
use crate::generate::files::{damaged, Draft, STYLES};

const LISTS: usize = 39;

pub(super) fn write(script: &mut Script) {
    for turn in 0..LISTS {
        let opening = small_opening(script, turn);
        let style = STYLES[turn % STYLES.len()];
        list(&mut Desk::open(script, style, opening), 14);
    }
}

fn small_opening(script: &mut Script, turn: usize) -> Opening {
    let rng = &mut script.rng;
    let first_day = match turn % 4 {
        0 => 36_524 - rng.between(0, 5),
        1 => 9_497,
        _ => rng.between(9_497, 36_524),
    };
    let accounts = rng.pick(&[1, 1, 1, 2, 2, 3]);
    let lag = rng.pick(&[1, 1, 1, 2, 2, 3]);
    Opening {
        accounts,
        lag,
        horizon: rng.pick(&[1, 1, 2, 3]),
        ..Opening::smallest(first_day as u64)
    }
}

/// So many steps, each some calls.
pub(super) fn list(desk: &mut Desk, steps: usize) {
    for _ in 0..steps {
        match desk.script.rng.below(100) {
            // A day in full, closed.
            0..=44 => {
                desk.feed(20);
                desk.close();
            }
            // Some of what the next close needs.
            45..=54 => {
                let mut keys = desk.missing();
                keys.retain(|_| desk.script.rng.percent(60));
                desk.script.rng.shuffle(&mut keys);
                let rows = desk.rows(&keys, 20);
                desk.submit_rows(rows);
                desk.close();
            }
            // Rows of any open day: early ones, late ones, revisions.
            55..=69 => {
                let draft = Draft::random(&mut desk.script.rng, desk.style, &desk.history, 1);
                desk.submit_rows(draft.rows);
            }
            70..=84 => {
                let rng = &mut desk.script.rng;
                let draft = Draft::random(rng, desk.style, &desk.history, 1);
                let (file, _) = damaged(rng, &draft, &desk.history);
                desk.submit(&file);
            }
            85..=89 => desk.submit(&[0; 8]),
            90..=94 => {
                let words = desk.script.rng.below(desk.history.accounts() + 1);
                desk.close_with(words);
            }
            _ => desk.close(),
        }
    }
}
