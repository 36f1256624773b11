//! Closes of books that lack rows, have them, have them revised, are finished or are not well formed.

use super::books::{small_book, Change};
use super::tally::Tally;
use super::{both_close, same_words};
use crate::robijan;
use reference::book::Opening;
use reference::generate::files::{Draft, STYLES};
use reference::generate::Rng;
use reference::history::{History, Key};
use reference::numbers::{Answer, ACCEPTED};
use reference::submission::submit;

/// Cases for each book made.
const CASES_A_BOOK: usize = 25;

pub fn close(rng: &mut Rng, cases: usize, tally: &mut Tally) -> Result<(), String> {
    let (mut ours, mut history) = small_book(rng);
    let mut theirs = ours.clone();
    for case in 0..cases {
        if case % CASES_A_BOOK == 0 {
            (ours, history) = small_book(rng);
            let beyond = rng.below(5);
            ours.extend(rng.words(beyond));
            theirs.clone_from(&ours);
        }
        let kind = prepare(rng, &mut ours, &mut theirs, &mut history)?;
        let accounts = history.accounts();
        let length = match rng.below(12) {
            0 => rng.below(accounts + 1),
            1 => accounts + 1 + rng.below(40),
            _ => accounts + 1 + rng.below(2),
        };
        let statement = rng.words(length);
        let (kind, kept) = damage(rng, &mut ours, &mut theirs, kind);
        let header = ours[..6].to_vec();
        let before = ours.clone();
        let described =
            || format!("case {case}: {kind}, book {header:?}, statement of {length} words");
        let told = both_close(&mut ours, &mut theirs, &statement, described)?;
        if told.number != u64::from(ACCEPTED) {
            same_words(&ours, &before, || format!("{}, refused", described()))?;
        }
        tally.add(kind, told.number, told.position);
        if let Some(kept) = kept {
            ours.clone_from(&kept);
            theirs = kept;
        } else if told.number == u64::from(ACCEPTED) {
            let answer = Answer::closed(told.day as i64, told.count as i64, told.difference);
            history.closed(length, &answer);
        }
    }
    Ok(())
}

/// Submits to both books all that the next close needs, some of it, a revision of it, or nothing.
fn prepare(
    rng: &mut Rng,
    ours: &mut [i64],
    theirs: &mut [i64],
    history: &mut History,
) -> Result<&'static str, String> {
    if history.finished() {
        return Ok("finished");
    }
    let needed = history.needed();
    let (kind, keys): (_, Vec<Key>) = match rng.below(10) {
        0 => ("no rows given", Vec::new()),
        1 | 2 => {
            let missing = needed.into_iter().filter(|key| !history.is_in_force(key));
            (
                "some rows given",
                missing.filter(|_| rng.percent(70)).collect(),
            )
        }
        3..=5 => ("every row given again", needed),
        _ => {
            let missing = needed.into_iter().filter(|key| !history.is_in_force(key));
            ("missing rows given", missing.collect())
        }
    };
    let style = rng.pick(&STYLES);
    let file = Draft::of(rng, style, history.accounts(), &keys).bytes();
    let told = robijan::submit(ours, &file);
    let answer = submit(theirs, &file);
    let header = ours[..6].to_vec();
    super::same(told, super::told_by(answer), || {
        format!("submission before a close, book {header:?}")
    })?;
    history.submitted(&file, answer.number);
    Ok(kind)
}

/// Some books lose a datum at one interval, or have a word changed, for this case alone; the words before it.
fn damage(
    rng: &mut Rng,
    ours: &mut [i64],
    theirs: &mut [i64],
    kind: &'static str,
) -> (&'static str, Option<Vec<i64>>) {
    let kept = ours.to_vec();
    let kind = match rng.below(20) {
        0..=4 => {
            forget(rng, ours);
            "a datum lost at one interval"
        }
        5 => {
            let size = reference::book::size(opening_of(&kept));
            let book = &kept[..size.unwrap_or(0) as usize];
            Change::random(rng, book).make(ours);
            "a word changed"
        }
        _ => return (kind, None),
    };
    theirs.copy_from_slice(ours);
    (kind, Some(kept))
}

/// Clears one datum of one interval, of the closing day or of the day that it settles; open days may lack any.
fn forget(rng: &mut Rng, book: &mut [i64]) {
    let [_, accounts, lag, horizon, first, next] = book[..6] else {
        unreachable!()
    };
    let day = match next - lag >= first && rng.percent(60) {
        true => next - lag,
        false => next,
    };
    let n = accounts as usize;
    let interval_words = 4 + 24 * n;
    let slot = ((day - first) % (lag + horizon)) as usize;
    let interval = 64 + 8 * n + (slot * 48 + rng.below(48)) * interval_words;
    let account = interval + 4 + 24 * rng.below(n);
    let datum = match (day < next, rng.below(3)) {
        (true, 0) => interval..interval + 2,
        (true, _) => account + 18..account + 23,
        (false, 0) => account..account + 9,
        (false, _) => account + 9..account + 18,
    };
    book[datum].fill(0);
}

/// The opening that a book's header tells.
fn opening_of(book: &[i64]) -> Opening {
    let [accounts, lag, horizon, first_day, change_day] =
        [book[1], book[2], book[3], book[4], book[7]].map(|term| term as u64);
    Opening {
        accounts,
        lag,
        horizon,
        first_day,
        change_day,
    }
}
