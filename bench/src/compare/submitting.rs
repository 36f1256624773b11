//! Files, valid, damaged and random, submitted to books that keep what was accepted.

use super::books::{small_book, Change};
use super::tally::Tally;
use super::{same, same_words, told_by};
use crate::robijan;
use reference::generate::files::{damaged, Draft, STYLES};
use reference::generate::Rng;
use reference::history::History;
use reference::submission::submit as reference_submit;

/// Cases for each book made.
const CASES_A_BOOK: usize = 100;

pub fn submit(rng: &mut Rng, cases: usize, tally: &mut Tally) -> Result<(), String> {
    let (mut book, mut history) = small_book(rng);
    let mut theirs = book.clone();
    for case in 0..cases {
        if case > 0 && case % CASES_A_BOOK == 0 {
            (book, history) = small_book(rng);
            theirs.clone_from(&book);
        }
        let (mut kind, file) = file(rng, &history);
        // Now and then the book is not well formed; then the file never counts.
        let change = rng.percent(4).then(|| Change::off(rng, &book));
        let kept = change.map(|change| book[change.index]);
        if let Some(change) = change {
            kind = "any file, book ill formed";
            change.make(&mut book);
            change.make(&mut theirs);
        }
        let header = book[..6].to_vec();
        let described = || {
            let hex: String = file.iter().map(|byte| format!("{byte:02x}")).collect();
            format!("case {case}: {kind}, book {header:?}, {change:?}, file {hex}")
        };
        let told = robijan::submit(&mut book, &file);
        let answer = reference_submit(&mut theirs, &file);
        same(told, told_by(answer), described)?;
        same_words(&book, &theirs, described)?;
        tally.add(kind, told.number, told.position);
        if let (Some(change), Some(kept)) = (change, kept) {
            for book in [&mut book, &mut theirs] {
                book[change.index] = kept;
            }
        }
        history.submitted(&file, answer.number);
    }
    Ok(())
}

/// A file of some kind.
fn file(rng: &mut Rng, history: &History) -> (&'static str, Vec<u8>) {
    let (style, most) = (rng.pick(&STYLES), rng.pick(&[1, 1, 2, 3]));
    let draft = Draft::random(rng, style, history, most);
    match rng.below(20) {
        0..=4 => ("valid file", draft.bytes()),
        5..=11 => ("one field damaged", damaged(rng, &draft, history).0),
        12..=14 => ("bytes changed", bytes_changed(rng, draft.bytes())),
        15 => {
            let mut file = draft.bytes();
            file.truncate(rng.below(file.len() + 1));
            ("cut", file)
        }
        16 | 17 => ("two files joined", joined(rng, history, draft.bytes())),
        18 => {
            let length = rng.below(12);
            let file = (0..length)
                .map(|_| rng.pick(&[0, 0, 0, 1, 2, 255]))
                .collect();
            ("few bytes", file)
        }
        _ => {
            let length = rng.below(3_000);
            ("random bytes", rng.bytes(length))
        }
    }
}

/// Up to four bytes changed, of heads as often as of values.
fn bytes_changed(rng: &mut Rng, mut file: Vec<u8>) -> Vec<u8> {
    for _ in 0..1 + rng.below(4) {
        let reach = rng.pick(&[12, 400, file.len(), file.len()]).min(file.len());
        let at = rng.below(reach);
        let random = rng.draw() as u8;
        file[at] = rng.pick(&[0, 1, 4, 127, 128, 255, random, file[at].wrapping_add(1)]);
    }
    file
}

/// The start of one file with the end of another.
fn joined(rng: &mut Rng, history: &History, mut file: Vec<u8>) -> Vec<u8> {
    let style = rng.pick(&STYLES);
    let other = Draft::random(rng, style, history, 1).bytes();
    file.truncate(rng.below(file.len() + 1));
    file.extend(&other[rng.below(other.len())..]);
    file
}
