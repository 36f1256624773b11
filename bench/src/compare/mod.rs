//! Random and damaged input to Robijan and to the second implementation: every answer and every lent word or byte after must be equal. A call more
//! is a function more in `CALLS`.

pub mod books;
pub mod calendar;
pub mod closing;
pub mod judging;
pub mod lists;
pub mod packed;
pub mod rules;
pub mod submitting;
pub mod tally;

use crate::robijan::{self, Answer};
use reference::close::close as reference_close;
use reference::generate::Rng;
use reference::numbers;
use tally::Tally;

/// Runs so many cases of one call; on a difference, the case in words.
pub type Cases = fn(&mut Rng, usize, &mut Tally) -> Result<(), String>;

pub const CALLS: [(&str, Cases); 12] = [
    ("judge", judging::judge),
    ("submit", submitting::submit),
    ("close", closing::close),
    ("lists of calls", lists::lists),
    ("open", judging::open),
    ("price", rules::price),
    ("share", rules::share),
    ("tranche", rules::tranche),
    ("profile", rules::profile),
    ("pack", packed::pack),
    ("unpack", packed::unpack),
    ("calendar", calendar::calendar),
];

/// A close of both books, each with a statement of these words.
fn both_close(
    ours: &mut [i64],
    theirs: &mut [i64],
    statement: &[i64],
    case: impl Fn() -> String,
) -> Result<Answer, String> {
    let (mut told_words, mut words) = (statement.to_vec(), statement.to_vec());
    let told = robijan::close(ours, &mut told_words);
    let answer = reference_close(theirs, &mut words);
    same(told, told_by(answer), &case)?;
    same_words(&told_words, &words, || format!("{}, statement", case()))?;
    same_words(ours, theirs, case)?;
    Ok(told)
}

/// What the second implementation answers, as Robijan tells it.
fn told_by(answer: numbers::Answer) -> Answer {
    Answer {
        number: answer.number.into(),
        position: answer.position as u64,
        day: answer.day as u64,
        count: answer.residual_count as u64,
        difference: answer.difference,
    }
}

/// The answers, and the words or bytes after, of both implementations.
fn same<T: PartialEq + std::fmt::Debug>(
    ours: T,
    theirs: T,
    case: impl Fn() -> String,
) -> Result<(), String> {
    if ours == theirs {
        return Ok(());
    }
    Err(format!(
        "{}\nRobijan:   {ours:?}\nreference: {theirs:?}",
        case()
    ))
}

fn same_words<T: PartialEq + std::fmt::Debug>(
    ours: &[T],
    theirs: &[T],
    case: impl Fn() -> String,
) -> Result<(), String> {
    if ours == theirs {
        return Ok(());
    }
    let at = ours.iter().zip(theirs).position(|(a, b)| a != b);
    let at = at.unwrap_or(ours.len().min(theirs.len()));
    Err(format!(
        "{}\nfirst different at {at}\nRobijan:   {:?}\nreference: {:?}",
        case(),
        ours.get(at),
        theirs.get(at)
    ))
}
