//! The editions of a book with the slips of the wrong variants: X at the opening,
//! X in word 7 of a lent book, and the edition of a close; and which judge a call
//! has. Without a slip all is
//! as `edition` has it.

use crate::book::{Header, Opening};
use crate::edition::{is_change_day, Edition, CHANGE_DAYS, NEVER};
use crate::units::LAST_DAY;
use crate::variant::{Context, Variant};

/// Word 7 of the book of an opening; none if its X is refused.
pub(crate) fn change_day_opened(context: Context, opening: &Opening) -> Option<u64> {
    let (first_day, change_day) = (opening.first_day, opening.change_day);
    let dated = change_day != NEVER;
    let accepted = is_change_day(change_day);
    let opened = match context.variant {
        Variant::OpensChangeDay1 => accepted || change_day == 1,
        Variant::OpensChangeDay9496 => accepted || change_day == 9_496,
        Variant::OpensChangeDay36525 => accepted || change_day == 36_525,
        Variant::OpensEarlyChangeDays => change_day <= *CHANGE_DAYS.end(),
        Variant::OpensLateChangeDays => !dated || change_day >= *CHANGE_DAYS.start(),
        Variant::OpensAnyChangeDay => true,
        Variant::ReadsChangeDayOf32Bits => is_change_day(change_day & 0xFFFF_FFFF),
        Variant::RefusesNever => accepted && dated,
        Variant::RefusesChangeDay9497 => accepted && change_day != 9_497,
        Variant::RefusesChangeDay36524 => accepted && change_day != 36_524,
        Variant::RefusesChangeBeforeFirstDay => accepted && (!dated || change_day >= first_day),
        Variant::RefusesChangeUpToFirstDay => accepted && (!dated || change_day > first_day),
        Variant::RefusesUnreachedChangeDay => accepted && !unreached(opening),
        _ => accepted,
    };
    let word = match context.variant {
        Variant::ChangeDayNotWritten => NEVER,
        Variant::ReadsChangeDayOf32Bits => change_day & 0xFFFF_FFFF,
        Variant::WritesFirstDayForEarlier if dated => change_day.max(first_day),
        Variant::WritesNeverForUnreached if unreached(opening) => NEVER,
        _ => change_day,
    };
    opened.then_some(word)
}

/// Whether X comes after the residual day of the last close that there can be.
fn unreached(opening: &Opening) -> bool {
    opening.change_day.saturating_add(opening.lag) > LAST_DAY as u64
}

/// Whether X in word 7 meets its rules.
pub(crate) fn change_day_meets(context: Context, header: &Header) -> bool {
    let word = header.change_day();
    let day = word as i64;
    let meets = is_change_day(word);
    match context.variant {
        Variant::WordMustBeZero => word == NEVER,
        Variant::WordUnjudged => true,
        Variant::WordJudgedFromAbove => day <= LAST_DAY,
        Variant::WordJudgedFromBelow => meets || day > LAST_DAY,
        Variant::TakesWord1 => meets || day == 1,
        Variant::TakesWord9496 => meets || day == 9_496,
        Variant::TakesWord36525 => meets || day == 36_525,
        Variant::RefusesWord0 => meets && word != NEVER,
        Variant::RefusesWord9497 => meets && day != 9_497,
        Variant::RefusesWord36524 => meets && day != 36_524,
        Variant::RefusesWordBeforeFirstDay => meets && (word == NEVER || day >= header.first_day()),
        Variant::RefusesPassedWord => meets && (word == NEVER || day >= header.next_day()),
        _ => meets,
    }
}

/// What judges the book of a submission.
pub(crate) fn submit_context(context: Context) -> Context {
    match context.variant {
        Variant::SubmitLeavesWordUnjudged => Context::of(Variant::WordUnjudged),
        Variant::SubmitLeavesWord8Unjudged => Context::of(Variant::Word8Unjudged),
        _ => context,
    }
}

/// What judges the book of a close at first.
pub(crate) fn close_context(context: Context) -> Context {
    match context.variant {
        Variant::CloseLeavesWordUnjudged | Variant::WordJudgedAfterStatement => {
            Context::of(Variant::WordUnjudged)
        }
        Variant::CloseLeavesWord8Unjudged | Variant::Word8JudgedAfterStatement => {
            Context::of(Variant::Word8Unjudged)
        }
        _ => context,
    }
}

/// Whether a close judges the book once more, after 9 and 10.
pub(crate) fn judges_late(context: Context) -> bool {
    context.is(Variant::WordJudgedAfterStatement) || context.is(Variant::Word8JudgedAfterStatement)
}

/// The edition of the next close, by its residual day; the first one if it has
/// none.
pub(crate) fn edition_in(context: Context, header: &Header) -> Edition {
    let Some(residual_day) = header.residual_day() else {
        return Edition::First;
    };
    let (change_day, first_day) = (header.change_day(), header.first_day());
    let right = Edition::of(change_day, residual_day);
    let is_second = right == Edition::Second;
    let (dated, change) = (change_day != NEVER, change_day as i64);
    let second = match context.variant {
        Variant::EditionByClosingDay => dated && header.next_day() >= change,
        Variant::EditionByFirstDay => dated && first_day >= change,
        Variant::SecondAfterChangeDay => dated && residual_day > change,
        Variant::SecondFromDayBefore => dated && residual_day + 1 >= change,
        Variant::SecondOnChangeDayAlone => residual_day == change,
        Variant::FirstFromChangeDay => dated && residual_day < change,
        Variant::FirstIfChangedBeforeFirstDay => is_second && change >= first_day,
        Variant::FirstIfChangedUpToFirstDay => is_second && change > first_day,
        Variant::NeverIsAlways => residual_day >= change,
        Variant::SecondNeverUsed => false,
        Variant::SecondAlwaysUsed => true,
        _ => return right,
    };
    Edition::second_if(second)
}
