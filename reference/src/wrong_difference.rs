//! The rounding difference with the slips of the wrong variants: that of a day,
//! word 8 as a call leaves it, what a close tells, and word 8 of a lent book.
//! Without a slip all is as `difference` has it.

use crate::book::{judge, Header};
use crate::close::{day_totals, first_absent};
use crate::day_amount::{vesting_amount, DayTotal};
use crate::difference::{bound, day_difference, difference_fits, within};
use crate::layout::ROUNDING_DIFFERENCE;
use crate::numbers::{Answer, DATUM_ABSENT, FINISHED, OUTPUT_TOO_SHORT};
use crate::units::{nearest, INTERVALS, THOUSANDTHS_A_CENT};
use crate::variant::{Context, Variant};

/// The difference of a close whose accounts have these totals.
pub(crate) fn difference_in(
    context: Context,
    book: &[i64],
    header: &Header,
    totals: &[DayTotal],
) -> i64 {
    let exact = totals.iter().map(|total| total.thousandths());
    let left = totals.iter().map(|total| total.difference());
    match context.variant {
        Variant::DifferenceReversed => -day_difference(totals),
        Variant::DifferenceWithoutFirstAccount => day_difference(&totals[1..]),
        Variant::DifferenceWithoutLastAccount => day_difference(&totals[..totals.len() - 1]),
        Variant::DifferenceOfRoundedAmounts => 0,
        Variant::DifferenceOfSum => left_of(exact.sum()),
        Variant::DifferenceOfMagnitudes => left.map(i64::abs).sum(),
        Variant::DifferenceOfCutAmounts => exact.map(|sum| sum % 1_000).sum(),
        Variant::DifferenceOfFlooredAmounts => exact.map(|sum| sum.rem_euclid(1_000)).sum(),
        Variant::DifferenceWithTiesTowardZero => left.map(tie_turned).sum(),
        Variant::DifferenceWithoutResiduals => {
            day_difference(&vesting_totals(context, book, header))
        }
        Variant::DifferenceOfPartsApart => {
            let vesting = vesting_totals(context, book, header);
            let parts = exact.zip(&vesting);
            let residual = parts.map(|(sum, vesting)| left_of(sum - vesting.thousandths()));
            day_difference(&vesting) + residual.sum::<i64>()
        }
        Variant::DifferenceInCents => day_difference(totals) / 1_000,
        _ => day_difference(totals),
    }
}

/// What an exact amount has over the posted one.
fn left_of(thousandths: i64) -> i64 {
    thousandths - 1_000 * nearest(thousandths, THOUSANDTHS_A_CENT)
}

fn tie_turned(left: i64) -> i64 {
    if left.abs() == 500 {
        -left
    } else {
        left
    }
}

/// The accounts' base and tender amounts of the closing day alone.
fn vesting_totals(context: Context, book: &[i64], header: &Header) -> Vec<DayTotal> {
    let mut totals = vec![DayTotal::default(); header.accounts()];
    for closing in header.layout().intervals(book, header.next_day()) {
        for (total, entry) in totals.iter_mut().zip(closing.entries()) {
            total.absorb(context, vesting_amount(context, entry));
        }
    }
    totals
}

/// Word 8 of a new book, from what was lent.
pub(crate) fn word_opened(context: Context, lent: i64) -> i64 {
    match context.variant {
        Variant::OpeningKeepsWord8 => lent,
        _ => 0,
    }
}

/// Word 8 after an accepted close. It wraps where a slip left it unjudged.
pub(crate) fn word_in(context: Context, before: i64, difference: i64) -> i64 {
    match context.variant {
        Variant::Word8Overwritten => difference,
        Variant::Word8NotGrown => before,
        Variant::Word8GrowsReversed => before.wrapping_sub(difference),
        _ => before.wrapping_add(difference),
    }
}

/// What an accepted close tells of its difference and of word 8 before it.
pub(crate) fn told_in(context: Context, before: i64, difference: i64) -> i64 {
    match context.variant {
        Variant::TellsRunningSum => before.wrapping_add(difference),
        Variant::TellsSumBefore => before,
        Variant::TellsNoDifference => 0,
        Variant::TellsReversedDifference => -difference,
        _ => difference,
    }
}

/// The answer of a refused close; by a slip alone it tells a difference or changes
/// word 8.
pub(crate) fn refused_in(context: Context, book: &mut [i64], refused: Answer) -> Answer {
    let formed = match (context.variant, refused.number) {
        (Variant::TellsSumWhenRefused, FINISHED | OUTPUT_TOO_SHORT | DATUM_ABSENT) => {
            Some(book[ROUNDING_DIFFERENCE])
        }
        (
            Variant::Word8GrownWhenTooShort | Variant::TellsDifferenceWhenTooShort,
            OUTPUT_TOO_SHORT,
        ) => formed_when_too_short(context, book),
        (Variant::Word8GrownWhenAbsent | Variant::TellsDifferenceWhenAbsent, DATUM_ABSENT) => {
            formed_when_absent(context, book)
        }
        _ => None,
    };
    let Some(difference) = formed else {
        return refused;
    };
    match context.variant {
        Variant::Word8GrownWhenTooShort | Variant::Word8GrownWhenAbsent => {
            book[ROUNDING_DIFFERENCE] += difference;
            refused
        }
        _ => Answer {
            difference,
            ..refused
        },
    }
}

/// The difference of the next close if nothing is absent.
fn formed_when_too_short(context: Context, book: &[i64]) -> Option<i64> {
    let header = judge(book)?;
    let complete = first_absent(book, &header).is_none();
    complete.then(|| day_difference(&day_totals(context, book, &header)))
}

/// That of its base and tender amounts if their rows are all there.
fn formed_when_absent(context: Context, book: &[i64]) -> Option<i64> {
    let header = judge(book)?;
    let (layout, day) = (header.layout(), header.next_day());
    let there = |interval, account| {
        let vesting = layout.vesting_flag_at(day, interval, account);
        let meter = layout.meter_flag_at(day, interval, account);
        book[vesting] != 0 && book[meter] != 0
    };
    let accounts = 0..header.accounts();
    let complete =
        (0..INTERVALS).all(|interval| accounts.clone().all(|account| there(interval, account)));
    complete.then(|| day_difference(&vesting_totals(context, book, &header)))
}

/// Whether word 8 of a lent book meets its rules.
pub(crate) fn difference_meets(context: Context, header: &Header, word: i64) -> bool {
    let (accounts, days) = (header.accounts(), header.closed_days());
    let most = bound(accounts, days);
    match context.variant {
        Variant::Word8Unjudged => true,
        Variant::Word8MustBeZero => word == 0,
        Variant::Word8JudgedFromAbove => word <= most,
        Variant::Word8JudgedFromBelow => word >= -most,
        Variant::BoundExclusive => word == 0 || within(most - 1, word),
        Variant::BoundOfDayMore => within(bound(accounts, days + 1), word),
        Variant::BoundOfDayLess => within(bound(accounts, (days - 1).max(0)), word),
        Variant::BoundOfOneDayAtLeast => within(bound(accounts, days.max(1)), word),
        Variant::BoundWithoutAccounts => within(bound(1, days), word),
        Variant::BoundOf499 => within(most / 500 * 499, word),
        Variant::BoundOf1000 => within(2 * most, word),
        _ => difference_fits(header, word),
    }
}
