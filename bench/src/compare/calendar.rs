//! The seven calendar calls, on one day, date and holiday list a case.

use super::same;
use super::tally::Tally;
use crate::robijan;
use reference::calendar as other;
use reference::generate::Rng;

pub fn calendar(rng: &mut Rng, cases: usize, tally: &mut Tally) -> Result<(), String> {
    for case in 0..cases {
        let day = match rng.below(8) {
            0 => rng.word(),
            1 => rng.between(-3, 3),
            2 | 3 => rng.between(36_420, 36_530),
            _ => rng.between(0, 36_524),
        };
        let (year, month) = (number(rng, 2000, 2099), number(rng, 1, 12));
        let of_month = number(rng, 27, 31);
        let holidays = holidays(rng, day);
        let described = || {
            format!("case {case}: day {day}, date {year}-{month}-{of_month}, listed {holidays:?}")
        };

        let date = robijan::date(day);
        let answer = other::day_to_date(day);
        same(
            [date.number, date.year, date.month, date.day],
            [
                answer.number.into(),
                answer.year as u64,
                answer.month as u64,
                answer.day as u64,
            ],
            described,
        )?;
        let weekday = robijan::weekday(day);
        let answer = other::weekday(day);
        same(
            (weekday.number, weekday.weekday),
            (answer.number.into(), answer.weekday as u64),
            described,
        )?;
        let business = robijan::business_day(day, &holidays);
        let answer = other::is_business_day(day, &holidays);
        same(
            (business.number, business.business),
            (answer.number.into(), answer.business.into()),
            described,
        )?;
        let mut last = 0;
        for (ours, theirs) in [
            (
                robijan::day(year, month, of_month),
                other::date_to_day(year, month, of_month),
            ),
            (robijan::statement_day(day), other::statement_day(day)),
            (
                robijan::residual_due(year, month, &holidays),
                other::residual_due_day(year, month, &holidays),
            ),
            (
                robijan::final_statement(day, &holidays),
                other::final_statement(day, &holidays),
            ),
        ] {
            same(
                (ours.number, ours.day),
                (theirs.number.into(), theirs.day as u64),
                described,
            )?;
            last = ours.number;
        }
        tally.add(
            "days with a list; the number is the final statement's",
            last,
            0,
        );
    }
    Ok(())
}

/// A number in this range most times.
fn number(rng: &mut Rng, low: i64, high: i64) -> i64 {
    match rng.below(12) {
        0 => rng.word(),
        1 => rng.pick(&[low - 1, high + 1, 0, -1]),
        2 | 3 => rng.pick(&[low, high]),
        _ => rng.between(low, high),
    }
}

/// Holidays about the days that the calls search, strictly ascending most times.
fn holidays(rng: &mut Rng, day: i64) -> Vec<i64> {
    let near = if (0..=36_524).contains(&day) {
        day + 75
    } else {
        20_000
    };
    let mut days: Vec<i64> = (0..rng.below(30))
        .map(|_| match rng.below(3) {
            0 => rng.between(0, 36_524),
            _ => (near + rng.between(-3, 25)).clamp(0, 36_524),
        })
        .collect();
    days.sort_unstable();
    days.dedup();
    if !days.is_empty() && rng.percent(15) {
        let at = rng.below(days.len());
        let fault = match rng.below(3) {
            0 => rng.word(),
            1 => days[at.saturating_sub(1)],
            _ => rng.pick(&[-1, 36_525]),
        };
        days[at] = fault;
    }
    days
}
