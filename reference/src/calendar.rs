//! The trading calendar, 1 January 2000 to 31 December 2099.

use crate::numbers::{ACCEPTED, BAD_HOLIDAYS, NO_SUCH_DATE, PAST_LAST_DAY};
use crate::units::{DAY, LAST_DAY};
use crate::variant::{Context, Variant};
use std::ops::RangeInclusive;

const YEARS: RangeInclusive<i64> = 2000..=2099;
const MONTHS: RangeInclusive<i64> = 1..=12;
const SATURDAY: i64 = 0;
const SUNDAY: i64 = 1;

/// Days from a trading day to its statement.
const STATEMENT_LAG: i64 = 75;
/// Business days from the statement to the final one.
const FINAL_LAG: usize = 10;
/// Residual data fall due after this day of the second month following.
const DUE_AFTER: i64 = 10;

#[derive(Clone, Copy, Debug, PartialEq, Eq)]
pub struct DayAnswer {
    pub number: u8,
    pub day: i64,
}

#[derive(Clone, Copy, Debug, PartialEq, Eq)]
pub struct DateAnswer {
    pub number: u8,
    pub year: i64,
    pub month: i64,
    pub day: i64,
}

#[derive(Clone, Copy, Debug, PartialEq, Eq)]
pub struct WeekdayAnswer {
    pub number: u8,
    /// 0 is Saturday, 6 Friday.
    pub weekday: i64,
}

#[derive(Clone, Copy, Debug, PartialEq, Eq)]
pub struct BusinessAnswer {
    pub number: u8,
    pub business: bool,
}

pub fn day_to_date(day: i64) -> DateAnswer {
    if !DAY.contains(&day) {
        return DateAnswer {
            number: NO_SUCH_DATE,
            year: 0,
            month: 0,
            day: 0,
        };
    }
    let (mut year, mut month, mut left) = (*YEARS.start(), *MONTHS.start(), day);
    while left >= year_length(year) {
        left -= year_length(year);
        year += 1;
    }
    while left >= month_length(year, month) {
        left -= month_length(year, month);
        month += 1;
    }
    DateAnswer {
        number: ACCEPTED,
        year,
        month,
        day: left + 1,
    }
}

pub fn date_to_day(year: i64, month: i64, day: i64) -> DayAnswer {
    date_to_day_in(Context::RIGHT, year, month, day)
}

pub fn date_to_day_in(context: Context, year: i64, month: i64, day: i64) -> DayAnswer {
    let year = taken(context, Variant::TakesMagnitudeOfYear, year);
    let exists = YEARS.contains(&year)
        && MONTHS.contains(&month)
        && (1..=month_length(year, month)).contains(&day);
    if !exists {
        return refused(NO_SUCH_DATE);
    }
    accepted(day_of(year, month, day))
}

pub fn weekday(day: i64) -> WeekdayAnswer {
    if !DAY.contains(&day) {
        return WeekdayAnswer {
            number: NO_SUCH_DATE,
            weekday: 0,
        };
    }
    WeekdayAnswer {
        number: ACCEPTED,
        weekday: day % 7,
    }
}

pub fn statement_day(day: i64) -> DayAnswer {
    if !DAY.contains(&day) {
        return refused(NO_SUCH_DATE);
    }
    result(Some(day + STATEMENT_LAG))
}

pub fn is_business_day(day: i64, holidays: &[i64]) -> BusinessAnswer {
    let refused = |number| BusinessAnswer {
        number,
        business: false,
    };
    if !DAY.contains(&day) {
        return refused(NO_SUCH_DATE);
    }
    if !ascending(holidays) {
        return refused(BAD_HOLIDAYS);
    }
    BusinessAnswer {
        number: ACCEPTED,
        business: business(day, holidays),
    }
}

/// The tenth business day after the statement day.
pub fn final_statement(day: i64, holidays: &[i64]) -> DayAnswer {
    if !DAY.contains(&day) {
        return refused(NO_SUCH_DATE);
    }
    if !ascending(holidays) {
        return refused(BAD_HOLIDAYS);
    }
    result(business_day_after(day + STATEMENT_LAG, FINAL_LAG, holidays))
}

/// The day on which a month's residual data fall due.
pub fn residual_due_day(year: i64, month: i64, holidays: &[i64]) -> DayAnswer {
    residual_due_day_in(Context::RIGHT, year, month, holidays)
}

pub fn residual_due_day_in(context: Context, year: i64, month: i64, holidays: &[i64]) -> DayAnswer {
    let year = taken(context, Variant::TakesMagnitudeOfDueYear, year);
    let month = taken(context, Variant::TakesMagnitudeOfDueMonth, month);
    if !YEARS.contains(&year) || !MONTHS.contains(&month) {
        return refused(NO_SUCH_DATE);
    }
    let (year, month) = if month <= 10 {
        (year, month + 2)
    } else {
        (year + 1, month - 10)
    };
    let due_after = day_of(year, month, DUE_AFTER);
    if due_after > LAST_DAY && context.is(Variant::SaysDuePastLastDayBeforeHolidays) {
        return refused(PAST_LAST_DAY);
    }
    if !ascending(holidays) {
        return refused(BAD_HOLIDAYS);
    }
    result(business_day_after(due_after, 1, holidays))
}

/// A year or a month as given; its magnitude, if that is the variant's slip.
fn taken(context: Context, slip: Variant, given: i64) -> i64 {
    if context.is(slip) {
        given.saturating_abs()
    } else {
        given
    }
}

fn accepted(day: i64) -> DayAnswer {
    DayAnswer {
        number: ACCEPTED,
        day,
    }
}

fn refused(number: u8) -> DayAnswer {
    DayAnswer { number, day: 0 }
}

/// A day within the calendar, or else one past it.
fn result(day: Option<i64>) -> DayAnswer {
    match day {
        Some(day) if day <= LAST_DAY => accepted(day),
        _ => refused(PAST_LAST_DAY),
    }
}

fn ascending(holidays: &[i64]) -> bool {
    holidays.iter().all(|day| DAY.contains(day)) && holidays.windows(2).all(|two| two[0] < two[1])
}

fn business(day: i64, holidays: &[i64]) -> bool {
    ![SATURDAY, SUNDAY].contains(&(day % 7)) && holidays.binary_search(&day).is_err()
}

/// The nth business day strictly after a day, if the calendar still has it.
fn business_day_after(day: i64, nth: usize, holidays: &[i64]) -> Option<i64> {
    (day + 1..=LAST_DAY)
        .filter(|&day| business(day, holidays))
        .nth(nth - 1)
}

/// The day of a date from 2000 to 2100.
fn day_of(year: i64, month: i64, day: i64) -> i64 {
    let years: i64 = (*YEARS.start()..year).map(year_length).sum();
    let months: i64 = (*MONTHS.start()..month)
        .map(|month| month_length(year, month))
        .sum();
    years + months + day - 1
}

fn year_length(year: i64) -> i64 {
    365 + i64::from(leap(year))
}

fn month_length(year: i64, month: i64) -> i64 {
    match month {
        2 => 28 + i64::from(leap(year)),
        4 | 6 | 9 | 11 => 30,
        _ => 31,
    }
}

fn leap(year: i64) -> bool {
    year % 4 == 0 && (year % 100 != 0 || year % 400 == 0)
}
