//! The calendar against a count of days one by one.

use reference::calendar::{
    date_to_day, day_to_date, final_statement, is_business_day, residual_due_day, statement_day,
    weekday, DayAnswer,
};
use reference::generate::Rng;
use std::collections::BTreeSet;

const LAST: i64 = 36_524;

#[test]
fn every_date_there_is_and_none_else() {
    let mut next = 0;
    for year in 1_998..=2_102 {
        for month in -1..=14 {
            for day in -1..=33 {
                let length = match month {
                    1 | 3 | 5 | 7 | 8 | 10 | 12 => 31,
                    4 | 6 | 9 | 11 => 30,
                    2 if year % 4 == 0 => 29,
                    2 => 28,
                    _ => 0,
                };
                let exists = (2_000..2_100).contains(&year) && 1 <= day && day <= length;
                let answer = date_to_day(year, month, day);
                if exists {
                    assert_eq!(
                        answer,
                        DayAnswer {
                            number: 0,
                            day: next
                        }
                    );
                    let date = day_to_date(next);
                    assert_eq!(
                        (date.number, date.year, date.month, date.day),
                        (0, year, month, day)
                    );
                    assert_eq!(weekday(next).weekday, next % 7);
                    next += 1;
                } else {
                    assert_eq!(answer, DayAnswer { number: 12, day: 0 });
                }
            }
        }
    }
    assert_eq!(next, LAST + 1);
}

#[test]
fn days_out_of_the_calendar() {
    for day in [-1, LAST + 1, i64::MIN, i64::MAX] {
        let date = day_to_date(day);
        assert_eq!(
            (date.number, date.year, date.month, date.day),
            (12, 0, 0, 0)
        );
        assert_eq!((weekday(day).number, weekday(day).weekday), (12, 0));
        assert_eq!(statement_day(day), DayAnswer { number: 12, day: 0 });
        assert_eq!(final_statement(day, &[]), DayAnswer { number: 12, day: 0 });
        let business = is_business_day(day, &[]);
        assert_eq!((business.number, business.business), (12, false));
        assert_eq!(date_to_day(day, day, day).number, 12);
        assert_eq!(residual_due_day(day, 1, &[]).number, 12);
        assert_eq!(residual_due_day(2_026, day, &[]).number, 12);
    }
    for month in [0, 13] {
        assert_eq!(residual_due_day(2_026, month, &[]).number, 12);
    }
}

#[test]
fn holiday_lists() {
    for holidays in [
        &[5, 5][..],
        &[6, 5],
        &[-1],
        &[LAST + 1],
        &[1, 2, i64::MAX],
        &[0, LAST, LAST],
    ] {
        assert_eq!(is_business_day(9, holidays).number, 13);
        assert_eq!(final_statement(9, holidays).number, 13);
        assert_eq!(residual_due_day(2_000, 1, holidays).number, 13);
    }
    for holidays in [&[][..], &[0], &[LAST], &[0, 1, LAST]] {
        assert_eq!(is_business_day(9, holidays).number, 0);
    }
}

/// Business days counted one by one; 14 where the calendar ends first.
fn count_from(after: i64, mut count: i64, holidays: &BTreeSet<i64>) -> DayAnswer {
    let mut day = after;
    while count > 0 {
        day += 1;
        if day > LAST {
            return DayAnswer { number: 14, day: 0 };
        }
        let working = (2..=6).contains(&(day % 7)) && !holidays.contains(&day);
        count -= i64::from(working);
    }
    DayAnswer { number: 0, day }
}

#[test]
fn business_days_counted_one_by_one() {
    let mut rng = Rng::new(0xCA1);
    let mut seen = [0; 15];
    for round in 0..4_000 {
        let start = if round % 2 == 0 {
            LAST - rng.between(0, 200)
        } else {
            rng.between(0, LAST)
        };
        let spread = rng.between(1, 150);
        let wanted = rng.below(60);
        let holidays: BTreeSet<i64> = (0..wanted)
            .map(|_| (start + rng.between(0, spread)).min(LAST))
            .collect();
        let list: Vec<i64> = holidays.iter().copied().collect();

        let business = is_business_day(start, &list);
        let expected = start % 7 > 1 && !holidays.contains(&start);
        assert_eq!((business.number, business.business), (0, expected));

        let answer = final_statement(start, &list);
        assert_eq!(answer, count_from(start + 75, 10, &holidays));
        seen[usize::from(answer.number)] += 1;

        let date = day_to_date(start);
        let answer = residual_due_day(date.year, date.month, &list);
        let (year, month) = ((date.month + 1) / 12 + date.year, (date.month + 1) % 12 + 1);
        let tenth = date_to_day(year, month, 10);
        let expected = match tenth.number {
            0 => count_from(tenth.day, 1, &holidays),
            _ => DayAnswer { number: 14, day: 0 },
        };
        assert_eq!(answer, expected);
        seen[usize::from(answer.number)] += 1;
    }
    assert!(seen[0] > 1_000 && seen[14] > 1_000, "{seen:?}");
}

#[test]
fn the_calendar_ends_within_the_count() {
    // d + 75 is in range and the tenth business day after it is not.
    assert_eq!(statement_day(36_445).number, 0);
    assert_eq!(final_statement(36_445, &[]).number, 14);
    // Due in January and February 2100.
    assert_eq!(residual_due_day(2_099, 11, &[]).number, 14);
    assert_eq!(residual_due_day(2_099, 12, &[]).number, 14);
    // 11 December 2099 is a Friday.
    assert_eq!(residual_due_day(2_099, 10, &[]), date_to_day(2_099, 12, 11));
    let rest_of_december: Vec<i64> = (date_to_day(2_099, 12, 11).day..=LAST).collect();
    assert_eq!(residual_due_day(2_099, 10, &rest_of_december).number, 14);
    // The year turns with the second month following.
    assert_eq!(residual_due_day(2_025, 11, &[]), date_to_day(2_026, 1, 12));
    assert_eq!(residual_due_day(2_025, 12, &[]), date_to_day(2_026, 2, 11));
}

#[test]
fn negative_years_and_months() {
    for year in [-2_000, -2_026, -2_099] {
        assert_eq!(date_to_day(year, 1, 1), DayAnswer { number: 12, day: 0 });
        for holidays in [&[][..], &[5, 5]] {
            let answer = residual_due_day(year, 1, holidays);
            assert_eq!(answer, DayAnswer { number: 12, day: 0 });
        }
    }
    for month in -12..0 {
        let answer = residual_due_day(2_026, month, &[]);
        assert_eq!(answer, DayAnswer { number: 12, day: 0 });
    }
}

#[test]
fn the_list_is_judged_before_the_due_month() {
    for (month, good, bad) in [(0, 12, 12), (11, 14, 13), (12, 14, 13), (13, 12, 12)] {
        for (holidays, number) in [(&[5, 6], good), (&[6, 5], bad), (&[5, 5], bad)] {
            let answer = residual_due_day(2_099, month, holidays);
            assert_eq!(answer, DayAnswer { number, day: 0 });
        }
    }
}
