//! The calendar calls.

use super::Script;
use crate::frames::{Frame, MOST_HOLIDAYS};
use crate::generate::Rng;
use crate::units::LAST_DAY;

const NO_DAYS: [i64; 5] = [-1, LAST_DAY + 1, i64::MIN, i64::MAX, 1 << 32];

pub(super) fn write(script: &mut Script) {
    days(script);
    dates(script);
    business_days(script);
    final_statements(script);
    last_results(script);
    due_days(script);
    bad_lists(script);
    long_lists(script);
    negative_years(script);
    due_in_2100(script);
}

fn days(script: &mut Script) {
    let mut days: Vec<i64> = (0..150).map(|_| script.rng.between(0, LAST_DAY)).collect();
    // The ends of years and of Februaries.
    days.extend([0, 30, 31, 58, 59, 60, 364, 365, 366, 730, 731, 1_460, 1_461]);
    days.extend((0..25).map(|leap| leap * 1_461 + 59));
    days.extend((0..8).map(|back| LAST_DAY - back));
    days.extend(NO_DAYS);
    for day in days {
        script.push(Frame::DayToDate(day));
        script.push(Frame::Weekday(day));
        script.push(Frame::StatementDay(day));
    }
    for day in LAST_DAY - 80..=LAST_DAY - 70 {
        script.push(Frame::StatementDay(day));
    }
}

fn dates(script: &mut Script) {
    for year in [2000, 2025, 2096] {
        for month in 1..=12 {
            for day in [0, 1, 28, 29, 30, 31, 32] {
                script.push(Frame::DateToDay([year, month, day]));
            }
        }
    }
    for _ in 0..100 {
        let rng = &mut script.rng;
        let date = [
            rng.between(1_998, 2_101),
            rng.between(-1, 14),
            rng.between(-1, 32),
        ];
        script.push(Frame::DateToDay(date));
    }
    for wild in NO_DAYS {
        for date in [[wild, 1, 1], [2050, wild, 1], [2050, 1, wild]] {
            script.push(Frame::DateToDay(date));
        }
    }
    for date in [[1999, 12, 31], [2100, 1, 1], [2100, 2, 28]] {
        script.push(Frame::DateToDay(date));
    }
}

/// A strictly ascending list of some days near a day.
fn holidays(rng: &mut Rng, near: i64) -> Vec<i64> {
    let chance = rng.pick(&[0, 5, 10, 30, 60]);
    let first = (near - 10).max(0);
    let window = first..=LAST_DAY.min(first + 45);
    window.filter(|_| rng.percent(chance)).collect()
}

fn business_days(script: &mut Script) {
    for _ in 0..200 {
        let day = script.rng.between(0, LAST_DAY);
        let holidays = holidays(&mut script.rng, day);
        script.push(Frame::BusinessDay(day, holidays));
    }
    for day in NO_DAYS {
        script.push(Frame::BusinessDay(day, vec![5, 5]));
        script.push(Frame::FinalStatement(day, vec![5, 5]));
    }
}

fn final_statements(script: &mut Script) {
    for turn in 0..260 {
        // The tenth business day stands at the calendar's end or past it.
        let day = if turn % 3 == 0 {
            script.rng.between(LAST_DAY - 110, LAST_DAY)
        } else {
            script.rng.between(0, LAST_DAY)
        };
        let holidays = holidays(&mut script.rng, day + 80);
        script.push(Frame::FinalStatement(day, holidays));
    }
}

/// Results on the calendar's last day, and just before and past it.
fn last_results(script: &mut Script) {
    for day in LAST_DAY - 95..=LAST_DAY - 84 {
        script.push(Frame::FinalStatement(day, vec![]));
        for holiday in [LAST_DAY - 1, LAST_DAY] {
            script.push(Frame::FinalStatement(day, vec![holiday]));
        }
    }
    // From 11 December 2099 to a day before the last.
    for end in LAST_DAY - 4..=LAST_DAY {
        let holidays = (LAST_DAY - 20..=end).collect();
        script.push(Frame::ResidualDue([2099, 10], holidays));
    }
}

fn due_days(script: &mut Script) {
    for year in [2000, 2027, 2028, 2098, 2099] {
        for month in 0..=13 {
            let near = (year - 2000) * 365 + month * 30 + 70;
            let holidays = holidays(&mut script.rng, near);
            script.push(Frame::ResidualDue([year, month], vec![]));
            script.push(Frame::ResidualDue([year, month], holidays));
        }
    }
    for _ in 0..100 {
        let rng = &mut script.rng;
        let (year, month) = (rng.between(1_999, 2_100), rng.between(0, 13));
        let near = (year - 2000) * 365 + month * 30 + 90;
        let holidays = holidays(&mut script.rng, near);
        script.push(Frame::ResidualDue([year, month], holidays));
    }
    // 10 December 2099 has business days after it, unless they are listed.
    for first in LAST_DAY - 22..=LAST_DAY {
        let holidays = (first..=LAST_DAY).collect();
        script.push(Frame::ResidualDue([2099, 10], holidays));
    }
    for month in [11, 12, 11, 12, 11, 12] {
        let holidays = holidays(&mut script.rng, LAST_DAY - 10);
        script.push(Frame::ResidualDue([2099, month], holidays));
    }
    for wild in NO_DAYS {
        script.push(Frame::ResidualDue([wild, 1], vec![7, 6]));
        script.push(Frame::ResidualDue([2050, wild], vec![7, 6]));
    }
}

/// Lists that are not strictly ascending days, at every place; 13 comes before
/// 14.
fn bad_lists(script: &mut Script) {
    for turn in 0..120 {
        let rng = &mut script.rng;
        let count = rng.between(1, 12) as usize;
        let mut list: Vec<i64> = (0..count as i64).map(|at| 9_500 + 7 * at).collect();
        let at = rng.below(count);
        let before = if at > 0 { list[at - 1] } else { -1 };
        list[at] = rng.pick(&[-1, before, before - 1, LAST_DAY + 1, i64::MIN, i64::MAX]);
        let day = rng.pick(&[9_510, LAST_DAY - 80, LAST_DAY]);
        script.push(match turn % 3 {
            0 => Frame::BusinessDay(day, list),
            1 => Frame::FinalStatement(day, list),
            _ => Frame::ResidualDue([2025 + day / 1_000, 12], list),
        });
    }
}

/// Lists as long as the program takes, one of them bad at its end.
fn long_lists(script: &mut Script) {
    let count = MOST_HOLIDAYS as i64;
    let every = |step: i64| (0..count).map(|at| at * step).collect::<Vec<i64>>();
    script.push(Frame::BusinessDay(17_970, every(30)));
    script.push(Frame::FinalStatement(600, every(1)));
    script.push(Frame::FinalStatement(17_900, every(30)));
    script.push(Frame::ResidualDue([2001, 2], every(1)));
    let mut bad = every(30);
    bad[MOST_HOLIDAYS - 1] -= 30;
    script.push(Frame::FinalStatement(17_900, bad));
}

/// Years and months that would be there without their sign: 12.
fn negative_years(script: &mut Script) {
    for date in [[-2026, 1, 1], [-2000, 2, 29], [-2099, 12, 31]] {
        script.push(Frame::DateToDay(date));
    }
    for month in [[-2026, 1], [-2000, 2], [-2099, 10], [2026, -1], [-2026, -1]] {
        script.push(Frame::ResidualDue(month, vec![]));
    }
}

/// Months whose due month lies in 2100: 14, but 13 with a bad list. No such
/// month: 12, whatever the list.
fn due_in_2100(script: &mut Script) {
    let good = [vec![], vec![LAST_DAY - 1, LAST_DAY]];
    let bad = [
        vec![LAST_DAY, LAST_DAY - 1],
        vec![5, 5],
        vec![5, LAST_DAY + 1],
        vec![-1],
    ];
    for month in [11, 12] {
        for list in good.iter().chain(&bad) {
            script.push(Frame::ResidualDue([2099, month], list.clone()));
        }
    }
    for month in [[2099, 0], [2099, 13], [2099, -11], [-2099, 11], [2100, 1]] {
        for list in &bad[..2] {
            script.push(Frame::ResidualDue(month, list.clone()));
        }
    }
}
