//! Every figure and example of the specification.

use reference::book::{open, size, well_formed, Opening};
use reference::calendar::{
    date_to_day, day_to_date, final_statement, is_business_day, residual_due_day, statement_day,
    weekday,
};
use reference::close::close;
use reference::generate::books::kept_book;
use reference::generate::files::{Draft, DraftRow, Style};
use reference::generate::Rng;
use reference::history::{Key, METER, NCC, RESIDUAL, VESTING};
use reference::numbers::Answer;
use reference::reference_price::reference_price;
use reference::settle::settle;
use reference::share::share;
use reference::submission::submit;
use reference::tranche::tranche;
use reference::units::{nearest, THOUSANDTHS_A_CENT};

const WORDS: usize = 5_072;
const ONE: Opening = Opening::smallest(9_497);
/// The opening whose book has so many words.
const TWO: Opening = Opening { accounts: 2, ..ONE };

fn new_book() -> Vec<i64> {
    let mut book = vec![0; WORDS];
    assert_eq!(open(&mut book, TWO), Answer::ACCEPTED);
    book
}

fn shares(remaining: i64, uegqs: &[i64]) -> Vec<i64> {
    let mut shares = vec![-1; uegqs.len()];
    assert_eq!(share(remaining, uegqs, &mut shares), 0);
    shares
}

fn row(key: Key, count: u8, interval: &[i64]) -> DraftRow {
    DraftRow {
        key,
        count,
        values: interval.repeat(48),
    }
}

/// A book of one account with the given first base row, V being `v`, closed.
fn closed_with(base: &[(i64, i64)], v: i64) -> Vec<i64> {
    let mut book = vec![0; size(ONE).unwrap() as usize];
    open(&mut book, ONE);
    let mut vesting = row((VESTING, 0, 9_497), 0, &[0, 0]);
    for (interval, (bvq, bvp)) in base.iter().enumerate() {
        vesting.values[2 * interval] = *bvq;
        vesting.values[2 * interval + 1] = *bvp;
    }
    let meter = row((METER, 0, 9_497), 1, &[v, 1]);
    let file = Draft {
        rows: vec![vesting, meter],
    }
    .bytes();
    assert_eq!(submit(&mut book, &file), Answer::ACCEPTED);
    let mut statement = vec![0; 2];
    assert_eq!(close(&mut book, &mut statement).number, 0);
    statement
}

#[test]
fn shares_of_the_residual_load() {
    assert_eq!(shares(300, &[100, 200, 300]), [50, 100, 150]);
    assert_eq!(shares(2, &[1, 1, 1]), [0, 0, 0]);
    assert_eq!(shares(10, &[1, 2, 3]), [1, 2, 3]);
    assert_eq!(shares(-5, &[1, 2, 3]), [0, 0, 0]);
    assert_eq!(shares(10, &[0, 0, 0]), [0, 0, 0]);
}

#[test]
fn tranches_of_a_share() {
    let split = tranche(150, 400, 500);
    assert_eq!((split.number, split.first, split.second), (0, 100, 50));
    let split = tranche(150, 500, 400);
    assert_eq!((split.number, split.first, split.second), (0, 0, 150));
    // A holder without base contract has MQ 0.
    let split = tranche(150, 0, 0);
    assert_eq!((split.number, split.first, split.second), (0, 0, 150));
}

#[test]
fn reference_prices() {
    let price = |meps: &[i64], ieqs: &[i64]| {
        let answer = reference_price(meps, ieqs);
        assert_eq!(answer.number, 0);
        answer.price
    };
    assert_eq!(price(&[10_000, 10_001], &[3, 1]), 10_000);
    assert_eq!(price(&[101, 104], &[-5, 0]), 103);
    assert_eq!(price(&[-101, -104], &[-5, 0]), -103);
}

#[test]
fn day_amounts() {
    assert_eq!(closed_with(&[(400, 15_000)], 10_000), [2_000, -2_000]);
    assert_eq!(closed_with(&[(1, 499)], 0), [0, 0]);
    assert_eq!(closed_with(&[(1, 500)], 0), [1, -1]);
    assert_eq!(closed_with(&[(1, -500)], 0), [-1, 1]);
    // One rounding for the day, not one for each interval.
    assert_eq!(closed_with(&[(1, 250), (1, 249)], 0), [0, 0]);
    assert_eq!(closed_with(&[(1, 250), (1, 250)], 0), [1, -1]);
    for (sum, cents) in [
        (499, 0),
        (500, 1),
        (-499, 0),
        (-500, -1),
        (1_499, 1),
        (-1_500, -2),
    ] {
        assert_eq!(nearest(sum, THOUSANDTHS_A_CENT), cents);
    }
}

#[test]
fn the_mssl_is_off_by_half_a_cent_an_account_at_most() {
    let mut book = new_book();
    let rows = (0..2).flat_map(|account| {
        // One interval alone has an amount, of half a cent.
        let mut vesting = row((VESTING, account, 9_497), 0, &[0, 0]);
        vesting.values[..2].copy_from_slice(&[1, 500]);
        [vesting, row((METER, account, 9_497), 1, &[0, 0])]
    });
    let file = Draft {
        rows: rows.collect(),
    }
    .bytes();
    assert_eq!(submit(&mut book, &file), Answer::ACCEPTED);
    let mut statement = [0; 3];
    let answer = close(&mut book, &mut statement);
    assert_eq!(answer.number, 0);
    assert_eq!(statement, [1, 1, -2]);
    let exact_thousandths = -1_000;
    let difference = statement[2] * 1_000 - exact_thousandths;
    assert_eq!(difference, -2 * 500);
    assert_eq!((answer.difference, book[8]), (difference, difference));
}

#[test]
fn the_largest_day_amount() {
    let mut book = vec![0; size(ONE).unwrap() as usize];
    open(&mut book, ONE);
    let most = [10_000_000, 1_000_000];
    let mut statement = [0; 2];
    for (day, cents) in [(9_497, 3_840_000_000_000), (9_498, 4_800_000_000_000)] {
        let mut rows = vec![
            row((VESTING, 0, day), 3, &most.repeat(4)),
            row((METER, 0, day), 1, &[-1_000_000, 10_000_000]),
        ];
        if day > 9_497 {
            rows.push(row(
                (RESIDUAL, 0, day - 1),
                0,
                &[10_000_000, 10_000_000, 1_000_000, 1_000_000],
            ));
            rows.push(row((NCC, 0, day - 1), 0, &[1_000_000_000]));
        }
        assert_eq!(submit(&mut book, &Draft { rows }.bytes()), Answer::ACCEPTED);
        let answer = close(&mut book, &mut statement);
        assert_eq!((answer.number, answer.day), (0, day));
        assert_eq!(statement, [cents, -cents]);
        assert!(well_formed(&book));
    }
    assert_eq!((book[64], book[6]), (8_640_000_000_000, -8_640_000_000_000));
}

#[test]
fn eight_zero_bytes_change_nothing() {
    let mut rng = Rng::new(8);
    let (mut book, _) = kept_book(&mut rng, TWO, 2, true);
    let before = book.clone();
    assert_eq!(submit(&mut book, &[0; 8]), Answer::ACCEPTED);
    assert_eq!(book, before);
}

#[test]
fn opening_and_size() {
    assert_eq!(size(TWO), Some(5_072));
    let largest = Opening {
        accounts: 32,
        lag: 75,
        horizon: 92,
        ..ONE
    };
    assert_eq!(size(largest), Some(6_188_672));
    // The first day has no part in the size.
    for first_day in [0, 36_525, u64::MAX] {
        assert_eq!(size(Opening { first_day, ..TWO }), Some(5_072));
    }
    let mut book = vec![9; WORDS + 1];
    assert_eq!(open(&mut book, TWO), Answer::ACCEPTED);
    assert_eq!(book[..7], [395, 2, 1, 1, 9_497, 9_497, 0]);
    assert!(book[7..WORDS].iter().all(|&word| word == 0));
    assert_eq!(book[WORDS], 9);
}

#[test]
fn number_1() {
    let mut book = vec![9; WORDS];
    let lent = book.clone();
    for accounts in [0, 33, u64::MAX] {
        let bad = Opening { accounts, ..TWO };
        assert_eq!(open(&mut book, bad), Answer::at(1, 0));
    }
    for lag in [0, 76, u64::MAX] {
        let bad = Opening { lag, ..TWO };
        assert_eq!(open(&mut book, bad), Answer::at(1, 0));
    }
    for horizon in [0, 93, u64::MAX] {
        let bad = Opening { horizon, ..TWO };
        assert_eq!(open(&mut book, bad), Answer::at(1, 0));
    }
    for first_day in [9_496, 36_525, u64::MAX] {
        let bad = Opening { first_day, ..TWO };
        assert_eq!(open(&mut book, bad), Answer::at(1, 0));
    }
    for change_day in [1, 9_496, 36_525, u64::MAX] {
        let bad = Opening { change_day, ..TWO };
        assert_eq!(open(&mut book, bad), Answer::at(1, 0));
    }
    // 1 comes before 2.
    assert_eq!(
        open(&mut [], Opening { accounts: 0, ..TWO }),
        Answer::at(1, 0)
    );
    assert_eq!(book, lent);

    for (meps, ieqs) in [
        (&[][..], &[][..]),
        (&[1; 5], &[1; 5]),
        (&[1, 2], &[1]),
        (&[1_000_001], &[1]),
        (&[-1_000_001], &[1]),
        (&[1], &[10_000_001]),
        (&[1], &[-10_000_001]),
        (&[i64::MIN], &[i64::MAX]),
    ] {
        let answer = reference_price(meps, ieqs);
        assert_eq!((answer.number, answer.price), (1, 0));
    }
    for (remaining, uegqs) in [
        (1, &[][..]),
        (1, &[1; 33]),
        (1, &[-1]),
        (1, &[10_000_001]),
        (-1_280_000_001, &[1]),
        (1_000_000_001, &[1]),
    ] {
        // 1 comes before 10.
        assert_eq!(share(remaining, uegqs, &mut []), 1);
        let mut shares = [7; 40];
        assert_eq!(share(remaining, uegqs, &mut shares), 1);
        assert_eq!(shares, [7; 40]);
    }
    for bad in [-1, 10_000_001, i64::MIN, i64::MAX] {
        for [rvq, bvq, mq] in [[bad, 0, 0], [0, bad, 0], [0, 0, bad]] {
            let split = tranche(rvq, bvq, mq);
            assert_eq!((split.number, split.first, split.second), (1, 0, 0));
        }
    }
}

#[test]
fn number_2() {
    let mut book = vec![9; WORDS - 1];
    assert_eq!(open(&mut book, TWO), Answer::at(2, 0));
    assert_eq!(book, vec![9; WORDS - 1]);
}

#[test]
fn number_3() {
    let mut book = new_book();
    book[0] = 394;
    let lent = book.clone();
    assert_eq!(submit(&mut book, &[0; 8]), Answer::at(3, 0));
    // Before any number of the file, and before the statement's 10.
    assert_eq!(submit(&mut book, &[]), Answer::at(3, 0));
    assert_eq!(close(&mut book, &mut []), Answer::at(3, 0));
    assert_eq!(book, lent);
}

#[test]
fn numbers_4_to_8() {
    let mut book = new_book();
    assert_eq!(submit(&mut book, &[0; 7]), Answer::at(4, 6));
    assert_eq!(submit(&mut book, &[]), Answer::at(4, 0));
    assert_eq!(submit(&mut book, &[1, 0, 2]), Answer::at(5, 2));
    assert_eq!(submit(&mut book, &[1, 0, 0, 0x1A, 0x25]), Answer::at(6, 3));
    // Days above 36,524 give 6 and never 5.
    assert_eq!(submit(&mut book, &[1, 0, 0, 0xFF, 0xFF]), Answer::at(6, 3));
    let twice = vec![row((VESTING, 0, 9_497), 0, &[0, 0]); 2];
    assert_eq!(
        submit(&mut book, &Draft { rows: twice }.bytes()),
        Answer::at(7, 391)
    );
    assert_eq!(submit(&mut book, &[0; 9]), Answer::at(8, 8));
    assert_eq!(book, new_book());
}

#[test]
fn number_9() {
    let mut rng = Rng::new(9);
    let opening = Opening::smallest(36_524);
    let (mut book, history) = kept_book(&mut rng, opening, 1, false);
    assert!(history.finished() && book[5] == 36_525);
    let lent = book.clone();
    // 9 comes before 10.
    for words in [0, 2] {
        assert_eq!(close(&mut book, &mut vec![0; words]), Answer::at(9, 0));
    }
    assert_eq!(book, lent);
    // A finished book still takes what the last days' residuals need.
    let draft = Draft::of(
        &mut rng,
        Style::Usual,
        1,
        &[(NCC, 0, 36_524), (RESIDUAL, 0, 36_524)],
    );
    assert_eq!(submit(&mut book, &draft.bytes()), Answer::ACCEPTED);
    let draft = Draft::of(&mut rng, Style::Usual, 1, &[(VESTING, 0, 36_524)]);
    assert_eq!(submit(&mut book, &draft.bytes()), Answer::at(6, 3));
}

#[test]
fn number_10() {
    let mut book = new_book();
    let mut statement = [5, 6];
    // 10 comes before 11.
    assert_eq!(close(&mut book, &mut statement), Answer::at(10, 0));
    assert_eq!(statement, [5, 6]);
    let mut shares = [5, 6];
    assert_eq!(share(1, &[1, 1, 1], &mut shares), 10);
    assert_eq!(shares, [5, 6]);
}

#[test]
fn number_11() {
    let mut book = new_book();
    let mut statement = [5; 4];
    assert_eq!(close(&mut book, &mut statement), Answer::at(11, 84));
    assert_eq!((book, statement), (new_book(), [5; 4]));
}

#[test]
fn numbers_12_to_14() {
    assert_eq!(
        (
            date_to_day(2026, 2, 29).number,
            date_to_day(2026, 2, 29).day
        ),
        (12, 0)
    );
    for number in [
        is_business_day(5, &[5, 5]).number,
        final_statement(5, &[5, 5]).number,
        residual_due_day(2026, 1, &[5, 5]).number,
    ] {
        assert_eq!(number, 13);
    }
    let answer = statement_day(36_450);
    assert_eq!((answer.number, answer.day), (14, 0));
    let answer = statement_day(36_449);
    assert_eq!((answer.number, answer.day), (0, 36_524));
    // 12 before 13, 13 before 14.
    assert_eq!(final_statement(36_525, &[5, 5]).number, 12);
    assert_eq!(residual_due_day(2026, 13, &[5, 5]).number, 12);
    assert_eq!(final_statement(36_524, &[5, 5]).number, 13);
    assert_eq!(residual_due_day(2099, 12, &[5, 5]).number, 13);
}

#[test]
fn calendar_examples() {
    let day = |year, month, day| date_to_day(year, month, day).day;
    assert_eq!(day(2000, 1, 1), 0);
    assert_eq!(day(2026, 1, 1), 9_497);
    assert_eq!(day(2099, 12, 31), 36_524);
    let date = day_to_date(36_524);
    assert_eq!(
        (date.number, date.year, date.month, date.day),
        (0, 2099, 12, 31)
    );
    // 1 January 2000 was a Saturday, 7 January a Friday.
    assert_eq!((weekday(0).weekday, weekday(6).weekday), (0, 6));
    assert_eq!(final_statement(9_497, &[]).day, day(2026, 3, 31));
    assert_eq!(
        final_statement(9_497, &[day(2026, 3, 20)]).day,
        day(2026, 4, 1)
    );
    assert_eq!(residual_due_day(2026, 1, &[]).day, day(2026, 3, 11));
}

#[test]
fn settle_example() {
    assert_eq!(
        settle(&[1, 1, 1, 0x19, 0x25, 0x43]),
        b"open 0 0\nclose 11 76\n"
    );
}
