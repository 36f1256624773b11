//! The rounding difference: of each close, and its sum in word 8 of the book.

use robijan::*;

const FIRST: u16 = 9_497;

/// Lag and horizon 1.
fn terms(accounts: usize, first: u16) -> Terms {
    Terms {
        accounts,
        lag: 1,
        horizon: 1,
        first: first.into(),
        change: 0,
    }
}

/// A new book.
fn book(accounts: usize) -> Vec<i64> {
    let terms = terms(accounts, FIRST);
    let mut book = vec![-1; book_words(terms).unwrap()];
    open(&mut book, terms).unwrap();
    book
}

/// Both rows of each account for this day, and the rows of the day before, if the close settles it: all zeros but for 1 kWh of base contract in
/// interval 0 at the account's price. V being 0, the price is the account's exact amount in thousandths of a cent.
fn file(day: u16, prices: &[i32], settles: bool) -> Vec<u8> {
    let rows = |count: usize| (count as u16).to_le_bytes();
    let mut file = Vec::new();
    file.extend(rows(prices.len()));
    for (account, price) in prices.iter().enumerate() {
        file.push(account as u8);
        file.extend(day.to_le_bytes());
        file.push(0);
        file.extend(1i32.to_le_bytes());
        file.extend(price.to_le_bytes());
        file.extend([0; 47 * 8]);
    }
    file.extend(rows(prices.len()));
    for account in 0..prices.len() {
        file.push(account as u8);
        file.extend(day.to_le_bytes());
        file.push(1);
        file.extend([0; 48 * 8]);
    }
    if !settles {
        file.extend([0; 4]);
        return file;
    }
    file.extend(rows(prices.len()));
    for account in 0..prices.len() {
        file.push(account as u8);
        file.extend((day - 1).to_le_bytes());
        file.extend([0; 48 * 16]);
    }
    file.extend(rows(1));
    file.extend((day - 1).to_le_bytes());
    file.extend([0; 48 * 4]);
    file
}

/// Closes the next day with these exact amounts: what is posted to the accounts, and the difference.
fn closed(book: &mut [i64], exact: &[i32]) -> (Vec<i64>, i64) {
    let day = next_day(book).unwrap();
    submit(book, &file(day as u16, exact, day > i64::from(FIRST))).unwrap();
    let mut statement = vec![7; exact.len() + 1];
    let closed = close(book, &mut statement).unwrap();
    assert_eq!(closed.day, day);
    let mssl = statement.pop().unwrap();
    assert_eq!(mssl, -statement.iter().sum::<i64>());
    // The MSSL's exact amount is minus the accounts'.
    let exact: i64 = exact.iter().map(|amount| i64::from(*amount)).sum();
    assert_eq!(closed.difference, 1_000 * mssl + exact);
    (statement, closed.difference)
}

#[test]
fn one_account() {
    let mut book = book(1);
    assert_eq!(rounding_differences(&book), Some(0));
    assert_eq!(closed(&mut book, &[499]), (vec![0], 499));
    assert_eq!(rounding_differences(&book), Some(499));
    // A tie goes away from zero.
    assert_eq!(closed(&mut book, &[500]), (vec![1], -500));
    assert_eq!(rounding_differences(&book), Some(-1));
    assert_eq!(closed(&mut book, &[-499]), (vec![0], -499));
    assert_eq!(closed(&mut book, &[-500]), (vec![-1], 500));
    assert_eq!(rounding_differences(&book), Some(0));
    assert_eq!(closed(&mut book, &[7_000]), (vec![7], 0));
    assert_eq!(closed(&mut book, &[-7_001]), (vec![-7], -1));
    assert_eq!(rounding_differences(&book), Some(-1));
    // It stands in its own word, and the others hold what they held.
    assert_eq!(book[..9], [395, 1, 1, 1, 9_497, 9_503, 0, 0, -1]);
    assert!(book[9..64].iter().all(|word| *word == 0));
    assert_eq!(balance(&book, 0), Some(0));
}

/// The difference is of all accounts together, each rounded by itself.
#[test]
fn more_accounts() {
    let mut book = book(3);
    assert_eq!(
        closed(&mut book, &[499, 250, -1_020]),
        (vec![0, 0, -1], 729)
    );
    assert_eq!(
        closed(&mut book, &[500, -30_001, 1_600]),
        (vec![1, -30, 2], -901)
    );
    assert_eq!(rounding_differences(&book), Some(-172));
    assert_eq!(
        closed(&mut book, &[499, 499, 499]),
        (vec![0, 0, 0], 3 * 499)
    );
    assert_eq!(rounding_differences(&book), Some(1_325));
}

#[test]
fn new_books() {
    for accounts in [1, 2, 32] {
        let book = book(accounts);
        assert_eq!(rounding_differences(&book), Some(0));
        assert!(book[9..64].iter().all(|word| *word == 0));
    }
    assert_eq!(rounding_differences(&[395; 8]), None);
}

/// Only an accepted close has a difference and changes the sum.
#[test]
fn other_answers() {
    let mut book = book(1);
    assert_eq!(closed(&mut book, &[499]), (vec![0], 499));
    let refused = |book: &[i64], number, words| {
        let mut lent = book.to_vec();
        let answer = raw::close(&mut lent, &mut [7; 2][..words]);
        let figures = (answer.number, answer.day, answer.count, answer.difference);
        assert_eq!(figures, (number, 0, 0, 0));
        assert_eq!(lent, book);
    };
    refused(&book, numbers::OUTPUT_TOO_SHORT, 1);
    refused(&book, numbers::DATUM_ABSENT, 2);
    book[8] = 501;
    refused(&book, numbers::NOT_WELL_FORMED, 2);
    book[8] = 499;

    let answer = raw::submit(&mut book, &file(FIRST + 1, &[500], true));
    assert_eq!((answer.number, answer.difference), (0, 0));
    assert_eq!(raw::submit(&mut book, &[0; 7]).difference, 0);
    assert_eq!(rounding_differences(&book), Some(499));
    let answer = raw::close(&mut book, &mut [7; 2]);
    let wanted = raw::Answer {
        number: 0,
        position: 0,
        day: 9_498,
        count: 48,
        difference: -500,
    };
    assert_eq!(answer, wanted);
    assert_eq!(rounding_differences(&book), Some(-1));

    let last = 36_524;
    let answer = raw::open(&mut book, terms(1, last));
    assert_eq!((answer.number, answer.difference), (0, 0));
    assert_eq!(rounding_differences(&book), Some(0));
    submit(&mut book, &file(last, &[-499], false)).unwrap();
    assert_eq!(close(&mut book, &mut [7; 2]).unwrap().difference, -499);
    refused(&book, numbers::BOOK_FINISHED, 2);
}

/// 500 thousandths an account and closed day, either way; nothing beyond.
#[test]
fn bounds() {
    for accounts in [1, 2, 32] {
        let mut book = book(accounts);
        for days in 0..4 {
            let bound = 500 * accounts as i64 * days;
            let kept = rounding_differences(&book).unwrap();
            for sum in [-bound, 1 - bound, 0, bound - 1, bound] {
                if sum.abs() <= bound {
                    book[8] = sum;
                    judge(&book).unwrap();
                    submit(&mut book, &[0; 8]).unwrap();
                    assert_eq!(rounding_differences(&book), Some(sum));
                }
            }
            let wide = 1 << 32;
            for sum in [-bound - 1, bound + 1, wide, -wide, i64::MIN, i64::MAX] {
                book[8] = sum;
                let refusal = judge(&book).unwrap_err();
                assert_eq!(refusal.number, numbers::NOT_WELL_FORMED);
                assert_eq!(submit(&mut book, &[0; 8]), Err(refusal));
                assert_eq!(close(&mut book, &mut vec![7; accounts + 1]), Err(refusal));
                assert_eq!(rounding_differences(&book), Some(sum));
            }
            book[8] = kept;
            closed(&mut book, &vec![499; accounts]);
        }
    }
}

/// Closes alone reach the bound, both ways.
#[test]
fn bounds_reached() {
    for (exact, sign) in [(-500, 1), (500, -1)] {
        let mut book = book(2);
        for days in 1..4 {
            let difference = sign * 2 * 500;
            assert_eq!(closed(&mut book, &[exact; 2]), (vec![-sign; 2], difference));
            assert_eq!(rounding_differences(&book), Some(days * difference));
            judge(&book).unwrap();
        }
    }
}

/// A book closed before P5 has zero in word 8 and sums from its next close on.
#[test]
fn from_zero_on() {
    let mut book = book(1);
    closed(&mut book, &[499]);
    book[8] = 0;
    judge(&book).unwrap();
    assert_eq!(closed(&mut book, &[-499]), (vec![0], -499));
    assert_eq!(rounding_differences(&book), Some(-499));
}
