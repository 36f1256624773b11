//! The two editions of the share, and the change day between them.

use reference::book::{judge, open, size, well_formed, Opening};
use reference::close::close;
use reference::edition::Edition;
use reference::generate::books::{change_day_case, kept_book, opened_book};
use reference::generate::files::{even_row, Draft, DraftRow};
use reference::generate::inputs::Input;
use reference::generate::lists::change_day;
use reference::generate::Rng;
use reference::history::{History, Key, METER, NCC, RESIDUAL, VESTING};
use reference::numbers::Answer;
use reference::settle::settle;
use reference::share::{second_share, share};
use reference::submission::submit;

const F: u64 = 9_497;

fn second_shares(remaining: i64, uegqs: &[i64]) -> Vec<i64> {
    let mut shares = vec![-1; uegqs.len()];
    assert_eq!(second_share(remaining, uegqs, &mut shares), 0);
    shares
}

#[test]
fn shares_told_by_hand() {
    assert_eq!(second_shares(2, &[1, 1, 1]), [0, 1, 1]);
    assert_eq!(second_shares(1, &[1, 1, 1]), [0, 0, 1]);
    assert_eq!(second_shares(300, &[100, 200, 300]), [50, 100, 150]);
    // Sums 1, 3, 6: 4 × 1 / 6 is 0, 4 × 3 / 6 is 2.
    assert_eq!(second_shares(4, &[1, 2, 3]), [0, 2, 2]);
    assert_eq!(second_shares(4, &[3, 2, 1]), [2, 1, 1]);
    // 3 × 1 to 5 / 5: 0, 1, 1, 2, 3.
    assert_eq!(second_shares(3, &[1; 5]), [0, 1, 0, 1, 1]);
    // No spare generation, no share, wherever the account stands.
    assert_eq!(second_shares(4, &[0, 3, 4]), [0, 1, 3]);
    assert_eq!(second_shares(4, &[3, 0, 4]), [1, 0, 3]);
    assert_eq!(second_shares(4, &[3, 4, 0]), [1, 3, 0]);
    // One account has all that is left.
    for remaining in 0..=7 {
        assert_eq!(second_shares(remaining, &[7]), [remaining]);
    }
}

#[test]
fn without_a_division_both_editions_agree() {
    for (remaining, uegqs, expected) in [
        (10, [1, 2, 3], [1, 2, 3]),
        (6, [1, 2, 3], [1, 2, 3]),
        (7, [1, 2, 3], [1, 2, 3]),
        (1_000_000_000, [1, 2, 3], [1, 2, 3]),
        (0, [1, 2, 3], [0, 0, 0]),
        (-5, [1, 2, 3], [0, 0, 0]),
        (-1_280_000_000, [1, 2, 3], [0, 0, 0]),
        (10, [0, 0, 0], [0, 0, 0]),
        (0, [0, 0, 0], [0, 0, 0]),
        (-10, [0, 0, 0], [0, 0, 0]),
    ] {
        let mut first = [-1; 3];
        assert_eq!(share(remaining, &uegqs, &mut first), 0);
        assert_eq!(first, expected);
        assert_eq!(second_shares(remaining, &uegqs), expected);
    }
}

#[test]
fn the_largest_sums() {
    const MOST: i64 = 10_000_000;
    let all = [MOST; 32];
    // One kWh goes to the last account, one too few to the first.
    let mut expected = [0; 32];
    expected[31] = 1;
    assert_eq!(second_shares(1, &all), expected);
    expected = all;
    expected[0] -= 1;
    assert_eq!(second_shares(32 * MOST - 1, &all), expected);
    for remaining in [32 * MOST, 32 * MOST + 1, 1_000_000_000] {
        assert_eq!(second_shares(remaining, &all), all);
    }
    // R = S − 2: the first 16 accounts, which have (S + 1) / 2, share (S − 1) / 2
    // less 1 / S, rounded down.
    let mut uegqs = all;
    uegqs[31] -= 1;
    let shares = second_shares(32 * MOST - 3, &uegqs);
    assert_eq!(shares[..16].iter().sum::<i64>(), 16 * MOST - 2);
    assert_eq!(shares[15..17], [MOST - 1, MOST]);
    assert_eq!(shares.iter().sum::<i64>(), 32 * MOST - 3);
}

/// Both editions by their definitions, without rounding.
fn check_shares(remaining: i64, uegqs: &[i64]) {
    let (mut first, mut second) = (vec![-3; uegqs.len() + 2], vec![-5; uegqs.len() + 2]);
    assert_eq!(share(remaining, uegqs, &mut first), 0);
    assert_eq!(second_share(remaining, uegqs, &mut second), 0);
    assert_eq!(first.split_off(uegqs.len()), [-3, -3]);
    assert_eq!(second.split_off(uegqs.len()), [-5, -5]);

    let spare: i64 = uegqs.iter().sum();
    let total = remaining.max(0).min(spare);
    assert!(first.iter().sum::<i64>() <= total);
    assert_eq!(second.iter().sum::<i64>(), total, "{remaining} {uegqs:?}");

    let (load, spare) = (i128::from(remaining), i128::from(spare));
    let (mut sum, mut shared) = (0, 0);
    for ((&first, &second), &uegq) in first.iter().zip(&second).zip(uegqs) {
        assert!((0..=uegq).contains(&second), "{remaining} {uegqs:?}");
        if load <= 0 || load >= spare {
            let all = if load > 0 { uegq } else { 0 };
            assert_eq!((first, second), (all, all));
            continue;
        }
        let exact = load * i128::from(uegq);
        let rounded = i128::from(first) * spare;
        assert!(rounded <= exact && exact < rounded + spare);
        // Less than 1 from the exact share either way.
        assert!((i128::from(second) * spare - exact).abs() < spare);
        assert!((first..=first + 1).contains(&second));
        // Up to each account the shares are the sum's rounded down.
        sum += i128::from(uegq);
        shared += i128::from(second);
        assert!(shared * spare <= load * sum && load * sum < (shared + 1) * spare);
    }
}

#[test]
fn every_small_share() {
    for remaining in -1..=13 {
        for code in 0..625 {
            let uegqs = [1, 5, 25, 125].map(|place| code / place % 5);
            check_shares(remaining, &uegqs[..1]);
            check_shares(remaining, &uegqs[..2]);
            check_shares(remaining, &uegqs[..3]);
            check_shares(remaining, &uegqs);
        }
    }
}

#[test]
fn shares_over_their_ranges() {
    let mut rng = Rng::new(0x2ED);
    for _ in 0..20_000 {
        let accounts = rng.between(1, 32) as usize;
        let most = rng.pick(&[1, 3, 1_000, 10_000_000]);
        let zeros = rng.pick(&[0, 0, 30, 90]);
        let mut uegqs: Vec<i64> = (0..accounts).map(|_| rng.between(0, most)).collect();
        for uegq in &mut uegqs {
            if rng.percent(zeros) {
                *uegq = 0;
            }
        }
        let spare: i64 = uegqs.iter().sum();
        let remaining = match rng.below(4) {
            0 => rng.pick(&[-1_280_000_000, 1_000_000_000, 0, 1, -1]),
            1 => spare + rng.between(-1, 1),
            _ => rng.between(0, spare),
        };
        check_shares(remaining, &uegqs);
    }
}

#[test]
fn the_second_call_has_the_first_ones_ranges() {
    for (remaining, uegqs) in [
        (1, &[][..]),
        (1, &[1; 33]),
        (1, &[1; 40]),
        (1, &[-1]),
        (1, &[10_000_001]),
        (0, &[1, -1]),
        (-7, &[10_000_001, 1]),
        (1_000_000_000, &[1, i64::MAX, 1]),
        (1, &[i64::MIN, i64::MIN]),
        (-1_280_000_001, &[1]),
        (1_000_000_001, &[1]),
        (i64::MIN, &[1, 1]),
        (i64::MAX, &[1, 1]),
    ] {
        // 1 comes before 10.
        for words in [0, 1, 40] {
            let mut shares = vec![7; words];
            assert_eq!(second_share(remaining, uegqs, &mut shares), 1);
            assert_eq!(shares, vec![7; words]);
        }
    }
    for (count, words) in [(1, 0), (2, 1), (3, 2), (32, 0), (32, 31)] {
        let mut shares = vec![7; words];
        assert_eq!(second_share(2, &vec![1; count], &mut shares), 10);
        assert_eq!(shares, vec![7; words]);
    }
    // Words beyond are kept.
    let mut shares = [7; 5];
    assert_eq!(second_share(2, &[1, 1, 1], &mut shares), 0);
    assert_eq!(shares, [0, 1, 1, 7, 7]);
    for remaining in [-1_280_000_000, 1_000_000_000] {
        check_shares(remaining, &[1; 32]);
    }
}

#[test]
fn any_words_are_answered_alike() {
    let mut rng = Rng::new(0xE2);
    for _ in 0..20_000 {
        let (count, room) = (rng.below(36), rng.below(40));
        let uegqs = match rng.below(3) {
            0 => rng.words(count),
            _ => (0..count).map(|_| rng.between(0, 10_000_000)).collect(),
        };
        let remaining = rng.word();
        let (mut first, mut second) = (vec![7; room], vec![7; room]);
        let number = share(remaining, &uegqs, &mut first);
        assert_eq!(second_share(remaining, &uegqs, &mut second), number);
        if number != 0 {
            assert!(first == vec![7; room] && second == first);
        }
    }
}

/// X is never, or a day from 9,497 to 36,524.
const BAD_CHANGE_DAYS: [u64; 8] = [
    1,
    9_496,
    36_525,
    75_033,
    1 << 32,
    (1 << 32) + 9_497,
    1 << 63,
    u64::MAX,
];
const GOOD_CHANGE_DAYS: [u64; 7] = [0, 9_497, 9_498, 20_000, 20_001, 36_523, 36_524];

#[test]
fn openings_keep_the_change_day_in_word_7() {
    for first_day in [9_497, 20_000, 36_524] {
        for change_day in GOOD_CHANGE_DAYS {
            let opening = Opening {
                accounts: 2,
                change_day,
                ..Opening::smallest(first_day)
            };
            assert_eq!(size(opening), Some(5_072));
            let mut book = vec![9; 5_073];
            assert_eq!(open(&mut book, opening), Answer::ACCEPTED);
            let (f, x) = (first_day as i64, change_day as i64);
            assert_eq!(book[..9], [395, 2, 1, 1, f, f, 0, x, 0]);
            assert!(book[8..5_072].iter().all(|&word| word == 0));
            assert_eq!(book[5_072], 9);
            let header = judge(&book).unwrap();
            assert_eq!(header.opening(), opening);
            assert!(book[..5_072] == History::new(opening).words());

            let mut short = vec![9; 5_071];
            assert_eq!(open(&mut short, opening), Answer::at(2, 0));
            assert_eq!(short, vec![9; 5_071]);
        }
        for change_day in BAD_CHANGE_DAYS {
            let opening = Opening {
                change_day,
                ..Opening::smallest(first_day)
            };
            // 1 comes before 2, and the size does not depend on X.
            assert_eq!(size(opening), Some(2_760));
            for words in [0, 2_759, 2_760, 3_000] {
                let mut book = vec![9; words];
                assert_eq!(open(&mut book, opening), Answer::at(1, 0));
                assert_eq!(book, vec![9; words]);
            }
        }
    }
}

#[test]
fn word_7_of_a_lent_book() {
    let mut rng = Rng::new(7);
    for (first_day, change_day, closes) in [
        (9_497, 0, 0),
        (9_497, 9_497, 2),
        (20_000, 9_500, 1),
        (20_000, 20_001, 3),
        (36_523, 36_524, 2),
    ] {
        let opening = Opening {
            accounts: 2,
            change_day,
            ..Opening::smallest(first_day)
        };
        let (mut book, history) = kept_book(&mut rng, opening, closes, true);
        let mut bad: Vec<i64> = BAD_CHANGE_DAYS.map(|day| day as i64).to_vec();
        bad.extend(change_day_case().off);
        for word in bad {
            book[7] = word;
            let lent = book.clone();
            assert!(!well_formed(&book), "{word}");
            assert_eq!(submit(&mut book, &[0; 8]), Answer::at(3, 0));
            // Before a file's numbers, 9 and 10.
            assert_eq!(submit(&mut book, &[]), Answer::at(3, 0));
            for words in [0, 3] {
                let mut statement = vec![5; words];
                assert_eq!(close(&mut book, &mut statement), Answer::at(3, 0));
                assert_eq!(statement, vec![5; words]);
            }
            assert_eq!(book, lent);
        }
        let mut good: Vec<i64> = GOOD_CHANGE_DAYS.map(|day| day as i64).to_vec();
        good.extend(change_day_case().fine);
        for word in good {
            book[7] = word;
            assert!(well_formed(&book), "{word}");
            assert_eq!(submit(&mut book, &[0; 8]), Answer::ACCEPTED);
            let number = if history.finished() { 9 } else { 10 };
            assert_eq!(close(&mut book, &mut []), Answer::at(number, 0));
        }
        // Nor is X in a word that is zero.
        book[7] = change_day as i64;
        assert!(well_formed(&book));
        for word in [1, 9_497, 36_524] {
            book[9] = word;
            assert!(!well_formed(&book));
        }
    }
}

/// V is 0. Each account spares 1 kWh a day of which N − 1 are left to share, at
/// 1 cent a kWh.
fn odd_row(accounts: usize, key: &Key) -> DraftRow {
    match key.0 {
        VESTING => even_row(*key, 0, &[0, 0]),
        METER => even_row(*key, 1, &[0, 1]),
        RESIDUAL => even_row(*key, 0, &[1, 0, 0, 1_000]),
        NCC => even_row(*key, 0, &[accounts as i64 - 1]),
        _ => unreachable!("a file has four sections"),
    }
}

/// A book with its history, fed with odd rows.
struct OddBook {
    book: Vec<i64>,
    history: History,
}

impl OddBook {
    fn open(opening: Opening) -> OddBook {
        OddBook {
            book: opened_book(opening),
            history: History::new(opening),
        }
    }

    fn feed(&mut self) {
        let accounts = self.history.accounts();
        let keys = self.history.needed().into_iter();
        let missing = keys.filter(|key| !self.history.is_in_force(key));
        let rows = missing.map(|key| odd_row(accounts, &key)).collect();
        let file = Draft { rows }.bytes();
        assert_eq!(submit(&mut self.book, &file), Answer::ACCEPTED);
        self.history.submitted(&file, 0);
    }

    /// The statement of a close that the history tells too.
    fn close(&mut self) -> Vec<i64> {
        let mut statement = vec![-1; self.history.accounts() + 1];
        let expected = self.history.expected_close(statement.len());
        let answer = close(&mut self.book, &mut statement);
        assert_eq!((answer, statement.clone()), expected);
        self.history.closed(statement.len(), &answer);
        assert!(self.book == self.history.words());
        assert!(self.history.breaches(&self.book).is_empty());
        statement
    }
}

#[test]
fn the_edition_goes_by_the_residual_day() {
    let mut odd = OddBook::open(Opening {
        accounts: 3,
        lag: 2,
        change_day: F + 1,
        ..Opening::smallest(F)
    });
    let mut statements = Vec::new();
    for _ in 0..5 {
        odd.feed();
        statements.push(odd.close());
    }
    let (none, second) = ([0; 4], [0, 48, 48, -96]);
    // The third close is past X, and its residual day is not.
    assert_eq!(statements, [none, none, none, second, second]);
    assert_eq!([64, 72, 80, 6].map(|at| odd.book[at]), [0, 96, 96, -192]);
    assert_eq!(odd.book[7], F as i64 + 1);
}

/// How many closes of a book of two accounts, its last ones, share in the second
/// edition.
fn second_closes(lag: u64, first_day: u64, change_day: u64, closes: usize) -> usize {
    let mut odd = OddBook::open(Opening {
        accounts: 2,
        lag,
        change_day,
        ..Opening::smallest(first_day)
    });
    let mut second = 0;
    for at in 0..closes {
        odd.feed();
        let edition = odd.history.residual_edition();
        assert_eq!(edition.is_some(), at as u64 >= lag);
        let statement = odd.close();
        if edition == Some(Edition::Second) {
            assert_eq!(statement, [0, 48, -48]);
            second += 1;
        } else {
            assert_eq!(statement, [0, 0, 0]);
            assert_eq!(second, 0);
        }
    }
    second
}

#[test]
fn change_days_before_within_and_after_a_run() {
    let first_day = 20_000;
    for (change_day, expected) in [
        (0, 0),
        (9_497, 4),
        (first_day - 1, 4),
        (first_day, 4),
        (first_day + 1, 3),
        (first_day + 3, 1),
        (first_day + 4, 0),
        (first_day + 5, 0),
        (36_524, 0),
    ] {
        for lag in [1, 3] {
            let closes = lag as usize + 4;
            let second = second_closes(lag, first_day, change_day, closes);
            assert_eq!(second, expected, "{lag} {change_day}");
        }
    }
    // The ends of the calendar.
    assert_eq!(second_closes(1, 9_497, 9_497, 3), 2);
    assert_eq!(second_closes(1, 9_497, 9_498, 3), 1);
    assert_eq!(second_closes(1, 36_521, 36_523, 4), 1);
    assert_eq!(second_closes(1, 36_521, 36_524, 4), 0);
}

/// The book's X decides, whatever it was opened with.
#[test]
fn word_7_decides_the_edition() {
    for (word, expected) in [
        (0, [0, 0, 0]),
        (9_497, [0, 48, -48]),
        (20_000, [0, 48, -48]),
        (20_001, [0, 0, 0]),
        (36_524, [0, 0, 0]),
    ] {
        for change_day in [0, 20_000] {
            let mut odd = OddBook::open(Opening {
                accounts: 2,
                change_day,
                ..Opening::smallest(20_000)
            });
            odd.feed();
            odd.close();
            odd.feed();
            odd.book[7] = word;
            let mut statement = [0; 3];
            assert_eq!(close(&mut odd.book, &mut statement).number, 0);
            assert_eq!(statement, expected, "{word}");
            assert_eq!(odd.book[7], word);
        }
    }
}

/// Running sums begin anew in each interval.
#[test]
fn intervals_share_by_themselves() {
    let mut odd = OddBook::open(Opening {
        accounts: 2,
        change_day: F,
        ..Opening::smallest(F)
    });
    odd.feed();
    odd.close();
    // By turns S = 1 with all taken and S = 3 with 2 left, which the second
    // account gets.
    let mut rows: Vec<DraftRow> = odd
        .history
        .needed()
        .iter()
        .map(|key| odd_row(2, key))
        .collect();
    for row in &mut rows {
        for interval in 0..48 {
            let odd_interval = interval % 2 == 1;
            match row.key {
                (RESIDUAL, 1, _) => row.values[4 * interval] = if odd_interval { 2 } else { 0 },
                (NCC, ..) => row.values[interval] = if odd_interval { 2 } else { 1 },
                _ => {}
            }
        }
    }
    let file = Draft { rows }.bytes();
    assert_eq!(submit(&mut odd.book, &file), Answer::ACCEPTED);
    odd.history.submitted(&file, 0);
    assert_eq!(odd.close(), [24, 48, -72]);
}

#[test]
fn settle_keeps_the_first_edition() {
    let rows = |day: i64, residual: bool| {
        let mut keys: Vec<Key> = Vec::new();
        for account in 0..2 {
            keys.extend([(VESTING, account, day), (METER, account, day)]);
            if residual {
                keys.push((RESIDUAL, account, day - 1));
            }
        }
        if residual {
            keys.push((NCC, 0, day - 1));
        }
        keys.iter().map(|key| odd_row(2, key)).collect::<Vec<_>>()
    };
    for first_day in [9_497, 36_523] {
        let opening = Opening {
            accounts: 2,
            // It has no place in the input.
            change_day: first_day,
            ..Opening::smallest(first_day)
        };
        let day = first_day as i64;
        let input = Input::open(opening)
            .submit_rows(&rows(day, false))
            .close()
            .submit_rows(&rows(day + 1, true))
            .close()
            .finish();
        let output = String::from_utf8(settle(&input)).unwrap();
        let last = format!("close 0 {} 96 0 0 0", day + 1);
        assert_eq!(output.lines().last(), Some(&last[..]));
    }
}

#[test]
fn drawn_change_days_are_of_every_kind() {
    let mut rng = Rng::new(0xC4);
    let (mut never, mut before, mut on, mut within, mut after) = (0, 0, 0, 0, 0);
    for _ in 0..2_000 {
        let first_day = rng.pick(&[9_497, 20_000, 36_524]);
        let change_day = change_day(&mut rng, first_day) as i64;
        assert!(change_day == 0 || (9_497..=36_524).contains(&change_day));
        *match change_day - first_day {
            _ if change_day == 0 => &mut never,
            ..0 => &mut before,
            0 => &mut on,
            1..=4 => &mut within,
            5.. => &mut after,
        } += 1;
    }
    for seen in [never, before, on, within, after] {
        assert!(seen > 50, "{never} {before} {on} {within} {after}");
    }
}
