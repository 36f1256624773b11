//! The judge: books a single word off, and words of any kind.

use reference::book::{open, size, well_formed, Opening};
use reference::close::close;
use reference::generate::books::{kept_book, opened_book, word_case};
use reference::generate::Rng;
use reference::layout::Layout;
use reference::numbers::Answer;
use reference::submission::submit;

/// Judges every word's values; whole books refuse with 3 now and then.
fn judge_every_word(rng: &mut Rng, mut book: Vec<i64>) -> (usize, usize) {
    assert!(well_formed(&book));
    let (mut off, mut fine) = (0, 0);
    for index in 0..book.len() {
        let case = word_case(&book, index);
        let kept = book[index];
        for value in case.off {
            book[index] = value;
            assert!(!well_formed(&book), "word {index} from {kept} to {value}");
            off += 1;
            if rng.percent(1) {
                let lent = book.clone();
                assert_eq!(submit(&mut book, &[0; 8]), Answer::at(3, 0));
                let mut statement = [5; 33];
                assert_eq!(close(&mut book, &mut statement), Answer::at(3, 0));
                assert!(book == lent && statement == [5; 33]);
            }
        }
        for value in case.fine {
            book[index] = value;
            assert!(well_formed(&book), "word {index} from {kept} to {value}");
            fine += 1;
        }
        book[index] = kept;
    }
    (off, fine)
}

#[test]
fn a_single_word_off() {
    let mut rng = Rng::new(0xB00C);
    let (mut off, mut fine) = (0, 0);
    for (accounts, lag, horizon, first_day, change_day, closes) in [
        (1, 1, 1, 9_497, 0, 0),
        (2, 1, 1, 9_497, 9_497, 1),
        (1, 1, 2, 9_500, 9_498, 3),
        (1, 2, 1, 36_521, 36_524, 4),
        (1, 2, 2, 36_522, 0, 2),
        (2, 2, 1, 36_524, 20_000, 0),
    ] {
        let opening = Opening {
            accounts,
            lag,
            horizon,
            change_day,
            ..Opening::smallest(first_day)
        };
        let (book, _) = kept_book(&mut rng, opening, closes, closes % 2 == 1);
        let judged = judge_every_word(&mut rng, book);
        off += judged.0;
        fine += judged.1;
    }
    assert!(off > 50_000 && fine > 10_000, "{off} {fine}");
}

#[test]
fn large_books_a_word_off() {
    let mut rng = Rng::new(0xB16);
    let opening = Opening {
        accounts: 32,
        lag: 2,
        horizon: 2,
        change_day: 30_002,
        ..Opening::smallest(30_000)
    };
    let (mut book, _) = kept_book(&mut rng, opening, 5, true);
    for _ in 0..150 {
        let index = rng.below(book.len());
        let kept = book[index];
        let case = word_case(&book, index);
        for (values, expected) in [(case.off, false), (case.fine, true)] {
            for value in values {
                book[index] = value;
                assert_eq!(well_formed(&book), expected, "word {index} to {value}");
            }
        }
        book[index] = kept;
    }
}

/// Word 7 of any value, near-legal ones more often.
#[test]
fn random_words_7() {
    let mut rng = Rng::new(0x77);
    let (mut good, mut bad) = (0, 0);
    for _ in 0..40 {
        let first_day = rng.between(9_497, 36_520) as u64;
        let opening = Opening {
            accounts: 2,
            change_day: rng.pick(&[0, 9_497, first_day, first_day + 1, 36_524]),
            ..Opening::smallest(first_day)
        };
        let closes = rng.below(3);
        let (mut book, _) = kept_book(&mut rng, opening, closes, true);
        for _ in 0..100 {
            let word = match rng.below(4) {
                0 => rng.word(),
                1 => rng.between(-2, 2) + rng.pick(&[0, 9_497, 36_524]),
                2 => -rng.between(9_497, 36_524),
                _ => rng.between(9_000, 40_000),
            };
            book[7] = word;
            let fits = word == 0 || (9_497..=36_524).contains(&word);
            assert_eq!(well_formed(&book), fits, "{word}");
            let expected = Answer::at(if fits { 0 } else { 3 }, 0);
            assert_eq!(submit(&mut book, &[0; 8]), expected);
            let expected = Answer::at(if fits { 10 } else { 3 }, 0);
            assert_eq!(close(&mut book, &mut [0; 2]), expected);
            good += u32::from(fits);
            bad += u32::from(!fits);
        }
    }
    assert!(good > 500 && bad > 500, "{good} {bad}");
}

#[test]
fn words_beyond_the_size_are_not_judged() {
    let mut rng = Rng::new(0xBE);
    let opening = Opening::smallest(9_497);
    let (mut book, _) = kept_book(&mut rng, opening, 1, false);
    book.extend([i64::MIN, 1, 395]);
    assert!(well_formed(&book));
    book.truncate(size(opening).unwrap() as usize);
    assert!(well_formed(&book));
    book.pop();
    assert!(!well_formed(&book));
}

#[test]
fn intervals_of_a_day_may_differ() {
    let opening = Opening::smallest(9_497);
    let mut book = opened_book(opening);
    let layout = Layout::of(opening).unwrap();
    for interval in (0..48).step_by(3) {
        book[layout.ncc_flag_at(9_497, interval)] = 1;
        book[layout.vesting_flag_at(9_497, interval, 0)] = 1 + (interval as i64 / 3) % 4;
        book[layout.meter_flag_at(9_497, interval, 0)] = (interval as i64 / 3) % 5;
        book[layout.residual_flag_at(9_497, interval, 0)] = interval as i64 % 2;
    }
    assert!(well_formed(&book));
}

#[test]
fn any_words_are_answered() {
    let mut rng = Rng::new(0xA11);
    let mut statement = [0; 33];
    for round in 0..3_000 {
        let length = rng.below(if round % 10 == 0 { 6_000 } else { 90 });
        let mut book = rng.words(length);
        // A header that is nearly good leads further in.
        let header = [
            395,
            rng.between(0, 33),
            rng.between(0, 76),
            rng.between(0, 93),
            9_497,
            9_498,
            0,
            rng.pick(&[0, 1, 9_496, 9_497, 20_000, 36_524, 36_525, -9_497]),
            rng.pick(&[0, 1, -499, 500, -500, 501, 16_000]),
        ];
        for (word, value) in book.iter_mut().zip(header) {
            if rng.percent(90) {
                *word = value;
            }
        }
        let lent = book.clone();
        assert!(!well_formed(&book));
        assert_eq!(submit(&mut book, &[0; 8]), Answer::at(3, 0));
        assert_eq!(close(&mut book, &mut statement).number, 3);
        assert!(book == lent && statement == [0; 33]);
    }
}

#[test]
fn any_opening_is_answered() {
    let mut rng = Rng::new(0x09E);
    let (mut accepted, mut short) = (0, 0);
    for _ in 0..20_000 {
        let mut parameter = |low: i64, high: i64| match rng.below(20) {
            0 => rng.draw(),
            1 => rng.pick(&[0, u64::MAX, 1 << 32, 1 << 63]),
            _ => rng.between(low - 1, high + 1) as u64,
        };
        let (accounts, lag, horizon) = (parameter(1, 3), parameter(1, 2), parameter(1, 2));
        let first_day = parameter(36_500, 36_523);
        let change_day = match parameter(0, 4) {
            0..=1 => 0,
            2 => 9_497,
            3 => parameter(9_497, 9_497),
            _ => parameter(36_524, 36_524),
        };
        let length = rng.below(20_000);
        let mut book = vec![-9; length];
        let opening = Opening {
            accounts,
            lag,
            horizon,
            first_day,
            change_day,
        };
        let answer = open(&mut book, opening);
        let fits = (1..=32).contains(&accounts)
            && (1..=75).contains(&lag)
            && (1..=92).contains(&horizon)
            && (9_497..=36_524).contains(&first_day)
            && (change_day == 0 || (9_497..=36_524).contains(&change_day));
        // The paper's size, not the layout's.
        let needed = fits.then(|| 64 + 8 * accounts + 48 * (lag + horizon) * (4 + 24 * accounts));
        let number = match needed {
            None => 1,
            Some(words) if (length as u64) < words => 2,
            Some(_) => 0,
        };
        assert_eq!(answer, Answer::at(number, 0));
        short += u32::from(number == 2);
        if number == 0 {
            assert!(well_formed(&book));
            let words = needed.unwrap() as usize;
            assert_eq!(book[7..9], [change_day as i64, 0]);
            assert!(book[words..].iter().all(|&word| word == -9));
            accepted += 1;
        } else {
            assert!(book.iter().all(|&word| word == -9));
        }
    }
    assert!(accepted > 1_000 && short > 1_000, "{accepted} {short}");
}
