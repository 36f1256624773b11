//! The rounding difference: a close's, and their running sum in word 8.

use reference::book::{judge, open, well_formed, Opening};
use reference::checker::run;
use reference::close::{close, close_in};
use reference::frames::Frame;
use reference::generate::books::{difference_case, kept_book, opened_book};
use reference::generate::cases::cases;
use reference::generate::files::{even_row, Draft, DraftRow};
use reference::generate::inputs::Input;
use reference::generate::lists::{list, List};
use reference::generate::Rng;
use reference::history::{Breach, History, Key, METER, NCC, RESIDUAL, VESTING};
use reference::numbers::Answer;
use reference::player::Player;
use reference::settle::settle;
use reference::submission::{submit, submit_in};
use reference::variant::{Context, Variant, WRONG_BETWEEN_CALLS, WRONG_DIFFERENCES};
use std::collections::BTreeSet;

const F: i64 = 9_497;

fn opening(accounts: usize) -> Opening {
    Opening {
        accounts: accounts as u64,
        ..Opening::smallest(F as u64)
    }
}

/// A row of V 0 that gives the account its base or residual amount, in thousandths.
fn row(key: &Key, base: &[i64], residual: &[i64]) -> DraftRow {
    let (section, account, _) = *key;
    let (mut row, values) = match section {
        VESTING => (even_row(*key, 0, &[0, 0]), vec![1, base[account]]),
        METER => return even_row(*key, 1, &[0, 1]),
        RESIDUAL => (even_row(*key, 0, &[0; 4]), vec![1, 0, 0, residual[account]]),
        NCC => return even_row(*key, 0, &[900]),
        _ => unreachable!("a file has four sections"),
    };
    row.values[20 * values.len()..][..values.len()].copy_from_slice(&values);
    row
}

/// A book with its history.
struct Kept {
    book: Vec<i64>,
    history: History,
}

impl Kept {
    fn open(opening: Opening) -> Kept {
        Kept {
            book: opened_book(opening),
            history: History::new(opening),
        }
    }

    /// Gives what the next close lacks.
    fn feed(&mut self, base: &[i64], residual: &[i64]) {
        let keys = self.history.needed().into_iter();
        let missing: Vec<Key> = keys.filter(|key| !self.history.is_in_force(key)).collect();
        self.give(&missing, base, residual);
    }

    fn give(&mut self, keys: &[Key], base: &[i64], residual: &[i64]) {
        let rows = keys.iter().map(|key| row(key, base, residual)).collect();
        let file = Draft { rows }.bytes();
        assert_eq!(submit(&mut self.book, &file), Answer::ACCEPTED);
        self.history.submitted(&file, 0);
    }

    /// The difference of an accepted close, which the history tells too, and its
    /// statement.
    fn close(&mut self) -> (i64, Vec<i64>) {
        let mut statement = vec![-1; self.history.accounts() + 1];
        let expected = self.history.expected_close(statement.len());
        let answer = close(&mut self.book, &mut statement);
        assert_eq!((answer, statement.clone()), expected);
        assert_eq!(answer.number, 0);
        self.history.closed(statement.len(), &answer);
        assert!(self.book == self.history.words() && well_formed(&self.book));
        assert!(self.history.breaches(&self.book).is_empty());
        (answer.difference, statement)
    }

    fn close_day(&mut self, base: &[i64]) -> i64 {
        self.feed(base, &[0; 32]);
        self.close().0
    }
}

#[test]
fn differences_told_by_hand() {
    let two: [(&[i64], i64); 12] = [
        (&[499], 499),
        (&[500], -500),
        (&[-499], -499),
        (&[-500], 500),
        (&[1_499], 499),
        (&[-1_500], 500),
        (&[7_000], 0),
        (&[499, 499], 998),
        (&[500, 500], -1_000),
        (&[250, 250], 500),
        (&[499, -499], 0),
        (&[500, -499, 1], -998),
    ];
    let many = [
        (vec![500; 32], -16_000),
        (vec![-500; 32], 16_000),
        (vec![499; 31], 15_469),
    ];
    let two = two.map(|(sums, difference)| (sums.to_vec(), difference));
    for (sums, difference) in two.into_iter().chain(many) {
        let mut kept = Kept::open(opening(sums.len()));
        kept.feed(&sums, &[]);
        let (told, statement) = kept.close();
        assert_eq!(told, difference, "{sums:?}");
        // 1,000 times what the MSSL is posted, less its exact amount.
        let exact = -sums.iter().sum::<i64>();
        assert_eq!(1_000 * statement[sums.len()] - exact, difference);
        assert_eq!(kept.book[8], difference);
    }
}

#[test]
fn word_8_runs_through_zero() {
    let mut kept = Kept::open(opening(1));
    assert_eq!(kept.book[8], 0);
    let mut exact = 0;
    for (sum, word) in [
        (500, -500),
        (-499, -999),
        (1_499, -500),
        (-500, 0),
        (-500, 500),
        (0, 500),
        (499, 999),
        (1_500, 499),
        (2_500, -1),
        (1, 0),
    ] {
        let before = kept.book[8];
        assert_eq!(kept.close_day(&[sum]), word - before, "{sum}");
        assert_eq!(kept.book[8], word, "{sum}");
        exact -= sum;
        assert_eq!(1_000 * kept.book[6] - exact, word);
    }
    assert!(kept.book[9..64].iter().all(|&word| word == 0));
}

#[test]
fn residual_amounts_count() {
    for lag in [1, 2] {
        let mut kept = Kept::open(Opening { lag, ..opening(2) });
        for _ in 0..lag {
            assert_eq!(kept.close_day(&[0, 0]), 0);
        }
        for (base, residual, difference) in [
            ([250, 0], [249, 0], 499),
            ([250, 0], [250, 0], -500),
            ([0, -1], [0, -499], 500),
            ([1_000, 0], [-500, 0], -500),
            ([0, 0], [499, 499], 998),
            ([300, 300], [300, 300], -800),
            ([500, 500], [500, -500], 0),
        ] {
            kept.feed(&base, &residual);
            assert_eq!(kept.close().0, difference, "{base:?} {residual:?}");
        }
    }
}

#[test]
fn refused_closes_keep_word_8() {
    let mut kept = Kept::open(opening(2));
    assert_eq!(kept.close_day(&[499, 499]), 998);
    let needed = kept.history.needed();
    for key in &needed {
        let lent = kept.book.clone();
        let (expected, _) = kept.history.expected_close(3);
        assert_eq!(close(&mut kept.book, &mut [0; 3]), expected);
        assert_eq!((expected.number, expected.difference), (11, 0));
        assert_eq!(kept.book, lent);
        kept.give(&[*key], &[-500, -500], &[-1, -1]);
    }
    let lent = kept.book.clone();
    for words in 0..3 {
        let answer = close(&mut kept.book, &mut vec![0; words]);
        assert_eq!(answer, Answer::at(10, 0));
    }
    kept.book[0] = 394;
    assert_eq!(close(&mut kept.book, &mut [0; 3]), Answer::at(3, 0));
    kept.book[0] = 395;
    assert_eq!(kept.book, lent);
    // −501 thousandths each are posted as −1 cent.
    assert_eq!(kept.close().0, 998);
    assert_eq!(kept.book[8], 1_996);

    let mut kept = Kept::open(Opening {
        accounts: 2,
        ..Opening::smallest(36_524)
    });
    assert_eq!(kept.close_day(&[-500, 1]), 501);
    let lent = kept.book.clone();
    for words in [0, 2, 3] {
        let answer = close(&mut kept.book, &mut vec![0; words]);
        assert_eq!(answer, Answer::at(9, 0));
    }
    assert_eq!(kept.book, lent);
}

#[test]
fn openings_write_word_8() {
    for word in [1, -500, i64::MIN, i64::MAX] {
        let mut book = vec![word; 5_072];
        assert_eq!(open(&mut book, opening(2)), Answer::ACCEPTED);
        assert_eq!(book[8], 0);
        assert!(well_formed(&book));
    }
}

/// A book of these accounts with so many days closed, the next one ready.
fn ready(accounts: usize, days: i64) -> Kept {
    let mut kept = Kept::open(opening(accounts));
    for _ in 0..days {
        assert_eq!(kept.close_day(&vec![100; accounts]), 100 * accounts as i64);
    }
    kept.feed(&vec![0; accounts], &vec![0; accounts]);
    kept
}

#[test]
fn word_8_of_a_lent_book() {
    for (accounts, days) in [(1, 0), (1, 1), (1, 2), (2, 0), (2, 3), (32, 1)] {
        let mut kept = ready(accounts, days);
        let bound = 500 * accounts as i64 * days;
        let book = &mut kept.book;
        for word in [
            bound + 1,
            -bound - 1,
            bound + 500,
            -bound - 500 * accounts as i64,
            i64::MIN,
            i64::MIN + 1,
            i64::MAX,
        ]
        .into_iter()
        .chain(difference_case(bound).off)
        {
            book[8] = word;
            let lent = book.clone();
            assert!(!well_formed(book), "{word}");
            assert_eq!(submit(book, &[0; 8]), Answer::at(3, 0));
            // Before a file's numbers and 10.
            assert_eq!(submit(book, &[]), Answer::at(3, 0));
            for words in [0, accounts + 1] {
                let mut statement = vec![5; words];
                assert_eq!(close(book, &mut statement), Answer::at(3, 0));
                assert_eq!(statement, vec![5; words]);
            }
            assert_eq!(*book, lent);
        }
        for word in [bound, -bound, bound / 2, -bound / 3, 0]
            .into_iter()
            .chain(difference_case(bound).fine)
        {
            book[8] = word;
            assert!(well_formed(book), "{word}");
            assert_eq!(submit(book, &[0; 8]), Answer::ACCEPTED);
            assert_eq!(close(book, &mut []), Answer::at(10, 0));
            assert_eq!(book[8], word);
        }
        // The words after it are zero still.
        for index in 9..64 {
            for word in [1, -1, 500, i64::MIN] {
                book[index] = word;
                assert!(!well_formed(book), "word {index} to {word}");
                book[index] = 0;
            }
        }
        assert!(well_formed(book));
    }
}

/// 3 comes before 9, and the bound grows with the last day.
#[test]
fn word_8_of_a_finished_book() {
    let opening = Opening::smallest(36_523);
    let mut kept = Kept::open(opening);
    kept.close_day(&[1]);
    kept.close_day(&[1]);
    for (word, number) in [
        (1_000, 9),
        (-1_000, 9),
        (1_001, 3),
        (-1_001, 3),
        (i64::MIN, 3),
    ] {
        kept.book[8] = word;
        assert_eq!(close(&mut kept.book, &mut []), Answer::at(number, 0));
        assert_eq!(kept.book[8], word);
    }
}

#[test]
fn half_cents_reach_the_bound() {
    for accounts in [1, 3] {
        for (sum, sign) in [(500, -1), (-500, 1), (-7_500, 1)] {
            let mut kept = Kept::open(opening(accounts));
            for day in 1..=6 {
                kept.close_day(&vec![sum; accounts]);
                let bound = 500 * accounts as i64 * day;
                assert_eq!(kept.book[8], sign * bound);
                kept.book[8] += sign;
                assert!(!well_formed(&kept.book));
                kept.book[8] -= sign;
            }
        }
    }
}

/// A close adds to whatever a lent book holds.
#[test]
fn lent_sums_go_on() {
    let mut kept = ready(2, 2);
    let lent = kept.book.clone();
    for word in [-2_000, -1, 0, 7, 2_000] {
        for (sum, difference) in [(500, -1_000), (-500, 1_000), (499, 998), (-499, -998)] {
            kept.book.clone_from(&lent);
            kept.book[8] = word;
            let rows: Vec<DraftRow> = [0, 1]
                .map(|account| row(&(VESTING, account, F + 2), &[sum, sum], &[]))
                .to_vec();
            let file = Draft { rows }.bytes();
            assert_eq!(submit(&mut kept.book, &file), Answer::ACCEPTED);
            let answer = close(&mut kept.book, &mut [0; 3]);
            assert_eq!(answer, Answer::closed(F + 2, 96, difference));
            assert_eq!(kept.book[8], word + difference);
            assert!(well_formed(&kept.book));
        }
    }
}

/// Nearly all days closed: C − F is 27,027, then 27,028.
#[test]
fn the_largest_bounds() {
    for accounts in [1, 32] {
        let mut kept = Kept::open(opening(accounts));
        kept.close_day(&vec![0; accounts]);
        let mut book = kept.book;
        book[5] = 36_524;
        let n = accounts as i64;
        let bound = 13_513_500 * n;
        for sign in [1, -1] {
            book[8] = sign * (bound + 1);
            assert!(!well_formed(&book));
            book[8] = sign * bound;
            assert!(well_formed(&book));
        }
        let (residual, base) = (vec![0; accounts], vec![500; accounts]);
        let mut keys = vec![(NCC, 0, 36_523)];
        for account in 0..accounts {
            keys.extend([(VESTING, account, 36_524), (METER, account, 36_524)]);
            keys.push((RESIDUAL, account, 36_523));
        }
        let rows = keys.iter().map(|key| row(key, &base, &residual)).collect();
        assert_eq!(submit(&mut book, &Draft { rows }.bytes()), Answer::ACCEPTED);
        let answer = close(&mut book, &mut vec![0; accounts + 1]);
        assert_eq!(answer, Answer::closed(36_524, 48 * n, -500 * n));
        assert_eq!(book[8], -13_514_000 * n);
        assert_eq!(judge(&book).unwrap().next_day(), 36_525);
        book[8] -= 1;
        assert!(!well_formed(&book));
    }
}

/// Word 8 of any value, near-legal ones more often.
#[test]
fn random_words_8() {
    let mut rng = Rng::new(0x88);
    let (mut good, mut bad) = (0, 0);
    for _ in 0..40 {
        let accounts = rng.pick(&[1, 2, 5]);
        let opening = Opening {
            accounts,
            ..Opening::smallest(rng.between(9_497, 36_520) as u64)
        };
        let closes = rng.below(4);
        let (mut book, history) = kept_book(&mut rng, opening, closes, true);
        assert!(book == history.words());
        let bound = 500 * accounts as i64 * closes as i64;
        for _ in 0..100 {
            let word = match rng.below(4) {
                0 => rng.word(),
                1 => rng.between(-2, 2) + rng.pick(&[-1, 1]) * bound,
                2 => rng.between(-bound, bound),
                _ => rng.between(-bound - 500, bound + 500),
            };
            book[8] = word;
            let fits = word >= -bound && word <= bound;
            assert_eq!(well_formed(&book), fits, "{word}");
            let expected = Answer::at(if fits { 0 } else { 3 }, 0);
            assert_eq!(submit(&mut book, &[0; 8]), expected);
            let expected = Answer::at(if fits { 10 } else { 3 }, 0);
            assert_eq!(close(&mut book, &mut [0; 1]), expected);
            good += u32::from(fits);
            bad += u32::from(!fits);
        }
    }
    assert!(good > 500 && bad > 500, "{good} {bad}");
}

/// The two breaches of the list: of word 8, and of what the closes told.
#[test]
fn the_history_fixes_word_8() {
    let mut kept = Kept::open(opening(2));
    for sums in [[499, 1], [-500, 0], [250, -250]] {
        kept.close_day(&sums);
    }
    let (word, returned) = (Breach::Difference, Breach::ReturnedDifferences);
    for off in [1, -1, 500, -1_000] {
        kept.book[8] = 1_000 + off;
        let breaches = kept.history.breaches(&kept.book);
        assert_eq!(breaches, BTreeSet::from([word, returned]));
    }
    kept.book[8] = 1_000;
    // A close that tells another difference; one more that makes up for it.
    for (told, breaches) in [(-499, vec![returned]), (-501, vec![])] {
        kept.feed(&[500, 0], &[0, 0]);
        let mut answer = close(&mut kept.book, &mut [0; 3]);
        assert_eq!(answer.difference, -500);
        answer.difference = told;
        kept.history.closed(3, &answer);
        let found = kept.history.breaches(&kept.book);
        assert_eq!(found, breaches.into_iter().collect());
    }
    // One that tells what it wrongly adds.
    kept.feed(&[500, 0], &[0, 0]);
    let context = Context::of(Variant::DifferenceReversed);
    let answer = close_in(context, &mut kept.book, &mut [0; 3]);
    assert_eq!(answer.difference, 500);
    kept.history.closed(3, &answer);
    let found = kept.history.breaches(&kept.book);
    assert_eq!(found, BTreeSet::from([word]));
    // A refused close that tells one.
    kept.book[8] -= 1_000;
    let answer = Answer {
        difference: -1_000,
        ..Answer::at(11, kept.history.expected_close(3).0.position)
    };
    kept.history.closed(3, &answer);
    assert!(kept.history.breaches(&kept.book).is_empty());
}

#[test]
fn settle_prints_no_difference() {
    let keys = [(VESTING, 0, F), (METER, 0, F)];
    for (sum, cents) in [(499, 0), (500, 1), (-500, -1)] {
        let rows = keys.map(|key| row(&key, &[sum], &[]));
        let input = Input::open(opening(1)).submit_rows(&rows).close().finish();
        let output = String::from_utf8(settle(&input)).unwrap();
        let last = format!("close 0 9497 0 {cents} {}", -cents);
        assert_eq!(output.lines().last(), Some(&last[..]));
    }
}

/// Base and residual amounts of three accounts that leave −500, 499 and −300.
const BASES: [i64; 3] = [250, 1_000, 350];
const RESIDUALS: [i64; 3] = [250, 499, 350];
const RIGHT: i64 = -301;
/// What word 8 holds before.
const BEFORE: i64 = 1_000;

/// A slip's word 8 after that day, and what its close tells.
const SLIPS: [(Variant, i64, i64); 20] = [
    (Variant::Right, 699, -301),
    (Variant::DifferenceReversed, 1_301, 301),
    (Variant::DifferenceWithoutFirstAccount, 1_199, 199),
    (Variant::DifferenceWithoutLastAccount, 999, -1),
    (Variant::DifferenceOfRoundedAmounts, 1_000, 0),
    // 2,699 thousandths are 3 cents.
    (Variant::DifferenceOfSum, 699, -301),
    (Variant::DifferenceOfMagnitudes, 2_299, 1_299),
    (Variant::DifferenceOfCutAmounts, 2_699, 1_699),
    (Variant::DifferenceOfFlooredAmounts, 2_699, 1_699),
    (Variant::DifferenceWithTiesTowardZero, 1_699, 699),
    (Variant::DifferenceWithoutResiduals, 1_600, 600),
    (Variant::DifferenceOfPartsApart, 2_699, 1_699),
    (Variant::DifferenceInCents, 1_000, 0),
    (Variant::Word8Overwritten, -301, -301),
    (Variant::Word8NotGrown, 1_000, -301),
    (Variant::Word8GrowsReversed, 1_301, -301),
    (Variant::TellsRunningSum, 699, 699),
    (Variant::TellsSumBefore, 699, 1_000),
    (Variant::TellsNoDifference, 699, 0),
    (Variant::TellsReversedDifference, 699, 301),
];

/// Word 8 and the answer of a close of these amounts.
fn slipped(variant: Variant, base: &[i64], residual: &[i64]) -> (i64, i64) {
    let accounts = base.len();
    let mut kept = Kept::open(opening(accounts));
    for _ in 0..2 {
        kept.close_day(&vec![0; accounts]);
    }
    kept.feed(base, residual);
    kept.book[8] = BEFORE;
    let mut statement = vec![0; accounts + 1];
    let answer = close_in(Context::of(variant), &mut kept.book, &mut statement);
    let residuals = 48 * accounts as i64;
    let expected = Answer::closed(F + 2, residuals, answer.difference);
    assert_eq!(answer, expected, "{variant:?}");
    (kept.book[8], answer.difference)
}

#[test]
fn wrong_differences_answer_their_slips() {
    for (variant, word, told) in SLIPS {
        let answered = slipped(variant, &BASES, &RESIDUALS);
        assert_eq!(answered, (word, told), "{variant:?}");
    }
    assert_eq!(BEFORE + RIGHT, 699);
    // Where these differ from the others: 998 is a cent, −499 rounded down is −1.
    let sum = slipped(Variant::DifferenceOfSum, &[499, 499], &[0, 0]);
    assert_eq!(sum, (998, -2));
    let cut = slipped(Variant::DifferenceOfCutAmounts, &[-501, 0], &[0, 0]);
    assert_eq!(cut, (499, -501));
    let floored = slipped(Variant::DifferenceOfFlooredAmounts, &[-499, 0], &[0, 0]);
    assert_eq!(floored, (1_501, 501));
    let cents = slipped(Variant::DifferenceInCents, &[499, 499, 499], &[0, 0, 0]);
    assert_eq!(cents, (1_001, 1));
    let ties = slipped(Variant::DifferenceWithTiesTowardZero, &[-500, 499], &[0, 0]);
    assert_eq!(ties, (999, -1));
}

/// Number, told difference and word 8 of a refused close of a book whose word 8 is
/// 998 and whose next day would leave 499 by its base amounts, −500 with those of r.
fn refused(variant: Variant, given: usize, words: usize) -> (u8, i64, i64) {
    let mut kept = Kept::open(opening(2));
    kept.close_day(&[499, 499]);
    let needed = kept.history.needed();
    kept.give(&needed[..given], &[499, 0], &[1, 0]);
    let context = Context::of(variant);
    let answer = close_in(context, &mut kept.book, &mut vec![0; words]);
    assert_eq!((answer.day, answer.residual_count), (0, 0));
    (answer.number, answer.difference, kept.book[8])
}

#[test]
fn wrong_refusals_answer_their_slips() {
    // Seven rows are needed, the first four being those of the day itself.
    for (variant, given, words, expected) in [
        (Variant::Right, 4, 3, (11, 0, 998)),
        (Variant::Right, 7, 2, (10, 0, 998)),
        (Variant::TellsSumWhenRefused, 0, 3, (11, 998, 998)),
        (Variant::TellsSumWhenRefused, 0, 2, (10, 998, 998)),
        (Variant::TellsDifferenceWhenTooShort, 7, 2, (10, -500, 998)),
        (Variant::TellsDifferenceWhenTooShort, 6, 2, (10, 0, 998)),
        (Variant::TellsDifferenceWhenTooShort, 6, 3, (11, 0, 998)),
        (Variant::Word8GrownWhenTooShort, 7, 2, (10, 0, 498)),
        (Variant::Word8GrownWhenTooShort, 6, 2, (10, 0, 998)),
        (Variant::Word8GrownWhenTooShort, 6, 3, (11, 0, 998)),
        (Variant::TellsDifferenceWhenAbsent, 4, 3, (11, 499, 998)),
        (Variant::TellsDifferenceWhenAbsent, 6, 3, (11, 499, 998)),
        (Variant::TellsDifferenceWhenAbsent, 3, 3, (11, 0, 998)),
        (Variant::TellsDifferenceWhenAbsent, 7, 2, (10, 0, 998)),
        (Variant::Word8GrownWhenAbsent, 4, 3, (11, 0, 1_497)),
        (Variant::Word8GrownWhenAbsent, 3, 3, (11, 0, 998)),
        (Variant::Word8GrownWhenAbsent, 7, 2, (10, 0, 998)),
    ] {
        let answered = refused(variant, given, words);
        assert_eq!(answered, expected, "{variant:?} {given} {words}");
    }
    // A finished book.
    let mut kept = Kept::open(Opening::smallest(36_524));
    kept.close_day(&[499]);
    let context = Context::of(Variant::TellsSumWhenRefused);
    let answer = close_in(context, &mut kept.book, &mut []);
    assert_eq!((answer.number, answer.difference), (9, 499));
    kept.book[0] = 394;
    assert_eq!(close_in(context, &mut kept.book, &mut []), Answer::at(3, 0));
}

#[test]
fn a_wrong_opening_answers_its_slip() {
    let mut book = vec![7; 5_072];
    let context = Context::of(Variant::OpeningKeepsWord8);
    let answer = reference::book::open_in(context, &mut book, opening(2));
    assert_eq!((answer, book[8]), (Answer::ACCEPTED, 7));
}

#[test]
fn wrong_judges_of_word_8_answer_their_slips() {
    // N is 2; the book is ready, so that a close lacks room alone.
    let answers = |variant, days, index: usize, word| {
        let mut book = ready(2, days).book;
        book[index] = word;
        let context = Context::of(variant);
        let submitted = submit_in(context, &mut book, &[0; 8]).number;
        (submitted, close_in(context, &mut book, &mut []).number)
    };
    let (good, bad) = ((0, 10), (3, 3));
    for (variant, days, word, right, wrong) in [
        (Variant::Word8Unjudged, 0, i64::MIN, bad, good),
        (Variant::Word8Unjudged, 2, i64::MAX, bad, good),
        (Variant::Word8MustBeZero, 1, 1, good, bad),
        (Variant::Word8MustBeZero, 1, 0, good, good),
        (Variant::Word8JudgedFromAbove, 1, i64::MIN, bad, good),
        (Variant::Word8JudgedFromAbove, 1, 1_001, bad, bad),
        (Variant::Word8JudgedFromBelow, 1, i64::MAX, bad, good),
        (Variant::Word8JudgedFromBelow, 1, -1_001, bad, bad),
        (Variant::BoundExclusive, 1, 1_000, good, bad),
        (Variant::BoundExclusive, 1, -1_000, good, bad),
        (Variant::BoundExclusive, 1, 999, good, good),
        (Variant::BoundExclusive, 0, 0, good, good),
        (Variant::BoundExclusive, 0, 1, bad, bad),
        (Variant::BoundOfDayMore, 1, 2_000, bad, good),
        (Variant::BoundOfDayMore, 1, 2_001, bad, bad),
        (Variant::BoundOfDayMore, 0, -1_000, bad, good),
        (Variant::BoundOfDayLess, 2, 1_001, good, bad),
        (Variant::BoundOfDayLess, 2, -1_000, good, good),
        (Variant::BoundOfDayLess, 0, 0, good, good),
        (Variant::BoundOfOneDayAtLeast, 0, 1_000, bad, good),
        (Variant::BoundOfOneDayAtLeast, 0, 1_001, bad, bad),
        (Variant::BoundOfOneDayAtLeast, 1, 1_001, bad, bad),
        (Variant::BoundWithoutAccounts, 1, 501, good, bad),
        (Variant::BoundWithoutAccounts, 1, -500, good, good),
        (Variant::BoundOf499, 2, 1_997, good, bad),
        (Variant::BoundOf499, 2, 1_996, good, good),
        (Variant::BoundOf1000, 1, 2_000, bad, good),
        (Variant::BoundOf1000, 1, -2_001, bad, bad),
        (Variant::SubmitLeavesWord8Unjudged, 1, 1_001, bad, (0, 3)),
        (Variant::CloseLeavesWord8Unjudged, 1, 1_001, bad, (3, 10)),
        (Variant::Word8JudgedAfterStatement, 1, 1_001, bad, (3, 10)),
    ] {
        assert_eq!(answers(Variant::Right, days, 8, word), right, "{word}");
        let answered = answers(variant, days, 8, word);
        assert_eq!(answered, wrong, "{variant:?} {word}");
    }
    let late = Context::of(Variant::Word8JudgedAfterStatement);
    let mut book = ready(2, 1).book;
    book[8] = 1_001;
    assert_eq!(close_in(late, &mut book, &mut [0; 3]), Answer::at(3, 0));
    assert_eq!(answers(Variant::Word9Unjudged, 1, 9, 1), good);
    assert_eq!(answers(Variant::Word9Unjudged, 1, 10, 1), bad);
    assert_eq!(answers(Variant::Word9Unjudged, 1, 8, 1_001), bad);
    assert_eq!(answers(Variant::Right, 1, 9, 1), bad);
}

/// The breach that tells a wrong difference of lists of calls, where such lists can:
/// their books are opened and not lent.
fn breach(variant: Variant) -> Option<Breach> {
    match variant {
        Variant::Word8Overwritten | Variant::Word8NotGrown | Variant::Word8GrowsReversed => {
            Some(Breach::ReturnedDifferences)
        }
        Variant::Word8GrownWhenTooShort | Variant::Word8GrownWhenAbsent => {
            Some(Breach::RefusalChanged)
        }
        Variant::OpeningKeepsWord8 => Some(Breach::Words),
        Variant::TellsRunningSum
        | Variant::TellsSumBefore
        | Variant::TellsNoDifference
        | Variant::TellsReversedDifference
        | Variant::TellsSumWhenRefused
        | Variant::TellsDifferenceWhenTooShort
        | Variant::TellsDifferenceWhenAbsent => Some(Breach::ReturnedDifferences),
        Variant::Word8MustBeZero
        | Variant::BoundExclusive
        | Variant::BoundOfDayLess
        | Variant::BoundWithoutAccounts
        | Variant::BoundOf499 => Some(Breach::Answer),
        Variant::Word8Unjudged
        | Variant::Word8JudgedFromAbove
        | Variant::Word8JudgedFromBelow
        | Variant::BoundOfDayMore
        | Variant::BoundOfOneDayAtLeast
        | Variant::BoundOf1000
        | Variant::SubmitLeavesWord8Unjudged
        | Variant::CloseLeavesWord8Unjudged
        | Variant::Word8JudgedAfterStatement
        | Variant::Word9Unjudged => None,
        _ => Some(Breach::Difference),
    }
}

#[test]
fn wrong_differences_are_rejected() {
    let mut rng = Rng::new(0x8D1);
    let lists: Vec<List> = (0..250).map(|_| list(&mut rng)).collect();
    for variant in WRONG_DIFFERENCES {
        let reports = lists.iter().map(|list| run(Context::of(variant), list));
        let mut breaches = BTreeSet::new();
        reports.for_each(|report| breaches.extend(report.breaches));
        match breach(variant) {
            Some(breach) => assert!(breaches.contains(&breach), "{variant:?}: {breaches:?}"),
            None => assert!(breaches.is_empty(), "{variant:?}: {breaches:?}"),
        }
        // A day's difference is wrong in word 8 and in the answer alike.
        if breach(variant) == Some(Breach::Difference) {
            let between_calls = WRONG_BETWEEN_CALLS.contains(&variant);
            assert!(!breaches.contains(&Breach::ReturnedDifferences));
            assert_eq!(breaches.contains(&Breach::IllFormed), between_calls);
        }
    }
}

/// The cases' frames of the differences, which come after packed decimal, book by
/// book.
fn difference_books() -> Vec<Vec<Frame>> {
    let frames = cases();
    let packed = frames.iter().rposition(Frame::is_packed).unwrap();
    let mut books: Vec<Vec<Frame>> = Vec::new();
    for frame in frames.into_iter().skip(packed + 1) {
        match (&frame, books.last_mut()) {
            (Frame::Open { .. }, _) | (_, None) => books.push(vec![frame]),
            (_, Some(book)) => book.push(frame),
        }
    }
    books
}

/// What a close printed: number, position, day, count and difference.
fn figures(line: &str) -> Option<[i64; 5]> {
    let mut figures = line.strip_prefix("close ")?.split(' ');
    Some([(); 5].map(|()| figures.next().unwrap().parse().unwrap()))
}

#[test]
fn the_cases_show_each_wrong_difference() {
    let frames: Vec<Frame> = difference_books().concat();
    let play = |variant| {
        let mut player = Player::new(Context::of(variant));
        let lines = frames.iter().filter_map(|frame| player.play(frame));
        lines.collect::<Vec<_>>()
    };
    let right = play(Variant::Right);
    assert!((300..=800).contains(&right.len()), "{}", right.len());
    for variant in WRONG_DIFFERENCES {
        let wrong = play(variant);
        let differing = wrong.iter().zip(&right).filter(|(a, b)| a != b).count();
        assert!(differing >= 1, "{variant:?}");
        // What it tells is seen in the figure and not in the book.
        if breach(variant) == Some(Breach::ReturnedDifferences) {
            let told = |lines: &[String]| -> Vec<i64> {
                let figures = lines.iter().filter_map(|line| figures(line));
                figures.map(|figures| figures[4]).collect()
            };
            let in_book = matches!(
                variant,
                Variant::Word8Overwritten | Variant::Word8NotGrown | Variant::Word8GrowsReversed
            );
            assert_eq!(told(&wrong) == told(&right), in_book, "{variant:?}");
        }
    }
}

#[test]
fn the_cases_have_differences_of_every_kind() {
    let mut player = Player::new(Context::RIGHT);
    let (mut left, mut refused, mut words) = (BTreeSet::new(), BTreeSet::new(), BTreeSet::new());
    let mut crossings = 0;
    for frame in difference_books().concat() {
        let before = player.book()[8];
        let Some(line) = player.play(&frame) else {
            continue;
        };
        let after = player.book()[8];
        let Some([number, _, _, count, difference]) = figures(&line) else {
            continue;
        };
        let accounts = player.book()[1];
        if number == 0 {
            assert_eq!(after - before, difference);
            left.insert((accounts, count > 0, difference));
            words.insert(after.signum());
            crossings += u32::from(before.signum() * after.signum() < 0);
        } else {
            assert_eq!((after, difference), (before, 0));
            refused.insert((number, before != 0));
        }
    }
    for accounts in [1, 2, 3, 5] {
        for each in [499, -499, 500, -500] {
            assert!(left.contains(&(accounts, true, accounts * each)));
        }
    }
    assert!(left.contains(&(32, false, -16_000)));
    assert_eq!(words, BTreeSet::from([-1, 0, 1]));
    assert!(crossings >= 4, "{crossings}");
    for number in [3, 9, 10, 11] {
        assert!(refused.contains(&(number, true)), "{number}");
    }
}
