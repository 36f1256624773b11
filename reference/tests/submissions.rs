//! Submission files: every damage, and files of thousands of rows.

use reference::book::{well_formed, Opening};
use reference::generate::books::{kept_book, opened_book};
use reference::generate::files::{every_damage, Draft, Style};
use reference::generate::Rng;
use reference::history::{History, Key, METER, NCC, RESIDUAL, VESTING};
use reference::numbers::Answer;
use reference::submission::submit;

#[test]
fn every_damage_of_a_file() {
    let mut rng = Rng::new(0xDA);
    for (first_day, closes) in [(9_497, 0), (20_000, 2), (36_523, 1)] {
        let opening = Opening::smallest(first_day);
        let (mut book, history) = kept_book(&mut rng, opening, closes, false);
        let day = history.next_day();
        let keys = [VESTING, METER, RESIDUAL, NCC].map(|section| (section, 0, day));
        let draft = Draft::of(&mut rng, Style::Wide, 1, &keys);
        let lent = book.clone();
        let (mut cases, mut numbers) = (0, [0; 9]);
        every_damage(&draft, &history, |file, expected| {
            assert_eq!(submit(&mut book, file), expected, "{} bytes", file.len());
            assert!(book == lent);
            numbers[usize::from(expected.number)] += 1;
            cases += 1;
        });
        assert!(
            cases > 4_000 && numbers[4..].iter().all(|&seen| seen > 0),
            "{cases} {numbers:?}"
        );
        assert_eq!(submit(&mut book, &draft.bytes()), Answer::ACCEPTED);
        assert!(book != lent && well_formed(&book));
    }
}

#[test]
fn the_first_field_at_fault_decides() {
    let opening = Opening::smallest(9_497);
    let mut book = opened_book(opening);
    let day = 9_497_u16.to_le_bytes();
    let mut answers = |bytes: &[&[u8]]| submit(&mut book, &bytes.concat());
    // An account out of range, the day cut.
    assert_eq!(answers(&[&[1, 0, 1]]), Answer::at(5, 2));
    assert_eq!(answers(&[&[1, 0, 0]]), Answer::at(4, 3));
    assert_eq!(answers(&[&[1, 0, 0, 0]]), Answer::at(4, 3));
    // The day is judged before the count, the count before the values.
    assert_eq!(answers(&[&[1, 0, 0, 0, 0, 4]]), Answer::at(6, 3));
    assert_eq!(answers(&[&[1, 0, 0], &day, &[4]]), Answer::at(5, 5));
    assert_eq!(answers(&[&[0, 0, 1, 0, 0], &day, &[0]]), Answer::at(5, 7));
    assert_eq!(answers(&[&[1, 0, 0], &day, &[0]]), Answer::at(4, 6));
    // A value out of range comes before a cut later in the row.
    assert_eq!(
        answers(&[&[1, 0, 0], &day, &[0], &[255; 4]]),
        Answer::at(5, 6)
    );
    assert_eq!(
        answers(&[&[1, 0, 0], &day, &[0], &[255; 3]]),
        Answer::at(4, 6)
    );
    // A row count has no range, its rows are just not there.
    assert_eq!(answers(&[&[0, 0, 0, 0, 255, 255]]), Answer::at(4, 6));
    assert_eq!(answers(&[&[0, 0, 0, 0, 0, 0, 255, 255]]), Answer::at(4, 8));
    // A repeated row is found at its day, before its count.
    let row = [&[0][..], &day, &[0], &[0; 384]].concat();
    assert_eq!(
        answers(&[&[2, 0], &row, &[0], &day, &[9]]),
        Answer::at(7, 391)
    );
    // The same account and day in another section is no repetition.
    let meter = [&[0][..], &day, &[1], &[0; 384]].concat();
    let residual = [&[0][..], &day, &[0; 768]].concat();
    let file = [
        &[1, 0],
        &row[..],
        &[1, 0],
        &meter,
        &[1, 0],
        &residual,
        &[0, 0],
    ]
    .concat();
    assert_eq!(submit(&mut book, &file), Answer::ACCEPTED);
}

#[test]
fn days_open_to_each_section() {
    let mut rng = Rng::new(0x0DE);
    for (first_day, closes) in [
        (9_497, 0),
        (9_497, 1),
        (9_497, 4),
        (36_522, 1),
        (36_522, 3),
        (36_520, 5),
    ] {
        let opening = Opening {
            accounts: 2,
            lag: 2,
            horizon: 3,
            ..Opening::smallest(first_day)
        };
        let (book, history) = kept_book(&mut rng, opening, closes, false);
        let next_day = first_day as i64 + closes as i64;
        for section in [VESTING, METER, RESIDUAL, NCC] {
            let oldest = if section <= METER {
                next_day
            } else {
                (next_day - 2).max(first_day as i64)
            };
            let newest = (next_day + 2).min(36_524);
            for day in next_day - 5..=next_day + 5 {
                let draft = Draft::of(&mut rng, Style::Tiny, 2, &[(section, 0, day)]);
                let number = submit(&mut book.clone(), &draft.bytes()).number;
                let open = oldest <= day && day <= newest;
                assert_eq!(
                    number,
                    if open { 0 } else { 6 },
                    "section {section} day {day} of {next_day}"
                );
                assert_eq!(open, history.open_days(section).contains(&day));
            }
        }
    }
}

#[test]
fn a_revision_replaces_all_that_it_names() {
    let mut rng = Rng::new(0x5E7);
    let opening = Opening {
        accounts: 2,
        horizon: 2,
        ..Opening::smallest(12_000)
    };
    let (mut book, mut history) = kept_book(&mut rng, opening, 3, true);
    let day = history.next_day();
    let keys: Vec<Key> = [VESTING, METER]
        .iter()
        .map(|&section| (section, 1, day))
        .collect();
    for _ in 0..40 {
        // Counts go up and down: unused pairs are zeroed, flags rewritten.
        let file = Draft::of(&mut rng, Style::Wide, 2, &keys).bytes();
        let answer = submit(&mut book, &file);
        assert_eq!(answer, Answer::ACCEPTED);
        history.submitted(&file, answer.number);
        assert!(book == history.words());
    }
}

#[test]
fn a_file_of_thousands_of_rows() {
    let mut rng = Rng::new(0xF11E);
    let opening = Opening {
        accounts: 32,
        horizon: 92,
        ..Opening::smallest(9_497)
    };
    let mut book = opened_book(opening);
    let mut history = History::new(opening);
    let mut keys: Vec<Key> = Vec::new();
    for day in 9_497..9_497 + 92 {
        keys.extend((0..32).map(|account| (RESIDUAL, account, day)));
        keys.push((NCC, 0, day));
    }
    let draft = Draft::of(&mut rng, Style::Wide, 32, &keys);
    let file = draft.bytes();
    assert_eq!(submit(&mut book, &file), Answer::ACCEPTED);
    history.submitted(&file, 0);
    assert!(book == history.words());

    let mut twice = draft.clone();
    twice.rows.push(draft.rows[0].clone());
    let at = 4 + 2 + 32 * 92 * (3 + 768) + 1;
    assert_eq!(submit(&mut book, &twice.bytes()), Answer::at(7, at));
    assert!(book == history.words());
}

/// Bytes changed at random: whatever is refused is whole and good up to the
/// field named, and whatever is accepted stands in the book as its bytes say.
#[test]
fn files_with_bytes_changed_at_random() {
    let mut rng = Rng::new(0xC4A);
    let mut numbers = [0; 9];
    for _ in 0..150 {
        let opening = Opening {
            accounts: rng.pick(&[1, 2, 5]),
            lag: rng.pick(&[1, 2]),
            horizon: rng.pick(&[1, 2]),
            ..Opening::smallest(rng.pick(&[9_497, 36_522]))
        };
        let closes = rng.below(3);
        let (mut book, mut history) = kept_book(&mut rng, opening, closes, false);
        for _ in 0..20 {
            let style = rng.pick(&[Style::Tiny, Style::Wide]);
            let mut file = Draft::random(&mut rng, style, &history, 2).bytes();
            for _ in 0..rng.below(4) {
                // Often a byte of the first row's head.
                let at = if rng.percent(50) {
                    rng.below(8)
                } else {
                    rng.below(file.len())
                };
                file[at] = if rng.percent(50) {
                    file[at] ^ 1
                } else {
                    rng.draw() as u8
                };
            }
            match rng.below(20) {
                0 => file.push(0),
                1 => file.truncate(rng.below(file.len())),
                _ => {}
            }
            let lent = book.clone();
            let Answer {
                number, position, ..
            } = submit(&mut book, &file);
            numbers[usize::from(number)] += 1;
            history.submitted(&file, number);
            assert!(book == history.words() && well_formed(&book));
            assert!(history.breaches(&book).is_empty());
            if number == 0 {
                continue;
            }
            assert!(book == lent);
            let before = submit(&mut book.clone(), &file[..position]);
            match number {
                8 => assert_eq!(before, Answer::ACCEPTED),
                _ => assert_eq!(before, Answer::at(4, position)),
            }
        }
    }
    for number in [0, 4, 5, 6, 8] {
        assert!(numbers[number] > 20, "{numbers:?}");
    }
}
