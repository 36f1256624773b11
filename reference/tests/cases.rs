//! The cases of the test program `replay` show what they are for.

use reference::edition::Edition;
use reference::frames::{
    Frame, BOOK_WORDS, LIST_WORDS, LONGEST_FILE, MOST_HOLIDAYS, PACKED_BYTES, PROFILE_WORDS,
};
use reference::generate::cases::cases;
use reference::player::Player;
use reference::variant::Context;
use std::collections::{BTreeMap, BTreeSet};

fn lines(context: Context, frames: &[Frame]) -> Vec<String> {
    let mut player = Player::new(context);
    frames
        .iter()
        .filter_map(|frame| player.play(frame))
        .collect()
}

#[test]
fn every_call_gives_every_number_it_can() {
    let mut positions: BTreeMap<(String, u8), BTreeSet<u64>> = BTreeMap::new();
    for line in lines(Context::RIGHT, &cases()) {
        let mut parts = line.split(' ');
        let name = parts.next().unwrap().to_owned();
        let number = parts.next().unwrap().parse().unwrap();
        let position = parts.next().unwrap().parse().unwrap_or(0);
        positions
            .entry((name, number))
            .or_default()
            .insert(position);
    }
    let expected: [(&str, &[u8]); 17] = [
        ("open", &[0, 1, 2]),
        ("submit", &[0, 3, 4, 5, 6, 7, 8]),
        ("close", &[0, 3, 9, 10, 11]),
        ("price", &[0, 1]),
        ("share", &[0, 1, 10]),
        ("second-share", &[0, 1, 10]),
        ("tranche", &[0, 1]),
        ("profile", &[0, 1, 15]),
        ("pack", &[0, 1, 10]),
        ("unpack", &[0, 1, 10, 16]),
        ("date", &[0, 12]),
        ("day", &[0, 12]),
        ("weekday", &[0, 12]),
        ("statement", &[0, 12, 14]),
        ("business", &[0, 12, 13]),
        ("final", &[0, 12, 13, 14]),
        ("due", &[0, 12, 13, 14]),
    ];
    let expected: BTreeSet<(String, u8)> = expected
        .iter()
        .flat_map(|(name, numbers)| numbers.iter().map(|&number| (name.to_string(), number)))
        .collect();
    assert!(positions.keys().eq(expected.iter()));
    for (name, number, least) in [
        ("submit", 4, 100),
        ("submit", 5, 100),
        ("submit", 6, 10),
        ("submit", 7, 10),
        ("submit", 8, 10),
        ("close", 11, 100),
        // Yes and no.
        ("profile", 0, 2),
        ("unpack", 16, 100),
    ] {
        let found = positions[&(name.to_owned(), number)].len();
        assert!(found >= least, "{name} {number}: {found} positions");
    }
}

#[test]
fn frames_fit_the_program() {
    for frame in cases() {
        match frame {
            Frame::Poke { index, .. } => assert!(index < BOOK_WORDS),
            Frame::Open { lent, .. } => assert!(lent <= BOOK_WORDS),
            Frame::Submit { lent, file } => {
                assert!(lent <= BOOK_WORDS && file.len() <= LONGEST_FILE);
            }
            Frame::Close {
                lent, statement, ..
            } => assert!(lent <= BOOK_WORDS && statement <= LIST_WORDS),
            Frame::Price { meps, ieqs } => {
                assert!(meps.len() <= LIST_WORDS && ieqs.len() <= LIST_WORDS);
            }
            Frame::Share { uegqs, output, .. } => {
                assert!(uegqs.len() <= LIST_WORDS && output <= LIST_WORDS);
            }
            Frame::Profile { quantities, .. } => assert!(quantities.len() <= PROFILE_WORDS),
            Frame::Pack { amounts, output } => {
                assert!(amounts.len() <= LIST_WORDS && output.len() <= PACKED_BYTES);
            }
            Frame::Unpack { fields, output, .. } => {
                assert!(fields.len() <= PACKED_BYTES && output <= LIST_WORDS);
            }
            Frame::BusinessDay(_, holidays)
            | Frame::FinalStatement(_, holidays)
            | Frame::ResidualDue(_, holidays) => assert!(holidays.len() <= MOST_HOLIDAYS),
            _ => {}
        }
    }
}

/// The profiles of 48 quantities among the cases: quantities, T and D.
fn profiles() -> Vec<(Vec<i64>, i64, i64)> {
    let profiles = cases().into_iter().filter_map(|frame| match frame {
        Frame::Profile {
            total,
            contracted,
            quantities,
        } => Some((quantities, total, contracted)),
        _ => None,
    });
    profiles
        .filter(|(quantities, ..)| quantities.len() == 48)
        .collect()
}

/// The cases of later requests come after all earlier ones, whose lines stay.
#[test]
fn later_cases_come_last() {
    let frames = cases();
    let is_profile = |frame: &Frame| matches!(frame, Frame::Profile { .. });
    let first = frames.iter().position(is_profile).unwrap();
    let count = frames[first..].iter().take_while(|frame| is_profile(frame));
    let count = count.count();
    assert!((300..=600).contains(&count), "{count}");

    let (before, after) = frames.split_at(first + count);
    assert!(!after.iter().any(is_profile));
    assert!(!before.iter().any(Frame::has_edition));
    assert!(after[0].has_edition());
    let lines = |frames: &[Frame]| {
        let is_poke = |frame: &&Frame| matches!(frame, Frame::Poke { .. });
        frames.len() - frames.iter().filter(is_poke).count()
    };
    assert_eq!(lines(before), 10_704);
    // The editions, then the reports.
    let ends_editions = |end: &usize| lines(&after[..*end]) == 999;
    let end = (0..after.len()).find(ends_editions).unwrap();
    let (editions, after) = after.split_at(end);
    assert!(bytes(editions) < 1_000_000);
    let first = after.iter().position(Frame::is_packed).unwrap();
    let (reports, packed) = after.split_at(first);
    assert!(matches!(reports[0], Frame::Open { .. }));
    assert_eq!(lines(reports), 80);
    assert!(bytes(reports) < 400_000);
    // Packed decimal, then the rounding differences.
    let count = packed.iter().take_while(|frame| frame.is_packed()).count();
    let (packed, differences) = packed.split_at(count);
    assert!((1_500..=2_500).contains(&packed.len()), "{}", packed.len());
    assert!(bytes(packed) < 600_000);
    assert!(!differences.iter().any(Frame::is_packed));
    assert!(matches!(differences[0], Frame::Open { .. }));
    let count = lines(differences);
    assert!((300..=800).contains(&count), "{count}");
    assert!(bytes(differences) < 1_000_000);
}

/// The bytes of frames in the program's input.
fn bytes(frames: &[Frame]) -> usize {
    let mut bytes = Vec::new();
    frames.iter().for_each(|frame| frame.write(&mut bytes));
    bytes.len()
}

/// The share calls of the second edition: R and UEGQ.
fn second_shares() -> Vec<(i64, Vec<i64>)> {
    let shares = cases().into_iter().filter_map(|frame| match frame {
        Frame::Share {
            edition: Edition::Second,
            remaining,
            uegqs,
            ..
        } => Some((remaining, uegqs)),
        _ => None,
    });
    shares.collect()
}

#[test]
fn second_shares_are_at_every_end() {
    let shares = second_shares();
    let has = |what: fn(i64, i64, &[i64]) -> bool| {
        let mut shares = shares.iter();
        assert!(shares.any(|(remaining, uegqs)| what(*remaining, uegqs.iter().sum(), uegqs)));
    };
    has(|remaining, spare, _| remaining == 1 && spare > 1);
    has(|remaining, spare, _| remaining == spare - 1 && spare > 2);
    has(|remaining, spare, _| remaining == spare && spare > 2);
    has(|remaining, spare, _| remaining == spare + 1 && spare > 2);
    has(|remaining, spare, _| remaining > 0 && spare == 0);
    has(|remaining, _, _| remaining == -1_280_000_000);
    has(|remaining, _, _| remaining == 1_000_000_000);
    has(|remaining, spare, uegqs| remaining == spare - 1 && uegqs == [10_000_000; 32]);
    let divided = |zero_at: fn(&[i64]) -> bool| {
        let mut shares = shares.iter();
        assert!(shares.any(|(remaining, uegqs)| {
            zero_at(uegqs) && (1..uegqs.iter().sum()).contains(remaining)
        }));
    };
    divided(|uegqs| uegqs.first() == Some(&0));
    divided(|uegqs| uegqs.last() == Some(&0));
    divided(|uegqs| uegqs.len() > 2 && uegqs[1] == 0 && uegqs[0] > 0 && uegqs[2] > 0);
}

/// Closes with a residual day before X, on it and after it, those before it past
/// X themselves or not.
#[test]
fn residual_days_stand_everywhere_to_the_change_day() {
    let mut player = Player::new(Context::RIGHT);
    let mut seen = BTreeSet::new();
    let mut opening = None;
    for frame in cases() {
        let line = player.play(&frame);
        match frame {
            Frame::Open { opening: of, .. } => opening = Some(of),
            Frame::Close { .. } => {
                let figures: Vec<i64> = line
                    .iter()
                    .flat_map(|line| line.split(' ').skip(1))
                    .map(|figure| figure.parse().unwrap())
                    .collect();
                let Some(of) = opening.filter(|of| of.change_day != 0 && figures[3] > 0) else {
                    continue;
                };
                let (day, change_day) = (figures[2], of.change_day as i64);
                let residual_day = day - of.lag as i64;
                seen.insert((
                    residual_day.cmp(&change_day),
                    day.cmp(&change_day),
                    (of.first_day as i64).cmp(&change_day),
                ));
            }
            _ => {}
        }
    }
    use std::cmp::Ordering::{Equal, Greater, Less};
    for place in [
        (Less, Less, Less),
        (Less, Equal, Less),
        (Less, Greater, Less),
        (Equal, Greater, Less),
        (Greater, Greater, Less),
        (Equal, Greater, Equal),
        (Greater, Greater, Equal),
        (Greater, Greater, Greater),
    ] {
        assert!(seen.contains(&place), "{place:?}");
    }
}

#[test]
fn each_pair_alone_is_beside_each_limit() {
    let mut seen = BTreeSet::new();
    for (quantities, total, contracted) in profiles() {
        let mut values = quantities.iter().chain([&contracted]);
        let in_range = values.all(|kwh| (0..=10_000_000).contains(kwh));
        if !in_range || quantities.iter().sum::<i64>() != total {
            continue;
        }
        let pairs: Vec<i64> = quantities.chunks(2).map(|pair| pair[0] + pair[1]).collect();
        let low = |pair: i64| 5 * pair < 4 * contracted;
        let high = |pair: i64| 4 * pair > 5 * contracted;
        let mut broken = (0..24).filter(|&at| low(pairs[at]) || high(pairs[at]));
        if let (Some(at), None) = (broken.next(), broken.next()) {
            if low(pairs[at]) && !low(pairs[at] + 1) {
                seen.insert((at, "floor"));
            }
            if high(pairs[at]) && !high(pairs[at] - 1) {
                seen.insert((at, "cap"));
            }
        }
    }
    assert_eq!(seen.len(), 48, "{seen:?}");
}

/// Each half byte of three fields alone has each wrong value.
#[test]
fn each_half_byte_alone_is_wrong() {
    let mut seen = BTreeSet::new();
    for frame in cases() {
        let Frame::Unpack { fields, .. } = frame else {
            continue;
        };
        let halves = fields.iter().flat_map(|byte| [byte >> 4, byte & 15]);
        let mut wrong = halves.enumerate().filter(|(half, value)| match half % 16 {
            15 => ![0xC, 0xD].contains(value),
            _ => *value > 9,
        });
        if let (24, Some(only), None) = (fields.len(), wrong.next(), wrong.next()) {
            seen.insert(only);
        }
    }
    assert_eq!(seen.len(), 3 * (15 * 6 + 14));
}
