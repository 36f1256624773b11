//! Each wrong book is shown by the generated cases.

use reference::book::{open_in, Opening};
use reference::calendar::{date_to_day, date_to_day_in, residual_due_day, residual_due_day_in};
use reference::checker::run;
use reference::close::close_in;
use reference::frames::Frame;
use reference::generate::books::opened_book;
use reference::generate::cases::cases;
use reference::generate::inputs::input;
use reference::generate::lists::{list, List};
use reference::generate::profiles::{profile_case, ProfileCase};
use reference::generate::Rng;
use reference::history::{Breach, LIST_BREACHES};
use reference::profile::{profile, profile_in};
use reference::reference_price::{reference_price, reference_price_in};
use reference::settle::{settle, settle_in};
use reference::share::{second_share, second_share_in, share_in};
use reference::submission::submit_in;
use reference::tranche::tranche_in;
use reference::variant::{
    Context, Variant, WRONG_BOOKS, WRONG_CHANGE_DAYS, WRONG_EDITIONS, WRONG_PROFILES,
    WRONG_REPORTS, WRONG_SHARES, WRONG_SHARE_CALLS, WRONG_WORDS,
};
use reference::wrong_profile::wrong_profile;
use reference::wrong_share::wrong_second_share;
use std::collections::BTreeSet;

const LISTS: usize = 60;

/// The breaches of a variant over the lists, and how many of them it answers
/// unlike the right book.
fn shown(variant: Variant) -> (BTreeSet<Breach>, usize) {
    let mut rng = Rng::new(0x7A1);
    let mut breaches = BTreeSet::new();
    let mut differing = 0;
    for _ in 0..LISTS {
        let list = list(&mut rng);
        let right = run(Context::RIGHT, &list);
        let wrong = run(Context::of(variant), &list);
        assert!(right.breaches.is_empty());
        // Where the outputs differ the checker objects.
        if wrong.outputs != right.outputs {
            assert!(!wrong.breaches.is_empty());
            differing += 1;
        }
        breaches.extend(wrong.breaches);
    }
    (breaches, differing)
}

#[test]
fn the_right_book_differs_nowhere() {
    assert_eq!(shown(Variant::Right), (BTreeSet::new(), 0));
}

#[test]
fn each_wrong_book_differs_and_is_rejected() {
    for variant in WRONG_BOOKS {
        let (breaches, differing) = shown(variant);
        assert!(differing > 0, "{variant:?}");
        let expected = match variant {
            Variant::RoundsEachInterval
            | Variant::WeighsNegativeIeq
            | Variant::PricesResidualAtClosingDay
            | Variant::LoadsResidualWithClosingDayHedges
            | Variant::PostsZerosAfterFirstDay => Some(Breach::Balance),
            Variant::StoresNothing | Variant::SaysAbsentUnsearched => Some(Breach::MissingDatum),
            Variant::InventsResidualCount => Some(Breach::ResidualCount),
            Variant::StoresRowsOfRefusedFile => Some(Breach::RefusalChanged),
            // The list's theorem says nothing of statements nor of refusals.
            Variant::OneStatementForAllDays | Variant::RefusesEverything => None,
            _ => unreachable!("no wrong book"),
        };
        match expected {
            Some(breach) => assert!(breaches.contains(&breach), "{variant:?}: {breaches:?}"),
            None => {
                assert!(LIST_BREACHES
                    .iter()
                    .all(|breach| !breaches.contains(breach)));
                let other = match variant {
                    Variant::OneStatementForAllDays => Breach::Statement,
                    _ => Breach::Answer,
                };
                assert!(breaches.contains(&other), "{variant:?}: {breaches:?}");
            }
        }
    }
}

#[test]
fn each_wrong_book_is_shown_by_settle() {
    for variant in WRONG_BOOKS {
        let mut rng = Rng::new(0x5E77);
        let differs = (0..200).any(|_| {
            let (input, _) = input(&mut rng);
            settle_in(Context::of(variant), &input) != settle(&input)
        });
        assert!(differs, "{variant:?}");
    }
}

#[test]
fn calls_on_no_book_show_their_wrong_variants() {
    let negative = Context::of(Variant::WeighsNegativeIeq);
    let (meps, ieqs) = ([100, 200, 300], [2, 2, -1]);
    assert_eq!(reference_price(&meps, &ieqs).price, 150);
    assert_eq!(reference_price_in(negative, &meps, &ieqs).price, 100);
    let refusing = Context::of(Variant::RefusesEverything);
    assert_eq!(reference_price_in(refusing, &meps, &ieqs).number, 1);
    assert_eq!(share_in(refusing, 1, &[1], &mut [0]), 1);
    assert_eq!(second_share_in(refusing, 1, &[1], &mut [0]), 1);
    assert_eq!(tranche_in(refusing, 1, 1, 1).number, 1);
    assert_eq!(profile_in(refusing, &[1; 48], 48, 2).number, 1);
}

/// Books that share in the wrong edition, in a wrong way or a wrong load have wrong
/// balances, or at least a wrong statement.
#[test]
fn each_wrong_edition_share_and_report_is_rejected() {
    let mut rng = Rng::new(0x2EE);
    let lists: Vec<List> = (0..400).map(|_| list(&mut rng)).collect();
    let wrong = WRONG_EDITIONS.into_iter().chain(WRONG_SHARES);
    for variant in wrong.chain(WRONG_REPORTS) {
        // Lists have no numbers that large.
        if variant == Variant::DividesInDoubles {
            continue;
        }
        let context = Context::of(variant);
        let breach = match variant {
            Variant::StatementInFirstEdition => Breach::Statement,
            _ => Breach::Balance,
        };
        let rejected = |list: &List| run(context, list).breaches.contains(&breach);
        assert!(lists.iter().any(rejected), "{variant:?}");
    }
}

#[test]
fn without_a_slip_the_wrong_second_share_is_right() {
    let mut rng = Rng::new(0x25A);
    for _ in 0..20_000 {
        let (count, room) = (rng.below(36), rng.below(40));
        let uegqs: Vec<i64> = match rng.below(4) {
            0 => rng.words(count),
            _ => (0..count).map(|_| rng.between(0, 9)).collect(),
        };
        let remaining = match rng.below(4) {
            0 => rng.word(),
            _ => rng.between(-1, 9 * count as i64),
        };
        let mut right = vec![7; room];
        let number = second_share(remaining, &uegqs, &mut right);
        for context in [Context::RIGHT, Context::of(Variant::StoresNothing)] {
            let mut shares = vec![7; room];
            let wrong = wrong_second_share(context, remaining, &uegqs, &mut shares);
            assert_eq!((wrong, &shares), (number, &right));
            let mut shares = vec![7; room];
            let answer = second_share_in(context, remaining, &uegqs, &mut shares);
            assert_eq!((answer, &shares), (number, &right));
        }
    }
}

const MOST: i64 = 10_000_000;
/// A stored case in which 160,000,000 × R / S is 1 / S below a whole number.
const NEARLY_WHOLE: (i64, [i64; 32]) = (32 * MOST - 3, {
    let mut uegqs = [MOST; 32];
    uegqs[31] -= 1;
    uegqs
});

/// A slip's shares, told by hand; R and UEGQ are those of a stored case.
const SHARE_SLIPS: [(Variant, i64, &[i64], &[i64]); 22] = [
    (Variant::SumsFromLastAccount, 2, &[1, 1, 1], &[1, 1, 0]),
    (Variant::SumsWithoutAccount, 2, &[1, 1, 1], &[0, 0, 1]),
    (Variant::SharesWhatIsLeft, 2, &[1; 5], &[0, 0, 0, 1, 1]),
    (Variant::RoundsSumsUp, 2, &[1, 1, 1], &[1, 1, 0]),
    (Variant::RoundsSumsToNearest, 2, &[1, 1, 1], &[1, 0, 1]),
    (Variant::RoundsSumWithUp, 2, &[1, 1, 1], &[1, 2, 1]),
    (Variant::RoundsSumBeforeUp, 2, &[1, 1, 1], &[0, 0, 0]),
    (Variant::RoundsDifferenceUp, 1, &[1, 1, 1], &[1, 1, 1]),
    (
        Variant::RoundsDifferenceToNearest,
        2,
        &[1, 1, 1],
        &[1, 1, 1],
    ),
    (
        Variant::RoundsDifferenceToNearest,
        1,
        &[1, 1, 1],
        &[0, 0, 0],
    ),
    (Variant::DividesSumsFirst, 2, &[1, 1, 1], &[0, 0, 2]),
    (Variant::LeftoverToFirst, 2, &[1, 1, 1], &[2, 0, 0]),
    (Variant::LeftoverToLast, 2, &[1, 1, 1], &[0, 0, 2]),
    (Variant::LeftoverToLargest, 2, &[1, 2, 3], &[0, 0, 2]),
    (Variant::LeftoverOneEachFromFirst, 2, &[1, 1, 1], &[1, 1, 0]),
    (Variant::LeftoverOneEachFromLast, 2, &[1, 2, 3], &[0, 0, 2]),
    (Variant::LargestRemaindersFirst, 2, &[1, 1, 1], &[1, 1, 0]),
    (Variant::LargestRemaindersLast, 2, &[1; 5], &[0, 0, 0, 1, 1]),
    (Variant::DividesWhereAllIsTaken, 10, &[1, 2, 3], &[1, 4, 5]),
    (Variant::DividesNegativeLoad, -5, &[1, 2, 3], &[0, -2, -3]),
    (Variant::TakesMagnitudeOfLoad, -5, &[1, 2, 3], &[0, 2, 3]),
    (Variant::SharesWithoutSpare, 10, &[0, 0, 0], &[3, 3, 3]),
];

#[test]
fn wrong_shares_answer_their_slips() {
    let frames = cases();
    let is_stored = |load: i64, list: &[i64]| {
        frames.iter().any(|frame| match frame {
            Frame::Share {
                remaining, uegqs, ..
            } => *remaining == load && uegqs == list,
            _ => false,
        })
    };
    for (variant, remaining, uegqs, expected) in SHARE_SLIPS {
        let mut shares = vec![7; uegqs.len()];
        let number = second_share_in(Context::of(variant), remaining, uegqs, &mut shares);
        assert_eq!((number, &shares[..]), (0, expected), "{variant:?}");
        let mut right = vec![7; uegqs.len()];
        assert_eq!(second_share(remaining, uegqs, &mut right), 0);
        assert!(right != expected, "{variant:?}");
        assert!(is_stored(remaining, uegqs), "{variant:?}");
    }
    let (remaining, uegqs) = NEARLY_WHOLE;
    assert!(is_stored(remaining, &uegqs));
    let (mut right, mut wrong) = ([0; 32], [0; 32]);
    let doubles = Context::of(Variant::DividesInDoubles);
    second_share(remaining, &uegqs, &mut right);
    second_share_in(doubles, remaining, &uegqs, &mut wrong);
    assert_eq!(right[15..17], [MOST - 1, MOST]);
    assert_eq!(wrong[15..17], [MOST, MOST - 1]);

    // Sums of earlier intervals are for closes alone; each other slip is told.
    let told: Vec<Variant> = SHARE_SLIPS.iter().map(|slip| slip.0).collect();
    let others = [Variant::DividesInDoubles, Variant::SumsOfEarlierIntervals];
    for variant in WRONG_SHARES {
        assert!(told.contains(&variant) || others.contains(&variant));
    }
}

#[test]
fn wrong_share_calls_answer_their_slips() {
    let answer = |variant, remaining, uegqs: &[i64], words| {
        let mut shares = vec![7; words];
        let context = Context::of(variant);
        let number = second_share_in(context, remaining, uegqs, &mut shares);
        (number, shares)
    };
    let one = [1, 1, 1];
    let shared = vec![0, 1, 1];
    let none = vec![0; 3];
    let kept = vec![7; 3];
    for (variant, remaining, uegqs, words, expected) in [
        (
            Variant::SecondCallIsFirst,
            2,
            &one[..],
            3,
            (0, none.clone()),
        ),
        (
            Variant::RefusesWithoutSpare,
            2,
            &[0; 3],
            3,
            (1, kept.clone()),
        ),
        (Variant::LoadUnjudged, i64::MIN, &one, 3, (0, none.clone())),
        (Variant::LoadUnjudged, i64::MAX, &one, 3, (0, vec![1; 3])),
        (
            Variant::LoadFromMinusOneBillion,
            -1_000_000_001,
            &one,
            3,
            (1, kept.clone()),
        ),
        (
            Variant::LoadFromMinusOneBillion,
            -1_000_000_000,
            &one,
            3,
            (0, none.clone()),
        ),
        (Variant::RefusesNegativeLoad, -1, &one, 3, (1, kept.clone())),
        (Variant::RefusesNegativeLoad, 0, &one, 3, (0, none.clone())),
        (Variant::TakesNoAccounts, 2, &[], 3, (0, kept.clone())),
        (
            Variant::Refuses32Accounts,
            0,
            &[1; 32],
            32,
            (1, vec![7; 32]),
        ),
        (Variant::Takes33Accounts, 0, &[1; 33], 33, (0, vec![0; 33])),
        (Variant::Takes33Accounts, 0, &[1; 34], 34, (1, vec![7; 34])),
        (
            Variant::UegqsUnjudged,
            9,
            &[-1, MOST + 1],
            2,
            (0, vec![0, 9]),
        ),
        (Variant::TakesNegativeUegqs, 2, &[-1, 4], 2, (0, vec![0, 2])),
        (
            Variant::TakesNegativeUegqs,
            2,
            &[1, MOST + 1],
            2,
            (1, vec![7; 2]),
        ),
        (Variant::TakesLargeUegqs, 2, &[-1, 4], 2, (1, vec![7; 2])),
        (
            Variant::TakesLargeUegqs,
            MOST + 1,
            &[MOST + 1],
            1,
            (0, vec![MOST + 1]),
        ),
        (
            Variant::UegqsUnjudgedWithoutLoad,
            0,
            &[-1, 4, 1],
            3,
            (0, none.clone()),
        ),
        (
            Variant::UegqsUnjudgedWithoutLoad,
            1,
            &[-1, 4, 1],
            3,
            (1, kept.clone()),
        ),
        (
            Variant::LastUegqUnjudged,
            9,
            &[1, 1, -1],
            3,
            (0, vec![1, 1, -1]),
        ),
        (
            Variant::LastUegqUnjudged,
            9,
            &[1, -1, 1],
            3,
            (1, kept.clone()),
        ),
        (
            Variant::OutputBeforeRanges,
            i64::MAX,
            &one,
            2,
            (10, vec![7; 2]),
        ),
        (
            Variant::OutputBeforeRanges,
            i64::MAX,
            &one,
            3,
            (1, kept.clone()),
        ),
        (Variant::NeedsExactOutput, 2, &one, 4, (10, vec![7; 4])),
        (Variant::NeedsExactOutput, 2, &one, 3, (0, shared.clone())),
        (Variant::WritesBeforeTooShort, 2, &one, 2, (10, vec![0, 1])),
        (Variant::ClearsRefusedOutput, 2, &[-1], 3, (1, none)),
        (Variant::ClearsRefusedOutput, 2, &one, 2, (10, vec![7; 2])),
        (
            Variant::ClearsWordsBeyond,
            2,
            &one,
            5,
            (0, vec![0, 1, 1, 0, 0]),
        ),
    ] {
        let answered = answer(variant, remaining, uegqs, words);
        assert_eq!(answered, expected, "{variant:?} {remaining}");
        assert!(WRONG_SHARE_CALLS.contains(&variant));
    }
    let mut shares = [7; 3];
    let second = Context::of(Variant::FirstCallIsSecond);
    assert_eq!(share_in(second, 2, &one, &mut shares), 0);
    assert_eq!(shares[..], shared);
}

/// Word 7 of an opening, or its number if it is refused.
fn opened(variant: Variant, words: usize, opening: Opening) -> Result<i64, u8> {
    let mut book = vec![9; words];
    match open_in(Context::of(variant), &mut book, opening).number {
        0 => Ok(book[7]),
        number => Err(number),
    }
}

#[test]
fn wrong_openings_answer_their_slips() {
    let far = (1 << 32) + 20_000;
    // L = 10: the last close settles day 36,514.
    for (variant, change_day, right, wrong) in [
        (Variant::OpensChangeDay1, 1, Err(1), Ok(1)),
        (Variant::OpensChangeDay9496, 9_496, Err(1), Ok(9_496)),
        (Variant::OpensChangeDay36525, 36_525, Err(1), Ok(36_525)),
        (Variant::OpensEarlyChangeDays, 1, Err(1), Ok(1)),
        (Variant::OpensEarlyChangeDays, 36_525, Err(1), Err(1)),
        (Variant::OpensLateChangeDays, 36_525, Err(1), Ok(36_525)),
        (Variant::OpensLateChangeDays, 9_496, Err(1), Err(1)),
        (Variant::OpensAnyChangeDay, u64::MAX, Err(1), Ok(-1)),
        (Variant::ReadsChangeDayOf32Bits, far, Err(1), Ok(20_000)),
        (Variant::RefusesNever, 0, Ok(0), Err(1)),
        (Variant::RefusesChangeDay9497, 9_497, Ok(9_497), Err(1)),
        (Variant::RefusesChangeDay36524, 36_524, Ok(36_524), Err(1)),
        (
            Variant::RefusesChangeBeforeFirstDay,
            19_999,
            Ok(19_999),
            Err(1),
        ),
        (
            Variant::RefusesChangeBeforeFirstDay,
            20_000,
            Ok(20_000),
            Ok(20_000),
        ),
        (
            Variant::RefusesChangeUpToFirstDay,
            20_000,
            Ok(20_000),
            Err(1),
        ),
        (
            Variant::RefusesChangeUpToFirstDay,
            20_001,
            Ok(20_001),
            Ok(20_001),
        ),
        (
            Variant::RefusesUnreachedChangeDay,
            36_514,
            Ok(36_514),
            Ok(36_514),
        ),
        (
            Variant::RefusesUnreachedChangeDay,
            36_515,
            Ok(36_515),
            Err(1),
        ),
        (Variant::SizeBeforeChangeDay, 1, Err(1), Err(1)),
        (Variant::ChangeDayNotWritten, 20_001, Ok(20_001), Ok(0)),
        (
            Variant::WritesFirstDayForEarlier,
            9_497,
            Ok(9_497),
            Ok(20_000),
        ),
        (Variant::WritesFirstDayForEarlier, 0, Ok(0), Ok(0)),
        (Variant::WritesNeverForUnreached, 36_515, Ok(36_515), Ok(0)),
        (
            Variant::WritesNeverForUnreached,
            36_514,
            Ok(36_514),
            Ok(36_514),
        ),
    ] {
        assert!(WRONG_CHANGE_DAYS.contains(&variant));
        let opening = Opening {
            lag: 10,
            change_day,
            ..Opening::smallest(20_000)
        };
        let words = 20_000;
        assert_eq!(opened(Variant::Right, words, opening), right);
        assert_eq!(opened(variant, words, opening), wrong, "{variant:?}");
        let short = if right == Err(1) { Err(1) } else { Err(2) };
        assert_eq!(opened(Variant::Right, 64, opening), short);
        if variant == Variant::SizeBeforeChangeDay {
            assert_eq!(opened(variant, 64, opening), Err(2));
        }
    }
}

#[test]
fn wrong_judges_of_word_7_answer_their_slips() {
    // A new book: what is submitted is accepted, a close lacks its first row.
    let answers = |variant, word, statement| {
        let context = Context::of(variant);
        let mut book = opened_book(Opening::smallest(20_000));
        book[7] = word;
        let submitted = submit_in(context, &mut book, &[0; 8]).number;
        let mut statement = vec![0; statement];
        (
            submitted,
            close_in(context, &mut book, &mut statement).number,
        )
    };
    let (good, bad) = ((0, 11), (3, 3));
    for (variant, word, right, wrong) in [
        (Variant::WordMustBeZero, 9_497, good, bad),
        (Variant::WordUnjudged, i64::MIN, bad, good),
        (Variant::WordJudgedFromAbove, -1, bad, good),
        (Variant::WordJudgedFromAbove, 9_496, bad, good),
        (Variant::WordJudgedFromAbove, 36_525, bad, bad),
        (Variant::WordJudgedFromBelow, 36_525, bad, good),
        (Variant::WordJudgedFromBelow, 9_496, bad, bad),
        (Variant::WordJudgedFromBelow, -1, bad, bad),
        (Variant::TakesWord1, 1, bad, good),
        (Variant::TakesWord9496, 9_496, bad, good),
        (Variant::TakesWord36525, 36_525, bad, good),
        (Variant::RefusesWord0, 0, good, bad),
        (Variant::RefusesWord9497, 9_497, good, bad),
        (Variant::RefusesWord36524, 36_524, good, bad),
        (Variant::RefusesWordBeforeFirstDay, 19_999, good, bad),
        (Variant::RefusesWordBeforeFirstDay, 20_000, good, good),
        (Variant::RefusesPassedWord, 19_999, good, bad),
        (Variant::RefusesPassedWord, 20_000, good, good),
        (Variant::SubmitLeavesWordUnjudged, 1, bad, (0, 3)),
        (Variant::CloseLeavesWordUnjudged, 1, bad, (3, 11)),
        (Variant::WordJudgedAfterStatement, 1, bad, bad),
    ] {
        assert!(WRONG_WORDS.contains(&variant));
        assert_eq!(answers(Variant::Right, word, 2), right, "{word}");
        assert_eq!(answers(variant, word, 2), wrong, "{variant:?} {word}");
    }
    let late = Variant::WordJudgedAfterStatement;
    assert_eq!(answers(late, 1, 1), (3, 10));
}

#[test]
fn without_a_slip_the_wrong_profile_check_is_right() {
    let mut rng = Rng::new(0x125);
    for _ in 0..50_000 {
        let case = profile_case(&mut rng);
        let ProfileCase {
            quantities,
            total,
            contracted,
        } = &case;
        let right = profile(quantities, *total, *contracted);
        for context in [Context::RIGHT, Context::of(Variant::StoresNothing)] {
            let answer = wrong_profile(context, quantities, *total, *contracted);
            assert_eq!(answer, right, "{case:?}");
            let answer = profile_in(context, quantities, *total, *contracted);
            assert_eq!(answer, right, "{case:?}");
        }
    }
}

#[test]
fn each_wrong_profile_check_is_shown() {
    for variant in WRONG_PROFILES {
        let mut rng = Rng::new(0x80);
        let differs = (0..20_000).any(|_| {
            let case = profile_case(&mut rng);
            let context = Context::of(variant);
            profile_in(context, &case.quantities, case.total, case.contracted)
                != profile(&case.quantities, case.total, case.contracted)
        });
        assert!(differs, "{variant:?}");
    }
}

#[test]
fn wrong_profile_checks_answer_their_slips() {
    let answer = |variant, quantities: &[i64], total, contracted| {
        let answer = profile_in(Context::of(variant), quantities, total, contracted);
        (answer.number, answer.keeps)
    };
    // Pairs of 1,000, and of 0 and 2,000 from the second interval on.
    let turned = [0, 1_000, 1_000, 0].repeat(12);
    let shifted = Variant::PairsFromSecondInterval;
    assert_eq!(answer(Variant::Right, &turned, 24_000, 1_000), (0, true));
    assert_eq!(answer(shifted, &turned, 24_000, 1_000), (0, false));
    let halves = Variant::HalvesLimits;
    assert_eq!(answer(halves, &turned, 24_000, 1_000), (0, false));
    assert_eq!(answer(halves, &[500; 48], 24_000, 1_000), (0, true));
    // D = 3 takes T = 72 alone.
    let by_the_day = Variant::ImpossibleBy19And30;
    for (total, number) in [(57, 15), (58, 0), (72, 0), (90, 0), (91, 15)] {
        assert_eq!(answer(by_the_day, &[1; 48], total, 3).0, number);
    }
    let (short, long) = (Variant::TakesShortProfile, Variant::TakesLongProfile);
    assert_eq!(answer(short, &turned[..47], 24_000, 1_000), (0, true));
    assert_eq!(answer(short, &turned[..46], 24_000, 1_000), (1, false));
    assert_eq!(answer(long, &[500; 49], 24_000, 1_000), (0, true));
    assert_eq!(answer(long, &[500; 50], 24_000, 1_000), (1, false));
    let before = Variant::ImpossibleBeforeRange;
    assert_eq!(answer(before, &[], 30_001, 1_000), (15, false));
    assert_eq!(answer(before, &[-1; 48], 24_000, 1_000), (1, false));
}

#[test]
fn wrong_calendars_answer_their_slips() {
    let year = Context::of(Variant::TakesMagnitudeOfYear);
    assert_eq!(date_to_day_in(year, -2_026, 1, 1), date_to_day(2_026, 1, 1));
    assert_eq!(date_to_day_in(year, i64::MIN, 1, 1).number, 12);
    assert_eq!(residual_due_day_in(year, -2_026, 1, &[]).number, 12);

    let january = residual_due_day(2_026, 1, &[]);
    let year = Context::of(Variant::TakesMagnitudeOfDueYear);
    assert_eq!(residual_due_day_in(year, -2_026, 1, &[]), january);
    assert_eq!(residual_due_day_in(year, 2_026, -1, &[]).number, 12);
    let month = Context::of(Variant::TakesMagnitudeOfDueMonth);
    assert_eq!(residual_due_day_in(month, 2_026, -1, &[]), january);
    assert_eq!(residual_due_day_in(month, -2_026, 1, &[]).number, 12);

    let order = Context::of(Variant::SaysDuePastLastDayBeforeHolidays);
    for (month, number) in [(10, 13), (11, 14), (12, 14), (13, 12)] {
        let answer = residual_due_day_in(order, 2_099, month, &[5, 5]);
        assert_eq!((answer.number, answer.day), (number, 0));
    }
}
