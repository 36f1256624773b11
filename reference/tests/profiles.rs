//! Profiles from the load forecasters.

use reference::generate::profiles::{keeping_profile, level_profile, profile_case, ProfileCase};
use reference::generate::Rng;
use reference::profile::profile;

const YES: (u8, bool) = (0, true);
const NO: (u8, bool) = (0, false);
const BAD: (u8, bool) = (1, false);
const IMPOSSIBLE: (u8, bool) = (15, false);

fn answer(quantities: &[i64], total: i64, contracted: i64) -> (u8, bool) {
    let answer = profile(quantities, total, contracted);
    (answer.number, answer.keeps)
}

fn answer_to(case: &ProfileCase) -> (u8, bool) {
    answer(&case.quantities, case.total, case.contracted)
}

/// The answer by the words of the request: a T is possible if pairs as level as
/// can be keep the limits.
fn told(case: &ProfileCase) -> (u8, bool) {
    let quantity = 0..=10_000_000;
    let fits = case.quantities.len() == 48
        && case.quantities.iter().all(|kwh| quantity.contains(kwh))
        && (0..=480_000_000).contains(&case.total)
        && quantity.contains(&case.contracted);
    if !fits {
        return BAD;
    }
    let keeps = |pair: i64| (80 * case.contracted..=125 * case.contracted).contains(&(100 * pair));
    if !keeps(case.total / 24) || !keeps((case.total + 23) / 24) {
        return IMPOSSIBLE;
    }
    let pairs = (1..=47).step_by(2).all(|odd_numbered| {
        let (first, second) = (odd_numbered - 1, odd_numbered);
        keeps(case.quantities[first] + case.quantities[second])
    });
    (
        0,
        pairs && case.quantities.iter().sum::<i64>() == case.total,
    )
}

#[test]
fn pairs_add_to_80_to_125_per_cent() {
    assert_eq!(answer(&[500; 48], 24_000, 1_000), YES);
    assert_eq!(answer(&[400; 48], 19_200, 1_000), YES);
    assert_eq!(answer(&[625; 48], 30_000, 1_000), YES);
    for at in 0..24 {
        for (level, other, total) in [(400, 401, 19_200), (625, 624, 30_000)] {
            let mut quantities = [level; 48];
            // Within a pair it is the sum that counts.
            quantities[2 * at] = other;
            quantities[2 * at + 1] = 2 * level - other;
            assert_eq!(answer(&quantities, total, 1_000), YES);
            // Pairs of 799 and 801, or 1,251 and 1,249.
            let next = (2 * at + 2) % 48;
            quantities = [level; 48];
            quantities[2 * at] = other;
            quantities[next] = 2 * level - other;
            assert_eq!(answer(&quantities, total, 1_000), NO);
        }
    }
}

#[test]
fn all_intervals_add_to_the_total() {
    for total in [23_999, 24_001, 19_200, 30_000] {
        assert_eq!(answer(&[500; 48], total, 1_000), NO);
    }
    let mut quantities = [500; 48];
    quantities[47] = 501;
    assert_eq!(answer(&quantities, 24_000, 1_000), NO);
    assert_eq!(answer(&quantities, 24_001, 1_000), YES);
}

#[test]
fn pairs_begin_at_odd_numbered_intervals() {
    let mut quantities = [0, 1_000, 1_000, 0].repeat(12);
    assert_eq!(answer(&quantities, 24_000, 1_000), YES);
    quantities.rotate_left(1);
    assert_eq!(answer(&quantities, 24_000, 1_000), NO);
    quantities.rotate_left(1);
    assert_eq!(answer(&quantities, 24_000, 1_000), YES);
}

/// D, and the least and the most of a pair in whole kWh.
const LIMITS: [(i64, i64, i64); 16] = [
    (0, 0, 0),
    (1, 1, 1),
    (2, 2, 2),
    (3, 3, 3),
    (4, 4, 5),
    (5, 4, 6),
    (6, 5, 7),
    (7, 6, 8),
    (8, 7, 10),
    (9, 8, 11),
    (10, 8, 12),
    (11, 9, 13),
    (12, 10, 15),
    (1_000, 800, 1_250),
    (9_999_999, 8_000_000, 12_499_998),
    (10_000_000, 8_000_000, 12_500_000),
];

#[test]
fn limits_are_exact() {
    let mut rng = Rng::new(80);
    for (contracted, floor, cap) in LIMITS {
        for total in [24 * floor, 24 * cap] {
            let case = level_profile(&mut rng, total, contracted);
            assert_eq!(answer_to(&case), YES, "{case:?}");
        }
        for total in [24 * floor - 1, 24 * cap + 1] {
            let expected = if total < 0 { BAD } else { IMPOSSIBLE };
            let case = level_profile(&mut rng, total.max(0), contracted);
            let answer = answer(&case.quantities, total, contracted);
            assert_eq!(answer, expected, "{case:?}");
        }
    }
}

/// Which totals the pairs can add to, each on its own from 80 to 125 per cent.
fn totals_of_pairs(contracted: i64, most: usize) -> Vec<bool> {
    let keeps = |pair: &usize| (80 * contracted..=125 * contracted).contains(&(100 * *pair as i64));
    let pairs: Vec<usize> = (0..=most).filter(keeps).collect();
    let mut totals = vec![false; most + 1];
    totals[0] = true;
    for _ in 0..24 {
        let mut next = vec![false; most + 1];
        for (total, _) in totals.iter().enumerate().filter(|(_, reached)| **reached) {
            for pair in pairs.iter().filter(|pair| total + **pair <= most) {
                next[total + pair] = true;
            }
        }
        totals = next;
    }
    totals
}

#[test]
fn impossible_exactly_where_no_pairs_add_to_the_total() {
    let mut rng = Rng::new(30);
    let (mut possible, mut impossible) = (0, 0);
    for contracted in 0..=30 {
        let most = 24 * (5 * contracted / 4) + 30;
        let totals = totals_of_pairs(contracted, most as usize);
        for (total, reached) in totals.into_iter().enumerate() {
            let total = total as i64;
            let level = level_profile(&mut rng, total, contracted);
            let keeping = keeping_profile(&mut rng, contracted);
            let lists = [
                &level.quantities,
                &keeping.quantities,
                &vec![0; 48],
                &vec![10_000_000; 48],
            ];
            for quantities in lists {
                let (number, _) = answer(quantities, total, contracted);
                assert_eq!(number, if reached { 0 } else { 15 }, "{total} {contracted}");
            }
            // Where T is possible there is a profile that keeps the limits.
            let expected = if reached { YES } else { IMPOSSIBLE };
            assert_eq!(answer_to(&level), expected, "{total} {contracted}");
            possible += u64::from(reached);
            impossible += u64::from(!reached);
        }
    }
    assert!(possible > 1_000 && impossible > 1_000);
}

#[test]
fn three_takes_72_alone() {
    for total in 0..=200 {
        let expected = if total == 72 { YES } else { IMPOSSIBLE };
        let case = level_profile(&mut Rng::new(72), total, 3);
        assert_eq!(answer_to(&case), expected, "{total}");
    }
}

#[test]
fn impossible_whatever_the_quantities_are() {
    let mut rng = Rng::new(15);
    for _ in 0..20_000 {
        let case = profile_case(&mut rng);
        let (number, _) = answer_to(&case);
        if number == 1 {
            continue;
        }
        let quantities: Vec<i64> = (0..48).map(|_| rng.between(0, 10_000_000)).collect();
        assert_eq!(answer(&quantities, case.total, case.contracted).0, number);
    }
}

#[test]
fn ranges() {
    for bad in [-1, 10_000_001, i64::MIN, i64::MAX] {
        for at in 0..48 {
            let mut quantities = [500; 48];
            quantities[at] = bad;
            assert_eq!(answer(&quantities, 24_000, 1_000), BAD);
            // The pair's sum being right does not help.
            quantities[at ^ 1] = 1_000_i64.wrapping_sub(bad);
            assert_eq!(answer(&quantities, 24_000, 1_000), BAD);
            // 1 comes before 15.
            assert_eq!(answer(&quantities, 30_001, 1_000), BAD);
        }
        assert_eq!(answer(&[500; 48], 24_000, bad), BAD);
    }
    for bad in [-1, 480_000_001, i64::MIN, i64::MAX] {
        assert_eq!(answer(&[500; 48], bad, 1_000), BAD);
        assert_eq!(answer(&[0; 48], bad, 0), BAD);
        assert_eq!(answer(&[10_000_000; 48], bad, 10_000_000), BAD);
    }
    assert_eq!(answer(&[0; 48], 0, 0), YES);
    assert_eq!(answer(&[0; 48], 480_000_000, 0), IMPOSSIBLE);
    let most = 10_000_000;
    assert_eq!(answer(&[most; 48], 480_000_000, most), IMPOSSIBLE);
    assert_eq!(answer(&[most, 0].repeat(24), 240_000_000, most), YES);
}

#[test]
fn lists_of_48_alone() {
    for count in 0..=64 {
        let expected = if count == 48 { YES } else { BAD };
        assert_eq!(answer(&vec![0; count], 0, 0), expected, "{count}");
        let total = 500 * count as i64;
        let answered = answer(&vec![500; count], total, 1_000);
        assert_eq!(answered, expected, "{count}");
        let expected = if count == 48 { IMPOSSIBLE } else { BAD };
        let answered = answer(&vec![500; count], 30_001, 1_000);
        assert_eq!(answered, expected, "{count}");
    }
}

#[test]
fn random_profiles_are_told() {
    let mut rng = Rng::new(100_000);
    let (mut yes, mut no, mut impossible, mut bad) = (0, 0, 0, 0);
    for _ in 0..100_000 {
        let case = profile_case(&mut rng);
        let expected = told(&case);
        assert_eq!(answer_to(&case), expected, "{case:?}");
        *match expected {
            YES => &mut yes,
            NO => &mut no,
            IMPOSSIBLE => &mut impossible,
            _ => &mut bad,
        } += 1;
    }
    assert!((28_000..=40_000).contains(&yes), "{yes}");
    for count in [no, impossible, bad] {
        assert!(count > 12_000, "{no} {impossible} {bad}");
    }
}

#[test]
fn any_words_are_told() {
    let mut rng = Rng::new(64);
    for _ in 0..20_000 {
        let count = rng.pick(&[47, 48, 48, 48, 49]);
        let case = ProfileCase {
            quantities: rng.words(count),
            total: rng.word(),
            contracted: rng.word(),
        };
        assert_eq!(answer_to(&case), told(&case), "{case:?}");
    }
}

#[test]
fn keeping_profiles_keep() {
    let mut rng = Rng::new(125);
    for contracted in (0..=2_000).chain(9_999_000..=10_000_000) {
        let case = keeping_profile(&mut rng, contracted);
        assert_eq!(answer_to(&case), YES, "{case:?}");
        assert_eq!(told(&case), YES, "{case:?}");
    }
}
