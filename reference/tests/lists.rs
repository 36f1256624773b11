//! The random checker over lists of calls.

use reference::book::Opening;
use reference::checker::run;
use reference::generate::lists::{list, list_on, long_list};
use reference::generate::Rng;
use reference::variant::Context;

#[test]
fn random_lists_hold() {
    let mut rng = Rng::new(395);
    let (mut lists, mut residual_closes, mut second_closes, mut crossed) = (0, 0, 0, 0);
    let (mut raising, mut lowering) = (0, 0);
    let (mut finished, mut positive, mut negative) = (0, 0, 0);
    let mut numbers = [0; 15];
    for _ in 0..4_000 {
        let list = list(&mut rng);
        let report = run(Context::RIGHT, &list);
        assert!(
            report.breaches.is_empty(),
            "list {lists}: {:?}",
            report.breaches
        );
        lists += 1;
        residual_closes += report.residual_closes;
        second_closes += report.second_closes;
        let crosses = 0 < report.second_closes && report.second_closes < report.residual_closes;
        crossed += u64::from(crosses);
        raising += report.raising;
        lowering += report.lowering;
        finished += u64::from(report.finished);
        positive += report.ties.positive;
        negative += report.ties.negative;
        for (total, seen) in numbers.iter_mut().zip(report.numbers) {
            *total += seen;
        }
    }
    assert!(lists >= 1_000, "{lists}");
    // The lists reach what they are made for.
    assert!(residual_closes > 1_000, "{residual_closes}");
    let first_closes = residual_closes - second_closes;
    assert!(first_closes > 1_000, "{first_closes}");
    assert!(second_closes > 1_000, "{second_closes}");
    assert!(crossed > 200, "{crossed}");
    assert!(raising > 1_000 && lowering > 1_000, "{raising} {lowering}");
    assert!(finished > 50, "{finished}");
    assert!(positive > 100 && negative > 100, "{positive} {negative}");
    for number in [0, 4, 5, 6, 7, 8, 9, 10, 11] {
        assert!(numbers[number] > 100, "{numbers:?}");
    }
}

#[test]
fn a_lag_of_75_is_passed() {
    let mut rng = Rng::new(75);
    for (accounts, horizon, first_day, change_day, second_closes) in [
        (1, 1, 9_497, 0, 0),
        (2, 3, 36_440, 36_444, 6),
        (3, 1, 20_000, 20_080, 0),
    ] {
        let opening = Opening {
            accounts,
            lag: 75,
            horizon,
            change_day,
            ..Opening::smallest(first_day)
        };
        let report = run(Context::RIGHT, &long_list(&mut rng, opening, 85));
        assert!(report.breaches.is_empty(), "{:?}", report.breaches);
        assert_eq!(report.residual_closes, 10);
        assert_eq!(report.second_closes, second_closes);
        assert_eq!(report.finished, first_day == 36_440);
    }
}

#[test]
fn many_accounts_hold() {
    let mut rng = Rng::new(32);
    for (accounts, lag, horizon) in [(32, 1, 1), (17, 2, 4)] {
        let opening = Opening {
            accounts,
            lag,
            horizon,
            change_day: 36_517,
            ..Opening::smallest(36_515)
        };
        let report = run(Context::RIGHT, &long_list(&mut rng, opening, 6));
        assert!(report.breaches.is_empty(), "{:?}", report.breaches);
        assert_eq!(report.residual_closes, 6 - lag);
        assert_eq!(report.second_closes, 4 - lag);
        let report = run(Context::RIGHT, &list_on(&mut rng, opening, 20));
        assert!(report.breaches.is_empty(), "{:?}", report.breaches);
    }
}

#[test]
fn the_largest_book_holds() {
    let mut rng = Rng::new(6_188_672);
    let opening = Opening {
        accounts: 32,
        lag: 75,
        horizon: 92,
        ..Opening::smallest(9_497)
    };
    let report = run(Context::RIGHT, &long_list(&mut rng, opening, 2));
    assert!(report.breaches.is_empty(), "{:?}", report.breaches);
    assert_eq!(report.numbers[0], 4);
}
