//! The close on books whose intervals differ, and calls that hold no book.

use reference::book::{well_formed, Opening};
use reference::close::close;
use reference::generate::books::{kept_book, opened_book};
use reference::generate::files::{Draft, DraftRow};
use reference::generate::Rng;
use reference::history::{METER, VESTING};
use reference::layout::Layout;
use reference::numbers::Answer;
use reference::reference_price::reference_price;
use reference::share::share;
use reference::submission::submit;
use reference::tranche::tranche;

/// The flags that a close searches, in order, with the words each covers.
fn searched(opening: Opening, closes: usize) -> Vec<(usize, usize)> {
    let layout = Layout::of(opening).unwrap();
    let accounts = 0..layout.accounts();
    let first_day = opening.first_day as i64;
    let day = first_day + closes as i64;
    let residual_day = day - opening.lag as i64;
    let mut flags = Vec::new();
    for interval in 0..48 {
        for account in accounts.clone() {
            flags.push((layout.vesting_flag_at(day, interval, account), 9));
            flags.push((layout.meter_flag_at(day, interval, account), 9));
        }
        if residual_day >= first_day {
            flags.push((layout.ncc_flag_at(residual_day, interval), 1));
            for account in accounts.clone() {
                flags.push((layout.residual_flag_at(residual_day, interval, account), 5));
            }
        }
    }
    flags
}

#[test]
fn the_first_absent_flag_of_a_lent_book() {
    let mut rng = Rng::new(0x5EA);
    let mut residual_flags = 0;
    for _ in 0..250 {
        let (accounts, lag, horizon) = (rng.between(1, 3), rng.between(1, 2), rng.between(1, 2));
        let closes = rng.below(4);
        let opening = Opening {
            accounts: accounts as u64,
            lag: lag as u64,
            horizon: horizon as u64,
            ..Opening::smallest(9_497)
        };
        let (mut book, _) = kept_book(&mut rng, opening, closes, true);
        let flags = searched(opening, closes);
        let mut first = usize::MAX;
        for _ in 0..rng.between(1, 3) {
            let hole = rng.below(flags.len());
            let (flag, words) = flags[hole];
            if words == 1 {
                book[flag - 1] = 0;
            }
            book[flag..flag + words].fill(0);
            first = first.min(hole);
        }
        residual_flags += u32::from(flags[first].1 != 9);
        assert!(well_formed(&book));
        let lent = book.clone();
        let mut statement = [7; 5];
        assert_eq!(
            close(&mut book, &mut statement),
            Answer::at(11, flags[first].0)
        );
        assert!(book == lent && statement == [7; 5]);
    }
    assert!(residual_flags > 20, "{residual_flags}");
}

#[test]
fn residuals_before_the_first_day_are_not_searched() {
    let mut rng = Rng::new(0xF1);
    let opening = Opening {
        lag: 2,
        ..Opening::smallest(9_497)
    };
    for (closes, count) in [(0, 0), (1, 0), (2, 48)] {
        let (mut book, _) = kept_book(&mut rng, opening, closes, true);
        let answer = close(&mut book, &mut [0; 2]);
        assert_eq!((answer.number, answer.residual_count), (0, count));
    }
}

#[test]
fn each_interval_has_its_own_counts() {
    let opening = Opening::smallest(9_497);
    let layout = Layout::of(opening).unwrap();
    let mut book = opened_book(opening);
    let row = |section, count, interval: &[i64]| DraftRow {
        key: (section, 0, 9_497),
        count,
        values: interval.repeat(48),
    };
    // V is 101 in every interval, BVP 0 for 1,000 kWh.
    let rows = vec![row(VESTING, 0, &[1_000, 0]), row(METER, 1, &[101, 0])];
    assert_eq!(submit(&mut book, &Draft { rows }.bytes()).number, 0);
    // In interval 2 a second facility: the plain average of 101 and 104 is 103.
    let entry = layout.entry_at(9_497, 2, 0);
    book[entry + 9] = 2;
    book[entry + 12] = 104;
    // In interval 3 a tender of 10 kWh at 1,101.
    let entry = layout.entry_at(9_497, 3, 0);
    book[entry] = 2;
    book[entry + 3] = 10;
    book[entry + 4] = 1_101;
    let mut statement = [0; 2];
    assert_eq!(close(&mut book, &mut statement).number, 0);
    let cents = 47 * -101 - 103 + 10;
    assert_eq!(statement, [cents, -cents]);
}

#[test]
fn shares_and_tranches_over_their_ranges() {
    let mut rng = Rng::new(0x5A);
    for _ in 0..5_000 {
        let accounts = rng.between(1, 32) as usize;
        let most = rng.pick(&[3, 1_000, 10_000_000]);
        let uegqs: Vec<i64> = (0..accounts).map(|_| rng.between(0, most)).collect();
        let spare: i64 = uegqs.iter().sum();
        let remaining = match rng.below(4) {
            0 => rng.pick(&[-1_280_000_000, 1_000_000_000, 0, 1, -1]),
            1 => (spare + rng.between(-1, 1)).max(0),
            _ => rng.between(0, spare),
        };
        let mut shares = vec![-3; accounts + 2];
        assert_eq!(share(remaining, &uegqs, &mut shares), 0);
        assert_eq!(shares[accounts..], [-3, -3]);
        for (&rvq, &uegq) in shares.iter().zip(&uegqs) {
            if remaining >= spare {
                assert_eq!(rvq, if remaining > 0 { uegq } else { 0 });
            } else if remaining <= 0 {
                assert_eq!(rvq, 0);
            } else {
                // The quotient rounded down, without dividing.
                let exact = i128::from(remaining) * i128::from(uegq);
                let (rvq, spare) = (i128::from(rvq), i128::from(spare));
                assert!(rvq * spare <= exact && exact < (rvq + 1) * spare);
            }
            let (bvq, mq) = (rng.between(0, most), rng.between(0, most));
            let split = tranche(rvq, bvq, mq);
            assert_eq!((split.number, split.first + split.second), (0, rvq));
            let room = if mq > bvq { mq - bvq } else { 0 };
            assert_eq!(split.first, if room < rvq { room } else { rvq });
        }
    }
}

#[test]
fn reference_prices_over_their_ranges() {
    let mut rng = Rng::new(0x9E);
    let (mut plain, mut up, mut down) = (0, 0, 0);
    for _ in 0..20_000 {
        let facilities = rng.between(1, 4) as usize;
        let (price, energy) = rng.pick(&[(9, 2), (1_000_000, 10_000_000)]);
        let mut list = |most: i64| -> Vec<i64> {
            (0..facilities)
                .map(|_| {
                    if rng.percent(20) {
                        rng.pick(&[-most, most])
                    } else {
                        rng.between(-most, most)
                    }
                })
                .collect()
        };
        let (meps, ieqs) = (list(price), list(energy));
        let answer = reference_price(&meps, &ieqs);
        assert_eq!(answer.number, 0);
        let mut weights: Vec<i64> = ieqs
            .iter()
            .map(|&ieq| if ieq > 0 { ieq } else { 0 })
            .collect();
        if weights.iter().all(|&weight| weight == 0) {
            weights.fill(1);
            plain += 1;
        }
        let total: i64 = weights.iter().sum();
        let sum: i64 = meps
            .iter()
            .zip(&weights)
            .map(|(mep, weight)| mep * weight)
            .sum();
        // Within half a unit; at a half, away from zero.
        let doubled_error = 2 * (answer.price * total - sum);
        assert!(doubled_error.abs() <= total);
        if doubled_error.abs() == total {
            assert!(answer.price.abs() * total > sum.abs());
            up += u32::from(sum > 0);
            down += u32::from(sum < 0);
        }
    }
    assert!(plain > 500 && up > 100 && down > 100, "{plain} {up} {down}");
}
