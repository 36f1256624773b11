//! The second edition of the share with the slips of the wrong variants, one by
//! one. It reckons in wider words, so that each slip answers every input; without
//! a slip it answers as `second_share` does.

use crate::numbers::{ACCEPTED, BAD_PARAMETER, OUTPUT_TOO_SHORT};
use crate::units::{MOST_ACCOUNTS, QUANTITY, REMAINING_LOAD};
use crate::variant::{Context, Variant, WRONG_SHARES, WRONG_SHARE_CALLS};
use std::cmp::Reverse;

pub(crate) fn is_wrong_second_share(variant: Variant) -> bool {
    WRONG_SHARES.contains(&variant) || WRONG_SHARE_CALLS.contains(&variant)
}

pub fn wrong_second_share(
    context: Context,
    remaining: i64,
    uegqs: &[i64],
    shares: &mut [i64],
) -> u8 {
    let short = match context.variant {
        Variant::NeedsExactOutput => shares.len() != uegqs.len(),
        _ => shares.len() < uegqs.len(),
    };
    if short && context.is(Variant::OutputBeforeRanges) {
        return OUTPUT_TOO_SHORT;
    }
    if !arguments_fit(context, remaining, uegqs) {
        if context.is(Variant::ClearsRefusedOutput) {
            shares.fill(0);
        }
        return BAD_PARAMETER;
    }
    if !short || context.is(Variant::WritesBeforeTooShort) {
        write(shares, &shares_of(context, 0, remaining, uegqs));
    }
    if short {
        return OUTPUT_TOO_SHORT;
    }
    if context.is(Variant::ClearsWordsBeyond) {
        shares[uegqs.len()..].fill(0);
    }
    ACCEPTED
}

/// The shares of a close, interval after interval.
pub(crate) struct WrongShares {
    context: Context,
    /// The sum of UEGQ of the intervals before.
    earlier: i128,
}

impl WrongShares {
    /// None if there is no slip.
    pub(crate) fn of(context: Context) -> Option<WrongShares> {
        let wrong = WRONG_SHARES.contains(&context.variant);
        wrong.then_some(WrongShares {
            context,
            earlier: 0,
        })
    }

    pub(crate) fn write(&mut self, remaining: i64, uegqs: &[i64], shares: &mut [i64]) {
        let words = shares_of(self.context, self.earlier, remaining, uegqs);
        write(shares, &words);
        self.earlier += uegqs.iter().map(|&uegq| i128::from(uegq)).sum::<i128>();
    }
}

fn write(shares: &mut [i64], words: &[i128]) {
    for (share, &word) in shares.iter_mut().zip(words) {
        *share = word as i64;
    }
}

fn arguments_fit(context: Context, remaining: i64, uegqs: &[i64]) -> bool {
    let load_fits = match context.variant {
        Variant::LoadUnjudged => true,
        Variant::LoadFromMinusOneBillion => remaining.unsigned_abs() <= 1_000_000_000,
        Variant::RefusesNegativeLoad => remaining >= 0 && REMAINING_LOAD.contains(&remaining),
        _ => REMAINING_LOAD.contains(&remaining),
    };
    let (fewest, most) = match context.variant {
        Variant::TakesNoAccounts => (0, MOST_ACCOUNTS),
        Variant::Refuses32Accounts => (1, MOST_ACCOUNTS - 1),
        Variant::Takes33Accounts => (1, MOST_ACCOUNTS + 1),
        _ => (1, MOST_ACCOUNTS),
    };
    let has_spare = uegqs.iter().any(|&uegq| uegq != 0);
    load_fits
        && (fewest..=most).contains(&uegqs.len())
        && uegqs_fit(context, remaining, uegqs)
        && (has_spare || !context.is(Variant::RefusesWithoutSpare))
}

fn uegqs_fit(context: Context, remaining: i64, uegqs: &[i64]) -> bool {
    let (least, most) = match context.variant {
        Variant::UegqsUnjudged => (i64::MIN, i64::MAX),
        Variant::UegqsUnjudgedWithoutLoad if remaining <= 0 => (i64::MIN, i64::MAX),
        Variant::TakesNegativeUegqs => (i64::MIN, *QUANTITY.end()),
        Variant::TakesLargeUegqs => (*QUANTITY.start(), i64::MAX),
        _ => (*QUANTITY.start(), *QUANTITY.end()),
    };
    let judged = match (context.variant, uegqs) {
        (Variant::LastUegqUnjudged, [judged @ .., _]) => judged,
        _ => uegqs,
    };
    judged.iter().all(|uegq| (least..=most).contains(uegq))
}

/// Each account's share, `earlier` being the sum of UEGQ of the intervals before.
fn shares_of(context: Context, earlier: i128, remaining: i64, uegqs: &[i64]) -> Vec<i128> {
    let uegqs: Vec<i128> = uegqs.iter().map(|&uegq| uegq.into()).collect();
    let zeros = vec![0; uegqs.len()];
    let load = match context.variant {
        Variant::TakesMagnitudeOfLoad => i128::from(remaining).abs(),
        _ => remaining.into(),
    };
    let sharing = Sharing {
        load,
        spare: uegqs.iter().sum(),
        uegqs: &uegqs,
    };
    if sharing.spare == 0 {
        return match context.variant {
            Variant::SharesWithoutSpare => vec![load.max(0) / uegqs.len() as i128; uegqs.len()],
            _ => zeros,
        };
    }
    if load <= 0 && !context.is(Variant::DividesNegativeLoad) {
        return zeros;
    }
    if load >= sharing.spare && !context.is(Variant::DividesWhereAllIsTaken) {
        return uegqs;
    }
    sharing.divide(context, earlier)
}

/// A load that is divided; S is not 0.
struct Sharing<'a> {
    load: i128,
    spare: i128,
    uegqs: &'a [i128],
}

impl Sharing<'_> {
    fn divide(&self, context: Context, earlier: i128) -> Vec<i128> {
        let (down, up) = (|sum| self.down(sum), |sum| self.up(sum));
        let near = |sum| self.near(sum);
        match context.variant {
            Variant::SumsFromLastAccount => {
                let backward: Vec<i128> = self.uegqs.iter().rev().copied().collect();
                let mut shares = differences(&backward, 0, down, down);
                shares.reverse();
                shares
            }
            Variant::SumsWithoutAccount => {
                let mut shifted = self.uegqs.to_vec();
                shifted.rotate_right(1);
                shifted[0] = 0;
                differences(&shifted, 0, down, down)
            }
            Variant::SumsOfEarlierIntervals => differences(self.uegqs, earlier, down, down),
            Variant::SharesWhatIsLeft => self.of_what_is_left(),
            Variant::RoundsSumsUp => differences(self.uegqs, 0, up, up),
            Variant::RoundsSumsToNearest => differences(self.uegqs, 0, near, near),
            Variant::RoundsSumWithUp => differences(self.uegqs, 0, up, down),
            Variant::RoundsSumBeforeUp => differences(self.uegqs, 0, down, up),
            Variant::RoundsDifferenceUp => self.each(up),
            Variant::RoundsDifferenceToNearest => self.each(near),
            Variant::DividesSumsFirst => {
                let whole = |sum| self.load * (sum / self.spare);
                differences(self.uegqs, 0, whole, whole)
            }
            Variant::DividesInDoubles => {
                let double =
                    |sum: i128| (self.load as f64 * sum as f64 / self.spare as f64).floor() as i128;
                differences(self.uegqs, 0, double, double)
            }
            slip => match self.favoured(slip) {
                Some(accounts) => self.with_leftover(&accounts),
                None => differences(self.uegqs, 0, down, down),
            },
        }
    }

    fn down(&self, sum: i128) -> i128 {
        self.load * sum / self.spare
    }

    fn up(&self, sum: i128) -> i128 {
        (self.load * sum + self.spare - 1) / self.spare
    }

    fn near(&self, sum: i128) -> i128 {
        (2 * self.load * sum + self.spare) / (2 * self.spare)
    }

    /// Each account's quotient rounded by itself.
    fn each(&self, rounded: impl Fn(i128) -> i128) -> Vec<i128> {
        self.uegqs.iter().map(|&uegq| rounded(uegq)).collect()
    }

    fn of_what_is_left(&self) -> Vec<i128> {
        let (mut load, mut spare) = (self.load, self.spare);
        let next = |&uegq: &i128| {
            let share = if spare == 0 { 0 } else { load * uegq / spare };
            load -= share;
            spare -= uegq;
            share
        };
        self.uegqs.iter().map(next).collect()
    }

    /// The accounts that get the odd kWh, one each and again from the first on.
    fn favoured(&self, slip: Variant) -> Option<Vec<usize>> {
        let last = self.uegqs.len() - 1;
        let mut accounts: Vec<usize> = (0..=last).collect();
        let remainder = |account: usize| self.load * self.uegqs[account] % self.spare;
        match slip {
            Variant::LeftoverToFirst => accounts.truncate(1),
            Variant::LeftoverToLast => accounts = vec![last],
            Variant::LeftoverToLargest => {
                accounts.sort_by_key(|&account| Reverse(self.uegqs[account]));
                accounts.truncate(1);
            }
            Variant::LeftoverOneEachFromFirst => {}
            Variant::LeftoverOneEachFromLast => accounts.reverse(),
            Variant::LargestRemaindersFirst => {
                accounts.sort_by_key(|&account| Reverse(remainder(account)));
            }
            Variant::LargestRemaindersLast => {
                accounts.sort_by_key(|&account| (Reverse(remainder(account)), Reverse(account)));
            }
            _ => return None,
        }
        Some(accounts)
    }

    /// Shares rounded down, and the odd kWh to these accounts.
    fn with_leftover(&self, favoured: &[usize]) -> Vec<i128> {
        let mut shares = self.each(|uegq| self.down(uegq));
        let leftover = self.load - shares.iter().sum::<i128>();
        let odd = favoured.iter().cycle().take(leftover as usize);
        for &account in odd {
            shares[account] += 1;
        }
        shares
    }
}

/// The quotient of each running sum less that of the sum before it.
fn differences(
    uegqs: &[i128],
    start: i128,
    with: impl Fn(i128) -> i128,
    before: impl Fn(i128) -> i128,
) -> Vec<i128> {
    let mut sum = start;
    let next = |uegq: &i128| {
        let sum_before = sum;
        sum += uegq;
        with(sum) - before(sum_before)
    };
    uegqs.iter().map(next).collect()
}
