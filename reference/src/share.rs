//! Shares of the residual load (RVQ), in both editions.

use crate::edition::Edition;
use crate::numbers::{ACCEPTED, BAD_PARAMETER, OUTPUT_TOO_SHORT};
use crate::units::{MOST_ACCOUNTS, QUANTITY, REMAINING_LOAD};
use crate::variant::{Context, Variant};
use crate::wrong_share::{is_wrong_second_share, wrong_second_share};

/// Writes each account's share of the remaining load R to `shares`, one word
/// an account, and returns the number.
pub fn share(remaining: i64, uegqs: &[i64], shares: &mut [i64]) -> u8 {
    call(Edition::First, remaining, uegqs, shares)
}

/// The same in the second edition.
pub fn second_share(remaining: i64, uegqs: &[i64], shares: &mut [i64]) -> u8 {
    call(Edition::Second, remaining, uegqs, shares)
}

pub fn share_in(context: Context, remaining: i64, uegqs: &[i64], shares: &mut [i64]) -> u8 {
    match context.variant {
        Variant::RefusesEverything => BAD_PARAMETER,
        Variant::FirstCallIsSecond => second_share(remaining, uegqs, shares),
        _ => share(remaining, uegqs, shares),
    }
}

pub fn second_share_in(context: Context, remaining: i64, uegqs: &[i64], shares: &mut [i64]) -> u8 {
    match context.variant {
        Variant::RefusesEverything => BAD_PARAMETER,
        Variant::SecondCallIsFirst => share(remaining, uegqs, shares),
        slip if is_wrong_second_share(slip) => {
            wrong_second_share(context, remaining, uegqs, shares)
        }
        _ => second_share(remaining, uegqs, shares),
    }
}

fn call(edition: Edition, remaining: i64, uegqs: &[i64], shares: &mut [i64]) -> u8 {
    let fits = REMAINING_LOAD.contains(&remaining)
        && (1..=MOST_ACCOUNTS).contains(&uegqs.len())
        && uegqs.iter().all(|uegq| QUANTITY.contains(uegq));
    if !fits {
        return BAD_PARAMETER;
    }
    let Some(shares) = shares.get_mut(..uegqs.len()) else {
        return OUTPUT_TOO_SHORT;
    };
    write_shares(edition, remaining, uegqs, shares);
    ACCEPTED
}

/// The shares of accounts in ascending order, all in range. What is multiplied
/// is at most 320,000,000, the sum of 32 UEGQ.
pub(crate) fn write_shares(edition: Edition, remaining: i64, uegqs: &[i64], shares: &mut [i64]) {
    let spare: i64 = uegqs.iter().sum();
    if remaining <= 0 || spare == 0 {
        shares.fill(0);
        return;
    }
    if remaining >= spare {
        shares.copy_from_slice(uegqs);
        return;
    }
    match edition {
        Edition::First => {
            for (share, uegq) in shares.iter_mut().zip(uegqs) {
                *share = remaining * uegq / spare;
            }
        }
        Edition::Second => {
            let (mut running_sum, mut shared) = (0, 0);
            for (share, uegq) in shares.iter_mut().zip(uegqs) {
                let shared_before = shared;
                running_sum += uegq;
                shared = remaining * running_sum / spare;
                *share = shared - shared_before;
            }
        }
    }
}
