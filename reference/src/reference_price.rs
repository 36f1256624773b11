//! The reference price V of one account and interval.

use crate::numbers::{ACCEPTED, BAD_PARAMETER};
use crate::units::{nearest, IEQ, MOST_FACILITIES, PRICE};
use crate::variant::{Context, Variant};
use std::num::NonZeroU64;

#[derive(Clone, Copy, Debug, PartialEq, Eq)]
pub struct PriceAnswer {
    pub number: u8,
    pub price: i64,
}

/// V of 1 to 4 facilities, each an MEP and an IEQ.
pub fn reference_price(meps: &[i64], ieqs: &[i64]) -> PriceAnswer {
    reference_price_in(Context::RIGHT, meps, ieqs)
}

pub fn reference_price_in(context: Context, meps: &[i64], ieqs: &[i64]) -> PriceAnswer {
    let fits = (1..=MOST_FACILITIES).contains(&meps.len())
        && meps.len() == ieqs.len()
        && meps.iter().all(|mep| PRICE.contains(mep))
        && ieqs.iter().all(|ieq| IEQ.contains(ieq));
    if !fits || context.is(Variant::RefusesEverything) {
        return PriceAnswer {
            number: BAD_PARAMETER,
            price: 0,
        };
    }
    PriceAnswer {
        number: ACCEPTED,
        price: price_of(context, meps.iter().copied().zip(ieqs.iter().copied())),
    }
}

/// V of facilities in range: the weighted average of the MEPs, or the simple
/// one where no facility has weight.
pub(crate) fn price_of(context: Context, facilities: impl Iterator<Item = (i64, i64)>) -> i64 {
    if context.is(Variant::WeighsNegativeIeq) {
        return wrong_price_of(facilities);
    }
    let (mut weighted, mut weights, mut plain, mut count) = (0, 0, 0, 0);
    for (mep, ieq) in facilities {
        let weight = ieq.max(0);
        weighted += mep * weight;
        weights += weight.unsigned_abs();
        plain += mep;
        count += 1;
    }
    match (NonZeroU64::new(weights), NonZeroU64::new(count)) {
        (Some(weights), _) => nearest(weighted, weights),
        (None, Some(count)) => nearest(plain, count),
        (None, None) => 0,
    }
}

/// The slip of `Variant::WeighsNegativeIeq`, kept within the range of prices.
fn wrong_price_of(facilities: impl Iterator<Item = (i64, i64)>) -> i64 {
    let (mut weighted, mut weights, mut plain, mut count) = (0, 0_i64, 0, 0);
    for (mep, ieq) in facilities {
        weighted += mep * ieq;
        weights += ieq;
        plain += mep;
        count += 1;
    }
    let (sum, parts) = if weights == 0 {
        (plain, count)
    } else {
        (weighted * weights.signum(), weights.unsigned_abs())
    };
    NonZeroU64::new(parts).map_or(0, |parts| {
        nearest(sum, parts).clamp(*PRICE.start(), *PRICE.end())
    })
}
