//! The two tranches of a share.

use crate::numbers::{ACCEPTED, BAD_PARAMETER};
use crate::units::QUANTITY;
use crate::variant::{Context, Variant};

#[derive(Clone, Copy, Debug, PartialEq, Eq)]
pub struct TrancheAnswer {
    pub number: u8,
    /// Priced RVP1.
    pub first: i64,
    /// Priced RVP2.
    pub second: i64,
}

/// Splits a share at what the base contract could have given beyond BVQ.
pub fn tranche(rvq: i64, bvq: i64, mq: i64) -> TrancheAnswer {
    tranche_in(Context::RIGHT, rvq, bvq, mq)
}

pub fn tranche_in(context: Context, rvq: i64, bvq: i64, mq: i64) -> TrancheAnswer {
    let fits = [rvq, bvq, mq].iter().all(|kwh| QUANTITY.contains(kwh));
    if !fits || context.is(Variant::RefusesEverything) {
        return TrancheAnswer {
            number: BAD_PARAMETER,
            first: 0,
            second: 0,
        };
    }
    let (first, second) = tranches_of(rvq, bvq, mq);
    TrancheAnswer {
        number: ACCEPTED,
        first,
        second,
    }
}

pub(crate) fn tranches_of(rvq: i64, bvq: i64, mq: i64) -> (i64, i64) {
    let first = rvq.min((mq - bvq).max(0));
    (first, rvq - first)
}
