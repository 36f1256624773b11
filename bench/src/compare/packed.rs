//! Statements in packed decimal: written, and fields read back.

use super::tally::Tally;
use super::{same, same_words};
use crate::robijan;
use reference::generate::packed::{pack_case, unpack_case};
use reference::generate::Rng;
use reference::packed;

pub fn pack(rng: &mut Rng, cases: usize, tally: &mut Tally) -> Result<(), String> {
    for case in 0..cases {
        let given = pack_case(rng);
        let (mut ours, mut theirs) = (given.output.clone(), given.output.clone());
        let number = robijan::pack(&given.amounts, &mut ours);
        let answer = packed::pack(&given.amounts, &mut theirs);
        let described = || {
            let (amounts, bytes) = (&given.amounts, given.output.len());
            format!("case {case}: amounts {amounts:?}, {bytes} bytes")
        };
        same(number, answer.into(), described)?;
        same_words(&ours, &theirs, described)?;
        tally.add("statements", number, 0);
    }
    Ok(())
}

pub fn unpack(rng: &mut Rng, cases: usize, tally: &mut Tally) -> Result<(), String> {
    for case in 0..cases {
        let given = unpack_case(rng);
        let (mut ours, mut theirs) = (given.output.clone(), given.output.clone());
        let told = robijan::unpack(&given.fields, &mut ours);
        let answer = packed::unpack(&given.fields, &mut theirs);
        let described = || {
            let (fields, words) = (&given.fields, given.output.len());
            format!("case {case}: fields {fields:02X?}, {words} words")
        };
        same(
            [told.number, told.position, told.count],
            [
                answer.number.into(),
                answer.position as u64,
                answer.count as u64,
            ],
            described,
        )?;
        same_words(&ours, &theirs, described)?;
        tally.add("lists of fields", told.number, told.position);
    }
    Ok(())
}
