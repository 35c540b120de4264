//! Sums of a checked store. Gaps alone are counted, in a pass of its own: every
//! other event is a decided point, and what is left of the total is lost.

use super::chain;
use crate::refusal::Refusal;
use crate::store::{Chain, COUNT_AT, KIND_AT, KIND_LOST, RECORD, RECORD_POINTS};
use crate::sums::Sums;

/// Gives what `sums::sums` gives.
pub fn sums(store: &[u8]) -> Result<Sums, Refusal> {
    let chain = chain::check(store)?;
    let mut gaps = 0;
    chain::walk(store, |_, record| {
        gaps += gaps_of(record);
        Ok(())
    })?;
    Ok(sums_of(&chain, gaps))
}

/// The sums of an accepted store with so many gaps.
pub fn sums_of(chain: &Chain, gaps: usize) -> Sums {
    let points = (chain.events - gaps) as u64;
    Sums {
        points,
        lost: u64::from(chain.total) - points,
        gaps: gaps as u64,
    }
}

/// The gaps of a record. Places without a point are zeros as origin points are,
/// so that all seven are looked at.
#[inline(always)]
fn gaps_of(record: &[u8; RECORD]) -> usize {
    if record[KIND_AT] == KIND_LOST {
        return 1;
    }
    let (places, _) = record.as_chunks::<4>();
    let zeros = places[1..].iter().filter(|place| **place == [0; 4]).count();
    zeros + usize::from(record[COUNT_AT]) - RECORD_POINTS
}
