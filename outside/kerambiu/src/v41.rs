//! V.41 blocks: 260, 500, 980 or 3860 bits, the last 16 of them check bits.

use crate::raw::{self, V41_CHECK_BITS};
use crate::refusal::outcome;
use crate::Refusal;

/// Whether the bits are a whole block. One that was altered only within a run of 16
/// bits never is.
pub fn check(bits: &[u8]) -> Result<bool, Refusal> {
    let mut whole = [0];
    outcome(raw::v41_check(bits, &mut whole))?;
    Ok(whole[0] == 1)
}

/// The block of service and information bits: 244, 484, 964 or 3844 of them, then
/// their check bits.
pub fn make(bits: &[u8]) -> Result<Vec<u8>, Refusal> {
    let mut block = vec![0; bits.len() + V41_CHECK_BITS];
    outcome(raw::v41_make(bits, &mut block))?;
    Ok(block)
}
