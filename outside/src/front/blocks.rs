//! The command that checks V.41 blocks.

use super::bits::bits;
use super::Said;
use crate::refusal::{need, Refusal};
use crate::v41;

/// A line for each whole block of so many bits, from a bit on: where it begins,
/// and whether it leaves nothing. Then a line for bits left over, if all
/// characters are bits. Refuses by 19 and 5.
pub fn check(size: usize, from: usize, input: &[u8]) -> Said {
    let known = need(v41::SIZES.contains(&size), Refusal::BLOCK_SIZE);
    if known.is_err() {
        return Said::text(String::new(), known, 0);
    }
    let (bits, end) = bits(input);
    let from = from.min(bits.len());
    let mut text = String::new();
    let blocks = bits[from..].chunks_exact(size);
    let left = blocks.remainder().len();
    for (k, block) in blocks.enumerate() {
        let place = from + size * k;
        let whole = v41::check(block) == Ok(true);
        let word = if whole { "whole" } else { "broken" };
        text.push_str(&format!("{place} {word}\n"));
    }
    if end.is_ok() && left > 0 {
        let place = bits.len() - left;
        text.push_str(&format!("{place} short {left}\n"));
    }
    Said::text(text, end, bits.len())
}
