//! Groups of bits, and data bits that users are assured of.

use outside::assurance::first_assured;
use outside::mode::Mode;

/// Bits as a number, the first highest.
pub fn number_of(bits: &[u8]) -> u8 {
    bits.iter().fold(0, |number, bit| 2 * number + bit)
}

/// The bits of groups, the first in time first.
pub fn bits_of(mode: &Mode, groups: &[u8]) -> Vec<u8> {
    let bits = |group: u8| (0..mode.width).rev().map(move |k| group >> k & 1);
    groups.iter().copied().flat_map(bits).collect()
}

/// Whether the bytes of data bits of consecutive points, from the second on, are
/// settled from R line bits on and those given from the first assured one on.
pub fn assured(mode: &Mode, line: &[u8], told: &[u8], given: &[u8]) -> bool {
    let unsettled = told.iter().map(|byte| u32::from(byte >> 4));
    let settled = unsettled.flat_map(|count| (0..mode.width).map(move |k| count <= k));
    let (told, given) = (bits_of(mode, told), bits_of(mode, given));
    let first = first_assured(mode, &bits_of(mode, line)).unwrap_or(told.len());
    let mut later = settled.skip(mode.register_length as usize);
    later.all(|settled| settled) && told[first..] == given[first..]
}

/// How many data bits are unsettled.
pub fn unsettled(told: &[u8]) -> u32 {
    told.iter().map(|byte| u32::from(byte >> 4)).sum()
}
