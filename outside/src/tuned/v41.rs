//! V.41 blocks, eight bits in one step: they are gathered into a byte, and what
//! the byte leaves is folded into the register by shifts, without a table.

use crate::refusal::Refusal;
use crate::v41::{need_bits, need_message, write_check_bits};

/// Gives what `v41::check` gives.
pub fn v41_check(bits: &[u8]) -> Result<bool, Refusal> {
    need_bits(bits, bits.len())?;
    Ok(remainder(bits) == 0)
}

/// Gives and writes what `v41::make` does.
pub fn v41_make(bits: &[u8], out: &mut [u8]) -> Result<usize, Refusal> {
    let size = need_message(bits, out)?;
    out[..bits.len()].copy_from_slice(bits);
    write_check_bits(remainder(bits), &mut out[bits.len()..size]);
    Ok(size)
}

/// What bits times x^16 leave, which is nothing exactly where the bits leave
/// nothing. The first few, those beyond a multiple of eight, are a byte with
/// zeros before them.
#[inline(always)]
fn remainder(bits: &[u8]) -> u16 {
    let (first, rest) = bits.split_at(bits.len() % 8);
    let first = first.iter().fold(0, |byte, bit| 2 * byte + bit);
    let (eights, _) = rest.as_chunks::<8>();
    eights.iter().fold(step(0, first), |register, eight| {
        step(register, gathered(eight))
    })
}

/// Eight bits, one in a byte, as a number with the first highest. The factor has
/// a one for each of them, 9 apart, that takes it to its place in the highest
/// byte.
#[inline(always)]
fn gathered(eight: &[u8; 8]) -> u8 {
    (u64::from_le_bytes(*eight).wrapping_mul(0x8040_2010_0804_0201) >> 56) as u8
}

/// The register after eight bits. Those that fall out, with the new ones added,
/// come back 12, 5 and 0 places up; their upper four fall out by the first of
/// these again.
#[inline(always)]
fn step(register: u16, byte: u8) -> u16 {
    let out = register >> 8 ^ u16::from(byte);
    let out = out ^ out >> 4;
    register << 8 ^ out << 12 ^ out << 5 ^ out
}
