//! V.41 blocks (document 02, R-7; Recommendation V.41, section 2): made and
//! checked by long division over the bits, and by a shift register.

use crate::refusal::{need, Refusal};

/// The bits of a block: four service bits and the information, then the check
/// bits.
pub const SIZES: [usize; 4] = [260, 500, 980, 3860];
pub const CHECK_BITS: usize = 16;

/// x^16 + x^12 + x^5 + 1, the highest power first.
pub const GENERATOR: [u8; CHECK_BITS + 1] = [1, 0, 0, 0, 1, 0, 0, 0, 0, 0, 0, 1, 0, 0, 0, 0, 1];

/// What x^16 leaves when divided by the generator: its other powers.
const X_16: u16 = 1 << 12 | 1 << 5 | 1;

/// Whether a block leaves nothing when divided by the generator, its first bit as
/// highest power. Refuses by 19 and 5.
pub fn check(bits: &[u8]) -> Result<bool, Refusal> {
    need_bits(bits, bits.len())?;
    Ok(remainder(bits) == [0; CHECK_BITS])
}

/// Writes into the first lent byte 1 for a block that leaves nothing, else 0;
/// those beyond stay as they are. Refuses by 19, 5 and 7.
pub fn check_into(bits: &[u8], whole: &mut [u8]) -> Result<(), Refusal> {
    let accepted = check(bits)?;
    *whole.first_mut().ok_or(Refusal::LENT_NUMBERS)? = u8::from(accepted);
    Ok(())
}

/// Writes the block of some service and information bits: these, then their check
/// bits. Gives its count of bits; lent bytes beyond stay as they are. Refuses by
/// 19, 5 and 7.
pub fn make(bits: &[u8], out: &mut [u8]) -> Result<usize, Refusal> {
    let size = need_message(bits, out)?;
    out[..bits.len()].copy_from_slice(bits);
    out[bits.len()..size].copy_from_slice(&check_bits(bits));
    Ok(size)
}

/// Numbers 19 and 5 of bits that are, or with check bits become, a block of some
/// size. All bytes are looked at, many at once.
pub(crate) fn need_bits(bits: &[u8], size: usize) -> Result<(), Refusal> {
    need(SIZES.contains(&size), Refusal::BLOCK_SIZE)?;
    let ones = bits.iter().fold(0, |ones, bit| ones | bit);
    need(ones <= 1, Refusal::DATA_BYTE)
}

/// Numbers 19, 5 and 7 of service and information bits and the lent bytes for
/// their block, whose size it gives.
pub(crate) fn need_message(bits: &[u8], out: &[u8]) -> Result<usize, Refusal> {
    let size = bits.len() + CHECK_BITS;
    need_bits(bits, size)?;
    need(out.len() >= size, Refusal::LENT_NUMBERS)?;
    Ok(size)
}

/// What bits of any count leave when divided by the generator, x^15 first: it is
/// subtracted under each leading one.
pub fn remainder(bits: &[u8]) -> [u8; CHECK_BITS] {
    let mut rest = [&[0; CHECK_BITS], bits].concat();
    let end = rest.len() - CHECK_BITS;
    for place in 0..end {
        if rest[place] == 1 {
            let under = rest[place..].iter_mut().zip(GENERATOR);
            under.for_each(|(bit, power)| *bit ^= power);
        }
    }
    std::array::from_fn(|k| rest[end + k])
}

/// The check bits of bits of any count: what they leave times x^16.
pub fn check_bits(bits: &[u8]) -> [u8; CHECK_BITS] {
    remainder(&[bits, &[0; CHECK_BITS]].concat())
}

/// The remainder as a number, by a register of 16 bits that starts with zeros and
/// takes bit by bit.
pub fn remainder_by_register(bits: &[u8]) -> u16 {
    let mut register = 0;
    for &bit in bits {
        let falls_out = register >> 15 == 1;
        register = register << 1 | u16::from(bit);
        if falls_out {
            register ^= X_16;
        }
    }
    register
}

/// Gives what `check` gives, by the register.
pub fn check_by_register(bits: &[u8]) -> Result<bool, Refusal> {
    need_bits(bits, bits.len())?;
    Ok(remainder_by_register(bits) == 0)
}

/// Gives and writes what `make` does, by the register.
pub fn make_by_register(bits: &[u8], out: &mut [u8]) -> Result<usize, Refusal> {
    let size = need_message(bits, out)?;
    out[..bits.len()].copy_from_slice(bits);
    out[bits.len()..size].fill(0);
    let left = remainder_by_register(&out[..size]);
    write_check_bits(left, &mut out[bits.len()..size]);
    Ok(size)
}

/// Writes the bits of a remainder, the highest first.
pub(crate) fn write_check_bits(left: u16, out: &mut [u8]) {
    for (bit, power) in out.iter_mut().zip((0..CHECK_BITS).rev()) {
        *bit = (left >> power & 1) as u8;
    }
}
