//! Blocks of points in levels: a stretch at a time is rounded, and then taken as
//! points in units are, one after the other.

use super::receive;
use crate::receiver::{self, Receiver};
use crate::refusal::{need, Refusal};

/// The points that are rounded before they are taken.
const STRETCH: usize = 128;

// The bits of a coordinate without its sign grow with its size, and those of a
// NaN lie above all others.
const SIZE: u32 = 0x7fff_ffff;
const INFINITE: u32 = f32::INFINITY.to_bits();
/// The greatest size in range: a tie, which goes to 16384.
const GREATEST: u32 = (16384.5f32 / 1024.0).to_bits();

/// What `receiver::receive_level_points` does: refuses by 1, 2, 4, 7, 18, 8 and
/// 16.
pub fn receive_level_points(
    state: Receiver,
    levels: &[f32],
    line: &mut [u8],
    plain: &mut [u8],
    distance: &mut [u32],
) -> Result<Receiver, Refusal> {
    receiver::checked(&state)?;
    let count = levels.len() / 2;
    let lent = line.len().min(plain.len()).min(distance.len());
    let fits = levels.len().is_multiple_of(2) && lent >= count;
    need(fits, Refusal::LENT_NUMBERS)?;
    let size = greatest_size(levels);
    need(size < INFINITE, Refusal::NOT_FINITE)?;
    need(size <= GREATEST, Refusal::COORDINATE)?;
    let left = (u32::MAX - state.place.0) as usize;
    need(count <= left, Refusal::TOO_LONG)?;
    let mut next = state;
    let mut numbers = [0; 2 * STRETCH];
    for (k, stretch) in levels.chunks(2 * STRETCH).enumerate() {
        let points = &mut numbers[..stretch.len()];
        round(stretch, points);
        let at = STRETCH * k..STRETCH * k + points.len() / 2;
        let (line, plain) = (&mut line[at.clone()], &mut plain[at.clone()]);
        let distance = Some(&mut distance[at]);
        next = receive::accepted::<false>(next, points, line, plain, distance);
    }
    Ok(next)
}

/// The bits of the greatest size of some coordinates. They fit an i32, of which
/// several are compared at once.
fn greatest_size(levels: &[f32]) -> u32 {
    let size = |level: &f32| (level.to_bits() & SIZE) as i32;
    levels.iter().map(size).fold(0, i32::max) as u32
}

/// Rounds coordinates in range. 1024 times one is exact. Added to three times
/// 2^22 it lies where numbers of this kind are one apart: the sum is rounded to
/// the nearest, ties to even, and has the whole number in its last bits.
fn round(levels: &[f32], points: &mut [i16]) {
    for (number, &level) in points.iter_mut().zip(levels) {
        let sum = 1024.0 * level + 12_582_912.0;
        *number = sum.to_bits() as i16;
    }
}
