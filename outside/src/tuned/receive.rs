//! Blocks of points: what refuses a block, and the loop of its mode and role.

use super::{passes, serial};
use crate::receiver::{self, Receiver};
use crate::refusal::{need, Refusal};

/// Fewer points than this are received one after the other: passes would take
/// longer to start than to run.
const FEW: usize = 16;

/// What `receiver::receive_points` does: refuses by 1, 2, 4, 7, 8 and 16. One
/// point after the other.
pub fn receive_points(
    state: Receiver,
    points: &[i16],
    line: &mut [u8],
    plain: &mut [u8],
    distance: &mut [u32],
) -> Result<Receiver, Refusal> {
    checked::<false>(state, points, line, plain, Some(distance))
}

/// The same in passes over a stretch of points.
pub fn receive_in_passes(
    state: Receiver,
    points: &[i16],
    line: &mut [u8],
    plain: &mut [u8],
    distance: &mut [u32],
) -> Result<Receiver, Refusal> {
    checked::<true>(state, points, line, plain, Some(distance))
}

/// The same without distances: a listing has none, and does not pay for a pass
/// that finds them.
pub(super) fn receive_bits_in_passes(
    state: Receiver,
    points: &[i16],
    line: &mut [u8],
    plain: &mut [u8],
) -> Result<Receiver, Refusal> {
    checked::<true>(state, points, line, plain, None)
}

fn checked<const PASSES: bool>(
    state: Receiver,
    points: &[i16],
    line: &mut [u8],
    plain: &mut [u8],
    distance: Option<&mut [u32]>,
) -> Result<Receiver, Refusal> {
    receiver::checked(&state)?;
    let count = points.len() / 2;
    let distances = distance.as_ref().map_or(count, |distance| distance.len());
    let lent = line.len().min(plain.len()).min(distances);
    let fits = points.len().is_multiple_of(2) && lent >= count;
    need(fits, Refusal::LENT_NUMBERS)?;
    need(in_range(points), Refusal::COORDINATE)?;
    let left = (u32::MAX - state.place.0) as usize;
    need(count <= left, Refusal::TOO_LONG)?;
    let (line, plain) = (&mut line[..count], &mut plain[..count]);
    let distance = distance.map(|distance| &mut distance[..count]);
    Ok(accepted::<PASSES>(state, points, line, plain, distance))
}

/// Takes points that are not refused, with as much lent as there are points.
pub(super) fn accepted<const PASSES: bool>(
    state: Receiver,
    points: &[i16],
    line: &mut [u8],
    plain: &mut [u8],
    distance: Option<&mut [u32]>,
) -> Receiver {
    match (state.mode, state.role) {
        (1, _) => receive::<PASSES, 1, 6>(state, points, line, plain, distance),
        (2, _) => receive::<PASSES, 2, 6>(state, points, line, plain, distance),
        (3, 0) => receive::<PASSES, 3, 18>(state, points, line, plain, distance),
        (3, _) => receive::<PASSES, 3, 5>(state, points, line, plain, distance),
        (4, 0) => receive::<PASSES, 4, 18>(state, points, line, plain, distance),
        (4, _) => receive::<PASSES, 4, 5>(state, points, line, plain, distance),
        (5, _) => receive::<PASSES, 5, 6>(state, points, line, plain, distance),
        (_, _) => receive::<PASSES, 6, 6>(state, points, line, plain, distance),
    }
}

/// Whether all coordinates lie from −16384 to 16384.
pub(super) fn in_range(points: &[i16]) -> bool {
    let (mut least, mut most) = (0, 0);
    for &number in points {
        least = least.min(number);
        most = most.max(number);
    }
    least >= -16384 && most <= 16384
}

/// The same for a mode and role.
fn receive<const PASSES: bool, const MODE: u8, const NEAR: u32>(
    state: Receiver,
    points: &[i16],
    line: &mut [u8],
    plain: &mut [u8],
    distance: Option<&mut [u32]>,
) -> Receiver {
    if PASSES && line.len() >= FEW {
        return passes::receive::<MODE, NEAR>(state, points, line, plain, distance);
    }
    // One point after the other each has its distance, asked for or not: none
    // are asked for only where few points are to be received in passes.
    let mut unread = [0; FEW];
    let distance = distance.unwrap_or(&mut unread);
    serial::receive::<MODE, NEAR>(state, points, line, plain, distance)
}
