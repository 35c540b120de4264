//! Blocks of points, received one after the other: one loop for each mode and
//! role, with the state in locals and no branch on where a point lies.

use super::guard::{self, Guard};
use super::symbol::{self, ORIGIN};
use crate::receiver::{Receiver, GAP_BYTE, REFERENCE_BYTE};
use crate::units::{BitCount, UnitIntervals};

/// Takes points that are not refused.
pub fn receive<const MODE: u8, const NEAR: u32>(
    state: Receiver,
    points: &[i16],
    line: &mut [u8],
    plain: &mut [u8],
    distance: &mut [u32],
) -> Receiver {
    let mut serial = Serial::<MODE, NEAR> {
        reference: state.reference.map(symbol::of_state::<MODE>),
        register: state.register,
        held: state.held.0,
        guard: Guard::of(state.count),
    };
    let numbers = line.iter_mut().zip(plain).zip(distance);
    for (point, ((line, plain), distance)) in points.chunks_exact(2).zip(numbers) {
        let (re, im) = (point[0], point[1]);
        let symbol = symbol::decide::<MODE>(re, im);
        (*line, *plain) = serial.take(symbol);
        *distance = symbol::squared(symbol::apart::<MODE>(re, im, symbol));
    }
    let intervals = (points.len() / 2) as u32;
    Receiver {
        reference: serial.reference.map(symbol::state::<MODE>),
        register: serial.register & ((1 << serial.held) - 1),
        held: BitCount(serial.held),
        count: serial.guard.count(),
        place: UnitIntervals(state.place.0 + intervals),
        ..state
    }
}

/// The state between points.
struct Serial<const MODE: u8, const NEAR: u32> {
    /// The reference's symbol.
    reference: Option<u8>,
    /// Line bits, newest lowest, of which those held count.
    register: u32,
    held: u32,
    guard: Guard,
}

impl<const MODE: u8, const NEAR: u32> Serial<MODE, NEAR> {
    const W: u32 = symbol::mode(MODE).width;
    const R: u32 = symbol::mode(MODE).register_length;
    const FAR: u32 = symbol::mode(MODE).far_tap;
    const GUARD: bool = symbol::mode(MODE).guard;
    const ALL: u8 = (1 << Self::W) - 1;

    /// The two bytes of a symbol or of an origin.
    #[inline(always)]
    fn take(&mut self, symbol: u8) -> (u8, u8) {
        if symbol >= ORIGIN {
            (self.reference, self.held) = (None, 0);
            if Self::GUARD {
                self.guard.clear();
            }
            return (GAP_BYTE, 0);
        }
        let Some(before) = self.reference.replace(symbol) else {
            return (REFERENCE_BYTE, 0);
        };
        let group = symbol::group::<MODE>(before, symbol);
        let tapped = self.register >> (NEAR - Self::W) ^ self.register >> (Self::FAR - Self::W);
        let unsettled = Self::W.min(Self::R - self.held);
        let mut plain = (group ^ tapped as u8) & (Self::ALL >> unsettled);
        self.register = self.register << Self::W | u32::from(group);
        self.held = Self::R.min(self.held + Self::W);
        if Self::GUARD {
            plain ^= self.inverted(unsettled);
        }
        (group, plain + 16 * unsettled as u8)
    }

    /// The bits of the newest group that the guard inverts; unsettled ones are not
    /// counted over.
    #[inline(always)]
    fn inverted(&mut self, unsettled: u32) -> u8 {
        let settled = u32::from(Self::ALL >> unsettled);
        let differing = guard::differing(self.register) & settled;
        self.guard.take(differing, Self::W - unsettled) as u8
    }
}
