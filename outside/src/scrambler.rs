//! The self-synchronising scrambler (document 01, "Scrambler") and the guard
//! against repeated patterns (document 02, R-6).
//!
//! A register is a number with the newest line bit lowest: the line bit k back
//! is bit k − 1.

use crate::mode::Mode;
use crate::units::{BitCount, GuardCount};

/// The count at which the guard inverts a scrambled bit.
pub const GUARD_LIMIT: GuardCount = GuardCount(33);
/// How far back the line bits are that the guard compares a line bit with.
pub const GUARD_TAPS: [u32; 3] = [8, 9, 12];
/// The line bits that the guard needs before one.
pub const GUARD_LENGTH: u32 = GUARD_TAPS[2];

/// The scrambler of one mode and role.
#[derive(Clone, Copy, PartialEq, Eq, Debug)]
pub struct Scrambler {
    /// The taps: line bits so far back.
    near: u32,
    far: u32,
    /// R, the line bits that the register holds.
    length: u32,
    guard: bool,
}

/// What a sender's scrambler keeps between bits.
#[derive(Clone, Copy, PartialEq, Eq, Debug)]
pub struct Register {
    /// The last R line bits.
    pub bits: u32,
    /// The guard's count, zero in a mode without it.
    pub count: GuardCount,
}

/// A descrambled bit with the register after it.
#[derive(Clone, Copy, PartialEq, Eq, Debug)]
pub struct Descrambled {
    /// The data bit, or none where it is unsettled.
    pub data: Option<u8>,
    pub register: Register,
    pub held: BitCount,
}

impl Scrambler {
    /// The scrambler of a role, if the mode has that role.
    pub fn of(mode: &Mode, role: u8) -> Option<Scrambler> {
        let near = *mode.near_taps.get(usize::from(role))?;
        Some(Scrambler {
            near,
            far: mode.far_tap,
            length: mode.register_length,
            guard: mode.guard,
        })
    }

    /// Whether a register has nothing beyond its held bits, no more than R of
    /// them, and a count that the guard can have.
    pub fn fits(self, register: Register, held: BitCount) -> bool {
        let Register { bits, count } = register;
        // Fewer than R are not counted over.
        let counts = self.guard && held == self.full() && count <= GUARD_LIMIT;
        held.0 <= self.length && bits < 1 << held.0 && (counts || count == GuardCount(0))
    }

    /// The count of line bits in a full register, R.
    pub fn full(self) -> BitCount {
        BitCount(self.length)
    }

    /// The line bit for a data bit, and the register after it.
    pub fn scramble(self, register: Register, data: u8) -> (u8, Register) {
        let line = data ^ self.tapped(register.bits) ^ self.inversion(register.count);
        (line, self.shifted(register, line, true))
    }

    /// The data bit for a line bit: settled when R line bits came before it.
    pub fn descramble(self, register: Register, held: BitCount, line: u8) -> Descrambled {
        let settled = held.0 >= self.length;
        let data = line ^ self.tapped(register.bits) ^ self.inversion(register.count);
        Descrambled {
            data: settled.then_some(data),
            register: self.shifted(register, line, settled),
            held: BitCount(self.length.min(held.0.saturating_add(1))),
        }
    }

    /// Whether the guard inverts the scrambled bit that comes at this count.
    pub fn inverts(self, count: GuardCount) -> bool {
        self.guard && count == GUARD_LIMIT
    }

    /// What is added, without carry, to a scrambled bit at this count.
    fn inversion(self, count: GuardCount) -> u8 {
        u8::from(self.inverts(count))
    }

    /// The register with one more line bit; the oldest of R falls out. The guard
    /// counts once the register is full, and stays at zero before.
    fn shifted(self, register: Register, line: u8, full: bool) -> Register {
        let count = match self.guard && full {
            true => counted(register, line),
            false => GuardCount(0),
        };
        let bits = self.kept(register.bits << 1 | u32::from(line));
        Register { bits, count }
    }

    /// The line bits at the two taps, added without carry.
    fn tapped(self, register: u32) -> u8 {
        let sum = (register >> (self.near - 1)) ^ (register >> (self.far - 1));
        (sum & 1) as u8
    }

    /// The last R of some line bits.
    pub fn kept(self, bits: u32) -> u32 {
        bits & ((1 << self.length) - 1)
    }
}

/// The guard's count after a line bit; one that it inverted is not compared.
fn counted(register: Register, line: u8) -> GuardCount {
    let Register { bits, count } = register;
    let differs = |tap: u32| (bits >> (tap - 1) & 1) as u8 != line;
    // No branch on a line bit: nobody foresees them.
    let [one, two, three] = GUARD_TAPS.map(differs);
    let grows = !(one & two & three) & (count != GUARD_LIMIT);
    GuardCount(u8::from(grows) * count.0.wrapping_add(1))
}
