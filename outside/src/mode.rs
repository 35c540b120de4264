//! The six modes and their parameters (document 01, "Modes, states, turns";
//! document 02, R-6).

use crate::refusal::Refusal;
use crate::scrambler::{Scrambler, GUARD_LENGTH};

/// The Recommendation that a mode belongs to.
#[derive(Clone, Copy, PartialEq, Eq, Debug)]
pub enum Line {
    V27ter,
    V32,
}

/// The parameters of one mode.
#[derive(PartialEq, Eq, Debug)]
pub struct Mode {
    pub number: u8,
    /// The mode with the same points, states and code that has no guard: what is
    /// told by it is told once for a mode with the guard and one without.
    pub unguarded: u8,
    pub line: Line,
    /// w, the line bits in a point.
    pub width: u32,
    /// R, the length of the scrambler's register in line bits.
    pub register_length: u32,
    /// Whether the scrambler has the guard against repeated patterns.
    pub guard: bool,
    /// The smallest turn carrying the states onto themselves, in degrees.
    pub step: u16,
    /// How far back the nearer tap of the scrambler is, for each role.
    pub near_taps: &'static [u32],
    /// How far back its other tap is.
    pub far_tap: u32,
    /// The states in increasing number. V.32 states are Y1 Y2 Q3 Q4 read as a
    /// binary number.
    pub states: &'static [u8],
    /// The same states as a set: bit s is 1 for a state s.
    state_set: u16,
}

/// State A of mode 3 (V.32, figure 1).
pub const A: u8 = 0b0001;
/// State B of mode 3.
pub const B: u8 = 0b0101;
/// State C of mode 3.
pub const C: u8 = 0b1101;
/// State D of mode 3.
pub const D: u8 = 0b1001;

const MODE_1_STATES: &[u8] = &[0, 2, 4, 6];
const MODE_2_STATES: &[u8] = &[0, 1, 2, 3, 4, 5, 6, 7];
const MODE_3_STATES: &[u8] = &[A, B, D, C];
const MODE_4_STATES: &[u8] = &[0, 1, 2, 3, 4, 5, 6, 7, 8, 9, 10, 11, 12, 13, 14, 15];

const fn set_of(states: &[u8]) -> u16 {
    let mut set = 0;
    let mut k = 0;
    while k < states.len() {
        set |= 1 << states[k];
        k += 1;
    }
    set
}

const MODE_1: Mode = Mode {
    number: 1,
    unguarded: 1,
    line: Line::V27ter,
    width: 2,
    register_length: 7,
    guard: false,
    step: 90,
    near_taps: &[6],
    far_tap: 7,
    states: MODE_1_STATES,
    state_set: set_of(MODE_1_STATES),
};

const MODE_2: Mode = Mode {
    number: 2,
    unguarded: 2,
    line: Line::V27ter,
    width: 3,
    register_length: 7,
    guard: false,
    step: 45,
    near_taps: &[6],
    far_tap: 7,
    states: MODE_2_STATES,
    state_set: set_of(MODE_2_STATES),
};

const MODE_3: Mode = Mode {
    number: 3,
    unguarded: 3,
    line: Line::V32,
    width: 2,
    register_length: 23,
    guard: false,
    step: 90,
    near_taps: &[18, 5],
    far_tap: 23,
    states: MODE_3_STATES,
    state_set: set_of(MODE_3_STATES),
};

const MODE_4: Mode = Mode {
    number: 4,
    unguarded: 4,
    line: Line::V32,
    width: 4,
    register_length: 23,
    guard: false,
    step: 90,
    near_taps: &[18, 5],
    far_tap: 23,
    states: MODE_4_STATES,
    state_set: set_of(MODE_4_STATES),
};

/// A mode with the guard: all else is as it was, but that the register holds what
/// the guard compares with.
const fn with_guard(mode: Mode, number: u8) -> Mode {
    Mode {
        number,
        register_length: GUARD_LENGTH,
        guard: true,
        ..mode
    }
}

/// Mode m is entry m − 1.
pub static MODES: [Mode; 6] = [
    MODE_1,
    MODE_2,
    MODE_3,
    MODE_4,
    with_guard(MODE_1, 5),
    with_guard(MODE_2, 6),
];

/// Every mode with each of its roles.
pub fn modes_and_roles() -> impl Iterator<Item = (&'static Mode, u8)> {
    let roles = |mode: &Mode| 0..mode.near_taps.len() as u8;
    let with_roles = move |mode| roles(mode).map(move |role| (mode, role));
    MODES.iter().flat_map(with_roles)
}

impl Mode {
    /// The mode of a number; number 1 refuses any other.
    pub fn find(number: u8) -> Result<&'static Mode, Refusal> {
        let index = usize::from(number).wrapping_sub(1);
        MODES.get(index).ok_or(Refusal::MODE)
    }

    /// A mode and the scrambler of a role in it; numbers 1 and 2.
    pub fn find_with_role(number: u8, role: u8) -> Result<(&'static Mode, Scrambler), Refusal> {
        let mode = Mode::find(number)?;
        let scrambler = Scrambler::of(mode, role).ok_or(Refusal::ROLE)?;
        Ok((mode, scrambler))
    }

    /// Whether a number is a state of this mode.
    pub fn has_state(&self, state: u8) -> bool {
        state < 16 && self.state_set >> state & 1 == 1
    }
}
