//! Modes and roles.

use crate::Refusal;

/// A line: Recommendation and rate. A mode with a guard has V.27 ter's guard against
/// repeated patterns, as most V.27 ter modems have it; whether a line has it is not
/// seen from its points.
#[derive(Clone, Copy, PartialEq, Eq, Hash, Debug)]
pub enum Mode {
    V27Ter2400 = 1,
    V27Ter4800 = 2,
    V32At4800 = 3,
    /// Without the trellis code.
    V32At9600 = 4,
    V27Ter2400Guard = 5,
    V27Ter4800Guard = 6,
}

/// Which sender: a receiver has the role of the one that it listens to. With the
/// other role nothing is refused, and half of the data bits are wrong.
#[derive(Clone, Copy, PartialEq, Eq, Hash, Debug)]
pub enum Role {
    Calling = 0,
    /// V.32 only.
    Answering = 1,
}

impl Mode {
    pub const ALL: [Mode; 6] = [
        Mode::V27Ter2400,
        Mode::V27Ter4800,
        Mode::V32At4800,
        Mode::V32At9600,
        Mode::V27Ter2400Guard,
        Mode::V27Ter4800Guard,
    ];

    /// 1 to 6.
    pub fn number(self) -> u8 {
        self as u8
    }

    /// Line bits in a point, and data bits (w).
    pub fn bits_in_point(self) -> usize {
        match self {
            Mode::V27Ter2400 | Mode::V27Ter2400Guard | Mode::V32At4800 => 2,
            Mode::V27Ter4800 | Mode::V27Ter4800Guard => 3,
            Mode::V32At9600 => 4,
        }
    }

    /// Line bits that must have come before a data bit is settled (R).
    pub fn register_bits(self) -> usize {
        match self {
            Mode::V27Ter2400 | Mode::V27Ter4800 => 7,
            Mode::V27Ter2400Guard | Mode::V27Ter4800Guard => 12,
            Mode::V32At4800 | Mode::V32At9600 => 23,
        }
    }

    /// Unit intervals in a second.
    pub fn symbols_a_second(self) -> u32 {
        match self {
            Mode::V27Ter2400 | Mode::V27Ter2400Guard => 1200,
            Mode::V27Ter4800 | Mode::V27Ter4800Guard => 1600,
            Mode::V32At4800 | Mode::V32At9600 => 2400,
        }
    }

    /// The points of a training of this length: 0 or 1 in V.27 ter, 1280 to 8192
    /// intervals of the third segment in V.32. None for any other length.
    pub fn training_points(self, length: u32) -> Option<usize> {
        match (self, length) {
            (Mode::V32At4800 | Mode::V32At9600, 1280..=8192) => Some(length as usize + 272),
            (Mode::V32At4800 | Mode::V32At9600, _) => None,
            (_, 0) => Some(80),
            (_, 1) => Some(1132),
            _ => None,
        }
    }

    /// The first point after a hole whose data bits, and all after it, are the
    /// sender's, counted from 1. None with a guard: there it is after a line bit that
    /// differs from all three 8, 9 and 12 back.
    pub fn assured_from(self) -> Option<usize> {
        let guarded = matches!(self, Mode::V27Ter2400Guard | Mode::V27Ter4800Guard);
        let before = self.register_bits().div_ceil(self.bits_in_point());
        (!guarded).then_some(before + 2)
    }
}

impl TryFrom<u8> for Mode {
    type Error = Refusal;

    fn try_from(number: u8) -> Result<Mode, Refusal> {
        let known = Mode::ALL.into_iter().find(|mode| mode.number() == number);
        known.ok_or(Refusal::MODE)
    }
}

impl Role {
    /// 0 or 1.
    pub fn number(self) -> u8 {
        self as u8
    }
}

impl TryFrom<u8> for Role {
    type Error = Refusal;

    fn try_from(number: u8) -> Result<Role, Refusal> {
        match number {
            0 => Ok(Role::Calling),
            1 => Ok(Role::Answering),
            _ => Err(Refusal::ROLE),
        }
    }
}
