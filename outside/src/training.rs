//! Training sequences (document 01, "Sender"; document 02, R-6; V.27 ter, 2.5.1;
//! V.32, 5.2).

use std::iter;

use crate::code;
use crate::mode::{Line, Mode, A, B, C, D};
use crate::scrambler::{Register, Scrambler};
use crate::sender::{scrambled_group, PointWriter};
use crate::units::GuardCount;

/// The middle of V.27 ter training: 0 for no change of phase, 1 for 180°. Each
/// is the first of three bits of ones scrambled from `SEGMENT_4_REGISTER`; the
/// short training uses the first 58.
pub const SEGMENT_4: [u8; 1074] = [
    0, 1, 1, 1, 1, 1, 0, 0, 0, 0, 1, 1, 1, 0, 1, 0, 0, 1, 0, 1, 0, 0, 1, 1, 1, 1, 0, 1, 1, 1, 0, 1,
    1, 0, 0, 0, 1, 0, 0, 0, 0, 1, 0, 1, 1, 1, 0, 0, 1, 1, 0, 0, 1, 0, 1, 1, 0, 0, 1, 1, 1, 0, 0, 0,
    1, 1, 0, 1, 0, 1, 0, 1, 0, 0, 0, 1, 0, 1, 0, 1, 1, 0, 1, 1, 0, 1, 0, 0, 0, 0, 0, 0, 0, 1, 1, 0,
    0, 0, 0, 0, 1, 0, 0, 1, 0, 0, 0, 1, 1, 1, 1, 1, 1, 0, 1, 0, 1, 1, 1, 1, 0, 0, 1, 0, 0, 1, 1, 0,
    1, 1, 1, 1, 1, 0, 0, 0, 0, 1, 1, 1, 0, 1, 0, 0, 1, 0, 1, 0, 0, 1, 1, 1, 1, 0, 1, 1, 1, 0, 1, 1,
    0, 0, 0, 1, 0, 0, 0, 0, 1, 0, 1, 1, 1, 0, 0, 1, 1, 0, 0, 1, 0, 1, 1, 0, 0, 1, 1, 1, 0, 0, 0, 1,
    1, 0, 1, 0, 1, 0, 1, 0, 0, 0, 1, 0, 1, 0, 1, 1, 0, 1, 1, 0, 1, 0, 0, 0, 0, 0, 0, 0, 1, 1, 0, 0,
    0, 0, 0, 1, 0, 0, 1, 0, 0, 0, 1, 1, 1, 1, 1, 1, 0, 1, 0, 1, 1, 1, 1, 0, 0, 1, 0, 0, 1, 1, 0, 1,
    1, 1, 1, 1, 0, 0, 0, 0, 1, 1, 1, 0, 1, 0, 0, 1, 0, 1, 0, 0, 1, 1, 1, 1, 0, 1, 1, 1, 0, 1, 1, 0,
    0, 0, 1, 0, 0, 0, 0, 1, 0, 1, 1, 1, 0, 0, 1, 1, 0, 0, 1, 0, 1, 1, 0, 0, 1, 1, 1, 0, 0, 0, 1, 1,
    0, 1, 0, 1, 0, 1, 0, 0, 0, 1, 0, 1, 0, 1, 1, 0, 1, 1, 0, 1, 0, 0, 0, 0, 0, 0, 0, 1, 1, 0, 0, 0,
    0, 0, 1, 0, 0, 1, 0, 0, 0, 1, 1, 1, 1, 1, 1, 0, 1, 0, 1, 1, 1, 1, 0, 0, 1, 0, 0, 1, 1, 0, 1, 1,
    1, 1, 1, 0, 0, 0, 0, 1, 1, 1, 0, 1, 0, 0, 1, 0, 1, 0, 0, 1, 1, 1, 1, 0, 1, 1, 1, 0, 1, 1, 0, 0,
    0, 1, 0, 0, 0, 0, 1, 0, 1, 1, 1, 0, 0, 1, 1, 0, 0, 1, 0, 1, 1, 0, 0, 1, 1, 1, 0, 0, 0, 1, 1, 0,
    1, 0, 1, 0, 1, 0, 0, 0, 1, 0, 1, 0, 1, 1, 0, 1, 1, 0, 1, 0, 0, 0, 0, 0, 0, 0, 1, 1, 0, 0, 0, 0,
    0, 1, 0, 0, 1, 0, 0, 0, 1, 1, 1, 1, 1, 1, 0, 1, 0, 1, 1, 1, 1, 0, 0, 1, 0, 0, 1, 1, 0, 1, 1, 1,
    1, 1, 0, 0, 0, 0, 1, 1, 1, 0, 1, 0, 0, 1, 0, 1, 0, 0, 1, 1, 1, 1, 0, 1, 1, 1, 0, 1, 1, 0, 0, 0,
    1, 0, 0, 0, 0, 1, 0, 1, 1, 1, 0, 0, 1, 1, 0, 0, 1, 0, 1, 1, 0, 0, 1, 1, 1, 0, 0, 0, 1, 1, 0, 1,
    0, 1, 0, 1, 0, 0, 0, 1, 0, 1, 0, 1, 1, 0, 1, 1, 0, 1, 0, 0, 0, 0, 0, 0, 0, 1, 1, 0, 0, 0, 0, 0,
    1, 0, 0, 1, 0, 0, 0, 1, 1, 1, 1, 1, 1, 0, 1, 0, 1, 1, 1, 1, 0, 0, 1, 0, 0, 1, 1, 0, 1, 1, 1, 1,
    1, 0, 0, 0, 0, 1, 1, 1, 0, 1, 0, 0, 1, 0, 1, 0, 0, 1, 1, 1, 1, 0, 1, 1, 1, 0, 1, 1, 0, 0, 0, 1,
    0, 0, 0, 0, 1, 0, 1, 1, 1, 0, 0, 1, 1, 0, 0, 1, 0, 1, 1, 0, 0, 1, 1, 1, 0, 0, 0, 1, 1, 0, 1, 0,
    1, 0, 1, 0, 0, 0, 1, 0, 1, 0, 1, 1, 0, 1, 1, 0, 1, 0, 0, 0, 0, 0, 0, 0, 1, 1, 0, 0, 0, 0, 0, 1,
    0, 0, 1, 0, 0, 0, 1, 1, 1, 1, 1, 1, 0, 1, 0, 1, 1, 1, 1, 0, 0, 1, 0, 0, 1, 1, 0, 1, 1, 1, 1, 1,
    0, 0, 0, 0, 1, 1, 1, 0, 1, 0, 0, 1, 0, 1, 0, 0, 1, 1, 1, 1, 0, 1, 1, 1, 0, 1, 1, 0, 0, 0, 1, 0,
    0, 0, 0, 1, 0, 1, 1, 1, 0, 0, 1, 1, 0, 0, 1, 0, 1, 1, 0, 0, 1, 1, 1, 0, 0, 0, 1, 1, 0, 1, 0, 1,
    0, 1, 0, 0, 0, 1, 0, 1, 0, 1, 1, 0, 1, 1, 0, 1, 0, 0, 0, 0, 0, 0, 0, 1, 1, 0, 0, 0, 0, 0, 1, 0,
    0, 1, 0, 0, 0, 1, 1, 1, 1, 1, 1, 0, 1, 0, 1, 1, 1, 1, 0, 0, 1, 0, 0, 1, 1, 0, 1, 1, 1, 1, 1, 0,
    0, 0, 0, 1, 1, 1, 0, 1, 0, 0, 1, 0, 1, 0, 0, 1, 1, 1, 1, 0, 1, 1, 1, 0, 1, 1, 0, 0, 0, 1, 0, 0,
    0, 0, 1, 0, 1, 1, 1, 0, 0, 1, 1, 0, 0, 1, 0, 1, 1, 0, 0, 1, 1, 1, 0, 0, 0, 1, 1, 0, 1, 0, 1, 0,
    1, 0, 0, 0, 1, 0, 1, 0, 1, 1, 0, 1, 1, 0, 1, 0, 0, 0, 0, 0, 0, 0, 1, 1, 0, 0, 0, 0, 0, 1, 0, 0,
    1, 0, 0, 0, 1, 1, 1, 1, 1, 1, 0, 1, 0, 1, 1, 1, 1, 0, 0, 1, 0, 0, 1, 1, 0, 1, 1, 1, 1, 1, 0, 0,
    0, 0, 1, 1, 1, 0, 1, 0, 0, 1, 0, 1, 0, 0, 1, 1, 1, 1, 0, 1, 1, 1, 0, 1, 1, 0, 0, 0, 1, 0, 0, 0,
    0, 1, 0, 1, 1, 1, 0, 0, 1, 1, 0, 0, 1, 0, 1, 1, 0, 0,
];

/// The register before segment 4: 0 1 1 1 1 0 0, oldest first.
pub const SEGMENT_4_REGISTER: u32 = 0b0111100;

/// The last line bits of segment 4 of either length, oldest first: the last twelve
/// pseudo-random bits in table 4, of which a register keeps R. The lengths differ
/// by 3 · 1016 bits, which is 24 of the sequence's periods of 127.
pub const SEGMENT_4_END: u32 = 0b110100010001;

/// The scrambled ones that end V.27 ter training, in unit intervals.
const SEGMENT_5_INTERVALS: usize = 8;

/// Segments 1 and 2 of V.32 training, in unit intervals.
const AB_INTERVALS: usize = 256;
const CD_INTERVALS: usize = 16;

/// The first intervals of V.32's segment 3, where only a dibit's first bit counts.
const TWO_STATE_INTERVALS: usize = 256;

/// A training that a mode has.
#[derive(Clone, Copy, PartialEq, Eq, Debug)]
pub enum Training {
    /// Reversals and middle changes, in unit intervals.
    V27ter { reversals: usize, changes: usize },
    /// The unit intervals of the third segment.
    V32 { third: usize },
}

impl Training {
    /// The training of a length, unless the mode has none (number 3).
    pub fn of(mode: &Mode, length: u32) -> Option<Training> {
        match (mode.line, length) {
            (Line::V27ter, 0) => Some(Training::V27ter {
                reversals: 14,
                changes: 58,
            }),
            (Line::V27ter, 1) => Some(Training::V27ter {
                reversals: 50,
                changes: 1074,
            }),
            (Line::V32, 1280..=8192) => Some(Training::V32 {
                third: length as usize,
            }),
            _ => None,
        }
    }

    /// The whole training in unit intervals, which is its count of points.
    pub fn intervals(self) -> usize {
        match self {
            Training::V27ter { reversals, changes } => reversals + changes + SEGMENT_5_INTERVALS,
            Training::V32 { third } => AB_INTERVALS + CD_INTERVALS + third,
        }
    }

    /// Writes the training; gives its last state and the register after it.
    pub fn write(
        self,
        mode: &Mode,
        scrambler: Scrambler,
        writer: &mut PointWriter,
    ) -> (u8, Register) {
        match self {
            Training::V27ter { reversals, changes } => {
                let state = write_reversals(reversals, &SEGMENT_4[..changes], writer);
                write_segment_5(mode, scrambler, state, writer)
            }
            Training::V32 { third } => {
                write_alternations(writer);
                write_third_segment(scrambler, third, writer)
            }
        }
    }
}

/// Segments 3 and 4 of V.27 ter, from state 0; gives the last state.
fn write_reversals(reversals: usize, middle: &[u8], writer: &mut PointWriter) -> u8 {
    let mut state = 0;
    for reverse in iter::repeat_n(&1, reversals).chain(middle) {
        state = (state + 4 * reverse) % 8;
        writer.put(state);
    }
    state
}

/// The register with some line bits before anything is counted.
fn uncounted(bits: u32) -> Register {
    Register {
        bits,
        count: GuardCount(0),
    }
}

/// Segment 5 of V.27 ter: scrambled ones, coded as data are. The guard, in a mode
/// that has it, begins here.
fn write_segment_5(
    mode: &Mode,
    scrambler: Scrambler,
    reference: u8,
    writer: &mut PointWriter,
) -> (u8, Register) {
    let mut state = reference;
    let mut register = uncounted(scrambler.kept(SEGMENT_4_END));
    for _ in 0..SEGMENT_5_INTERVALS {
        let (group, after) = scrambled_ones(scrambler, register, mode.width);
        register = after;
        state = code::next_state(mode, state, group);
        writer.put(state);
    }
    (state, register)
}

/// Segments 1 and 2 of V.32.
fn write_alternations(writer: &mut PointWriter) {
    for interval in 0..AB_INTERVALS {
        writer.put([A, B][interval % 2]);
    }
    for interval in 0..CD_INTERVALS {
        writer.put([C, D][interval % 2]);
    }
}

/// Segment 3 of V.32: ones scrambled from a zero register, without the
/// differential code.
fn write_third_segment(
    scrambler: Scrambler,
    third: usize,
    writer: &mut PointWriter,
) -> (u8, Register) {
    let (mut state, mut register) = (D, uncounted(0));
    for interval in 0..third {
        let (dibit, after) = scrambled_ones(scrambler, register, 2);
        register = after;
        state = if interval < TWO_STATE_INTERVALS {
            [A, C][usize::from(dibit / 2)]
        } else {
            // V.32, table 5: 00 A, 01 B, 10 D, 11 C.
            [A, B, D, C][usize::from(dibit)]
        };
        writer.put(state);
    }
    (state, register)
}

fn scrambled_ones(scrambler: Scrambler, register: Register, count: u32) -> (u8, Register) {
    scrambled_group(scrambler, register, iter::repeat_n(1, count as usize))
}
