//! The receiver: points to bits, each at its unit interval.

use crate::raw::{self, ANSWER_BYTES, ORIGIN, REFERENCE, STATE_BYTES};
use crate::refusal::outcome;
use crate::settled::Runs;
use crate::{Mode, Refusal, Role};

/// A receiver's state, always a sound one. Keep it, or its bytes, to go on later: it
/// knows of no store.
#[derive(Clone, PartialEq, Eq, Debug)]
pub struct Receiver {
    state: [u8; STATE_BYTES],
}

/// What a receiver says to a point or a gap.
#[derive(Clone, Copy, PartialEq, Eq, Debug)]
pub enum Answer {
    /// The point became the reference, and carries no bits.
    Reference { distance: u32 },
    /// Line bits and data bits, each a number with the first in time highest. The
    /// first `unsettled` data bits in time are not known, and 0.
    Bits {
        line: u8,
        data: u8,
        unsettled: u8,
        distance: u32,
    },
    /// So many unit intervals are lost; a point at the origin is one.
    Gap { intervals: u32 },
}

/// What a receiver says to many points at once: a byte of line bits, one of data bits
/// and a distance for each, as `kerambiu_receive_points` writes them.
#[derive(Clone, PartialEq, Eq, Debug)]
pub struct Block {
    mode: Mode,
    /// The place of the first point.
    pub place: u32,
    pub line: Vec<u8>,
    pub plain: Vec<u8>,
    pub distance: Vec<u32>,
}

impl Receiver {
    /// A receiver that has taken nothing, at place 0.
    pub fn new(mode: Mode, role: Role) -> Result<Receiver, Refusal> {
        let mut state = [0; STATE_BYTES];
        outcome(raw::fresh(&mut state, mode.number(), role.number()))?;
        Ok(Receiver { state })
    }

    /// The same at a known place.
    pub fn at_place(mode: Mode, role: Role, place: u32) -> Result<Receiver, Refusal> {
        let mut receiver = Receiver::new(mode, role)?;
        receiver.state[12..].copy_from_slice(&place.to_le_bytes());
        Ok(receiver)
    }

    /// The receiver that these bytes are the state of.
    pub fn from_bytes(bytes: [u8; STATE_BYTES]) -> Result<Receiver, Refusal> {
        let mut state = bytes;
        outcome(raw::receive_points(
            &mut state,
            &[],
            &mut [],
            &mut [],
            &mut [],
        ))?;
        Ok(Receiver { state })
    }

    /// The state, laid out as in `include/kerambiu.h`.
    pub fn bytes(&self) -> [u8; STATE_BYTES] {
        self.state
    }

    pub fn mode(&self) -> Mode {
        Mode::try_from(self.state[0]).expect("a sound state has a mode")
    }

    pub fn role(&self) -> Role {
        Role::try_from(self.state[1]).expect("a sound state has a role")
    }

    /// The unit interval of what is taken next.
    pub fn place(&self) -> u32 {
        u32_at(&self.state, 12)
    }

    /// Takes a point, 1024 units to a level; the origin is a gap of one interval.
    pub fn point(&mut self, re: i16, im: i16) -> Result<Answer, Refusal> {
        self.take(|state, answer| raw::receive_point(state, re, im, answer))
    }

    /// Takes a gap of `intervals`.
    pub fn gap(&mut self, intervals: u32) -> Result<Answer, Refusal> {
        self.take(|state, answer| raw::receive_gap(state, intervals, answer))
    }

    /// Takes a point in levels.
    pub fn levels(&mut self, re: f32, im: f32) -> Result<Answer, Refusal> {
        self.take(|state, answer| raw::receive_levels(state, re, im, answer))
    }

    /// Takes a squelched interval with its power: a gap of one interval.
    pub fn squelch(&mut self, power: f32) -> Result<Answer, Refusal> {
        self.take(|state, answer| raw::receive_squelch(state, power, answer))
    }

    /// Takes a hole: a gap of `intervals`.
    pub fn hole(&mut self, intervals: u32) -> Result<Answer, Refusal> {
        self.take(|state, answer| raw::receive_hole(state, intervals, answer))
    }

    /// Takes points, re and im in turn, all or none.
    pub fn points(&mut self, points: &[i16]) -> Result<Block, Refusal> {
        let mut block = self.block(points.len() / 2);
        let (line, plain) = (&mut block.line, &mut block.plain);
        let state = &mut self.state;
        let number = raw::receive_points(state, points, line, plain, &mut block.distance);
        outcome(number).map(|()| block)
    }

    /// Takes points in levels, re and im in turn, all or none.
    pub fn level_points(&mut self, levels: &[f32]) -> Result<Block, Refusal> {
        let mut block = self.block(levels.len() / 2);
        let (line, plain) = (&mut block.line, &mut block.plain);
        let state = &mut self.state;
        let number = raw::receive_level_points(state, levels, line, plain, &mut block.distance);
        outcome(number).map(|()| block)
    }

    fn take(&mut self, call: impl Fn(&mut [u8], &mut [u8]) -> u8) -> Result<Answer, Refusal> {
        let mut answer = [0; ANSWER_BYTES];
        outcome(call(&mut self.state, &mut answer))?;
        Ok(Answer::of(&answer))
    }

    /// A block for so many points from here on.
    fn block(&self, points: usize) -> Block {
        Block {
            mode: self.mode(),
            place: self.place(),
            line: vec![0; points],
            plain: vec![0; points],
            distance: vec![0; points],
        }
    }
}

impl Answer {
    fn of(bytes: &[u8; ANSWER_BYTES]) -> Answer {
        let distance = u32_at(bytes, 8);
        match bytes[0] {
            0 => Answer::Reference { distance },
            1 => Answer::Bits {
                line: bytes[1],
                data: bytes[2],
                unsettled: bytes[3],
                distance,
            },
            _ => Answer::Gap {
                intervals: u32_at(bytes, 4),
            },
        }
    }
}

impl Block {
    /// What a single call says to each point, in turn.
    pub fn answers(&self) -> impl Iterator<Item = Answer> + '_ {
        let bytes = self.line.iter().zip(&self.plain).zip(&self.distance);
        bytes.map(|((&line, &plain), &distance)| match line {
            ORIGIN => Answer::Gap { intervals: 1 },
            REFERENCE => Answer::Reference { distance },
            _ => Answer::Bits {
                line,
                data: plain % 16,
                unsettled: plain / 16,
                distance,
            },
        })
    }

    /// The runs of settled data bits, the first in time first; the point of a run
    /// counts from the block's first.
    pub fn runs(&self) -> Runs<'_> {
        Runs::new(self.mode, &self.line, &self.plain)
    }
}

fn u32_at(bytes: &[u8], at: usize) -> u32 {
    u32::from_le_bytes([bytes[at], bytes[at + 1], bytes[at + 2], bytes[at + 3]])
}
