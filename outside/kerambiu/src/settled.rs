//! From received points to the settled data bits of a block protocol.

use crate::raw;
use crate::refusal::outcome;
use crate::{Mode, Refusal};

/// Settled data bits without one missing between two of them.
#[derive(Clone, PartialEq, Eq, Debug)]
pub struct Run {
    /// The point at which it begins, counted from 0.
    pub point: usize,
    /// How many points it has.
    pub points: usize,
    /// The bits: all of its points', but for the unsettled ones of the first.
    pub bits: Vec<u8>,
}

impl Run {
    /// How many bits of the run's first point are unsettled, and not among the bits.
    pub fn unsettled(&self, mode: Mode) -> usize {
        mode.bits_in_point() * self.points - self.bits.len()
    }
}

/// The first run among points, given by the bytes of a [`crate::Block`], as many of
/// one kind as of the other. None where no data bit is settled.
pub fn settled_bits(mode: Mode, line: &[u8], plain: &[u8]) -> Result<Option<Run>, Refusal> {
    let mut bits = vec![0; mode.bits_in_point() * line.len()];
    let mut run = [0; 3];
    let number = raw::settled_bits(mode.number(), line, plain, &mut bits, &mut run);
    outcome(number)?;
    let [point, points, count] = run;
    bits.truncate(count);
    let run = Run {
        point,
        points,
        bits,
    };
    Ok((points > 0).then_some(run))
}

/// One run after the other of a block.
pub struct Runs<'a> {
    mode: Mode,
    line: &'a [u8],
    plain: &'a [u8],
    /// How many points of the block came before these.
    before: usize,
}

impl<'a> Runs<'a> {
    pub(crate) fn new(mode: Mode, line: &'a [u8], plain: &'a [u8]) -> Runs<'a> {
        Runs {
            mode,
            line,
            plain,
            before: 0,
        }
    }
}

impl Iterator for Runs<'_> {
    type Item = Run;

    fn next(&mut self) -> Option<Run> {
        let mut run = settled_bits(self.mode, self.line, self.plain).ok()??;
        let end = run.point + run.points;
        self.line = &self.line[end..];
        self.plain = &self.plain[end..];
        run.point += self.before;
        self.before += end;
        Some(run)
    }
}
