//! The sender (document 01, "Sender"; document 02, R-6).

use crate::code;
use crate::mode::Mode;
use crate::point;
use crate::refusal::{need, Refusal};
use crate::scrambler::{Register, Scrambler};
use crate::training::Training;
use crate::units::{BitCount, GuardCount};

/// A sender's state. The fields hold any value; numbers 1, 2 and 4 refuse those
/// out of range.
#[derive(Clone, Copy, PartialEq, Eq, Debug)]
pub struct Sender {
    pub mode: u8,
    pub role: u8,
    /// The state of the last point.
    pub reference: u8,
    /// The last R line bits, newest lowest.
    pub register: u32,
    /// How many line bits the register holds: R.
    pub held: BitCount,
    /// The guard's count, zero in a mode without it.
    pub count: GuardCount,
}

impl Sender {
    /// What its scrambler keeps between bits.
    pub fn register_and_count(&self) -> Register {
        Register {
            bits: self.register,
            count: self.count,
        }
    }
}

/// Writes points one after another into lent numbers: re, then im.
pub struct PointWriter<'a> {
    mode: &'static Mode,
    numbers: std::slice::ChunksExactMut<'a, i16>,
}

impl<'a> PointWriter<'a> {
    /// A writer into the numbers from the offset on. Number 7: fewer than two
    /// for each point from there, or an offset past the end.
    pub fn new(
        mode: &'static Mode,
        out: &'a mut [i16],
        offset: usize,
        points: usize,
    ) -> Result<PointWriter<'a>, Refusal> {
        let lent = out.get_mut(offset..).ok_or(Refusal::LENT_NUMBERS)?;
        need(lent.len() / 2 >= points, Refusal::LENT_NUMBERS)?;
        Ok(PointWriter {
            mode,
            numbers: lent[..2 * points].chunks_exact_mut(2),
        })
    }

    /// Writes the sent point of a state.
    pub fn put(&mut self, state: u8) {
        if let Some([re, im]) = self.numbers.next() {
            let sent = point::sent(self.mode, state);
            *re = sent.re;
            *im = sent.im;
        }
    }
}

/// Writes the training and hands back the state after it. Refuses by 1, 2, 3
/// and 7.
///
/// `length` is 0 (short) or 1 (long) in the modes of V.27 ter; in those of V.32
/// it is the unit intervals of the third segment.
pub fn open(
    mode: u8,
    role: u8,
    length: u32,
    out: &mut [i16],
    offset: usize,
) -> Result<Sender, Refusal> {
    let (line_mode, scrambler) = Mode::find_with_role(mode, role)?;
    let training = Training::of(line_mode, length).ok_or(Refusal::TRAINING_LENGTH)?;
    let mut writer = PointWriter::new(line_mode, out, offset, training.intervals())?;
    let (reference, register) = training.write(line_mode, scrambler, &mut writer);
    Ok(Sender {
        mode,
        role,
        reference,
        register: register.bits,
        held: scrambler.full(),
        count: register.count,
    })
}

/// Writes a point for each w data bits, one bit in a byte, and hands back the
/// state after them. Refuses by 1, 2, 4, 5, 6 and 7.
pub fn send(
    state: Sender,
    input: &[u8],
    out: &mut [i16],
    offset: usize,
) -> Result<Sender, Refusal> {
    let (mode, scrambler) = checked(&state)?;
    let width = mode.width as usize;
    need(input.iter().all(|&bit| bit <= 1), Refusal::DATA_BYTE)?;
    need(input.len().is_multiple_of(width), Refusal::BIT_COUNT)?;
    let mut writer = PointWriter::new(mode, out, offset, input.len() / width)?;
    let mut next = state;
    for bits in input.chunks_exact(width) {
        let bits = bits.iter().copied();
        let (group, register) = scrambled_group(scrambler, next.register_and_count(), bits);
        (next.register, next.count) = (register.bits, register.count);
        next.reference = code::next_state(mode, next.reference, group);
        writer.put(next.reference);
    }
    Ok(next)
}

/// Numbers 1, 2 and 4 of a handed-in sender.
pub(crate) fn checked(state: &Sender) -> Result<(&'static Mode, Scrambler), Refusal> {
    let (mode, scrambler) = Mode::find_with_role(state.mode, state.role)?;
    let fits = mode.has_state(state.reference)
        && state.held == scrambler.full()
        && scrambler.fits(state.register_and_count(), state.held);
    need(fits, Refusal::STATE_FIELD)?;
    Ok((mode, scrambler))
}

/// The line bits for some data bits, the first in time highest, and the
/// register after them.
pub fn scrambled_group(
    scrambler: Scrambler,
    register: Register,
    bits: impl Iterator<Item = u8>,
) -> (u8, Register) {
    bits.fold((0, register), |(group, register), bit| {
        let (line, register) = scrambler.scramble(register, bit);
        (2 * group + line, register)
    })
}
