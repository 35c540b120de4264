//! The receiver (document 01, "Receiver"; document 02, R-1, R-3 and R-6).

use crate::code;
use crate::mode::Mode;
use crate::point::{self, Decision, Point};
use crate::reading::{self, Reading};
use crate::refusal::{need, Refusal};
use crate::scrambler::{Register, Scrambler};
use crate::units::{BitCount, GuardCount, SquaredUnits, UnitIntervals};

/// A receiver's state. The fields hold any value; numbers 1, 2 and 4 refuse
/// those out of range.
#[derive(Clone, Copy, PartialEq, Eq, Debug)]
pub struct Receiver {
    pub mode: u8,
    /// The role of the sender that is listened to.
    pub role: u8,
    /// The state of the last point since the last gap.
    pub reference: Option<u8>,
    /// The line bits since the last gap, R at most, newest lowest.
    pub register: u32,
    /// How many line bits the register holds.
    pub held: BitCount,
    /// The guard's count, zero in a mode without it and while fewer than R are
    /// held.
    pub count: GuardCount,
    /// The unit intervals before the next event.
    pub place: UnitIntervals,
}

impl Receiver {
    /// What its scrambler keeps between bits.
    pub fn register_and_count(&self) -> Register {
        Register {
            bits: self.register,
            count: self.count,
        }
    }
}

/// The answer to an accepted event. That to a decided point has the distance
/// from the sent point of its state.
#[derive(Clone, Copy, PartialEq, Eq, Debug)]
pub enum Answer {
    /// The point became the reference; it carries no bits.
    Reference { distance: SquaredUnits },
    /// w line bits and their data bits, the first in time highest. A bit of
    /// `settled` is 1 where the data bit is settled; an unsettled one is 0 in
    /// `plain`.
    Bits {
        line: u8,
        plain: u8,
        settled: u8,
        distance: SquaredUnits,
    },
    /// A gap and its length.
    Gap(UnitIntervals),
}

/// A fresh receiver: no reference, no line bits, count and place 0. Refuses by 1 and 2.
pub fn fresh(mode: u8, role: u8) -> Result<Receiver, Refusal> {
    Mode::find_with_role(mode, role)?;
    Ok(Receiver {
        mode,
        role,
        reference: None,
        register: 0,
        held: BitCount(0),
        count: GuardCount(0),
        place: UnitIntervals(0),
    })
}

/// Takes a point; the origin is a gap of one interval. Refuses by 1, 2, 4, 8 and
/// 16.
pub fn receive_point(state: Receiver, re: i16, im: i16) -> Result<(Answer, Receiver), Refusal> {
    let (mode, scrambler) = checked(&state)?;
    let point = Point { re, im };
    need(point.in_range(), Refusal::COORDINATE)?;
    take_point(state, mode, scrambler, point)
}

/// Takes a gap of n intervals. Refuses by 1, 2, 4, 9 and 16.
pub fn receive_gap(state: Receiver, n: u32) -> Result<(Answer, Receiver), Refusal> {
    checked(&state)?;
    need(n > 0, Refusal::EMPTY_GAP)?;
    pass_gap(state, UnitIntervals(n))
}

/// Takes a reading: a squelched interval is a gap of one, a hole a gap of its
/// count. Refuses by 1, 2, 4, 18 and by the numbers of the point in units or of
/// the gap.
pub fn receive_reading(state: Receiver, reading: Reading) -> Result<(Answer, Receiver), Refusal> {
    let (mode, scrambler) = checked(&state)?;
    match reading {
        Reading::Point(levels) => take_point(state, mode, scrambler, levels.rounded()?),
        Reading::Squelch { power } => {
            need(power.is_finite(), Refusal::NOT_FINITE)?;
            pass_gap(state, UnitIntervals(1))
        }
        Reading::Hole { intervals } => {
            need(intervals > 0, Refusal::EMPTY_GAP)?;
            pass_gap(state, UnitIntervals(intervals))
        }
    }
}

/// Numbers 1, 2 and 4 of a handed-in receiver.
pub(crate) fn checked(state: &Receiver) -> Result<(&'static Mode, Scrambler), Refusal> {
    let (mode, scrambler) = Mode::find_with_role(state.mode, state.role)?;
    let reference_fits = match state.reference {
        Some(reference) => mode.has_state(reference),
        None => state.held == BitCount(0),
    };
    need(
        reference_fits && scrambler.fits(state.register_and_count(), state.held),
        Refusal::STATE_FIELD,
    )?;
    Ok((mode, scrambler))
}

fn pass_gap(state: Receiver, length: UnitIntervals) -> Result<(Answer, Receiver), Refusal> {
    let place = state.place.plus(length).ok_or(Refusal::TOO_LONG)?;
    let next = Receiver {
        reference: None,
        register: 0,
        held: BitCount(0),
        count: GuardCount(0),
        place,
        ..state
    };
    Ok((Answer::Gap(length), next))
}

/// A point in range; the origin is a gap of one interval.
#[inline(always)]
fn take_point(
    state: Receiver,
    mode: &Mode,
    scrambler: Scrambler,
    point: Point,
) -> Result<(Answer, Receiver), Refusal> {
    match point::decide(mode, point.re, point.im) {
        Decision::State {
            state: decided,
            distance,
        } => take_state(state, mode, scrambler, decided, distance),
        Decision::Origin => pass_gap(state, UnitIntervals(1)),
    }
}

/// A decided point: the reference if there is none, else w line bits.
fn take_state(
    state: Receiver,
    mode: &Mode,
    scrambler: Scrambler,
    decided: u8,
    distance: SquaredUnits,
) -> Result<(Answer, Receiver), Refusal> {
    let place = state.place.plus(UnitIntervals(1));
    let next = Receiver {
        reference: Some(decided),
        place: place.ok_or(Refusal::TOO_LONG)?,
        ..state
    };
    let Some(reference) = state.reference else {
        return Ok((Answer::Reference { distance }, next));
    };
    let line = code::group(mode, reference, decided);
    let (mut register, mut held) = (state.register_and_count(), state.held);
    let (mut plain, mut settled) = (0, 0);
    for position in (0..mode.width).rev() {
        let bit = scrambler.descramble(register, held, line >> position & 1);
        plain = 2 * plain + bit.data.unwrap_or(0);
        settled = 2 * settled + u8::from(bit.data.is_some());
        (register, held) = (bit.register, bit.held);
    }
    let answer = Answer::Bits {
        line,
        plain,
        settled,
        distance,
    };
    let next = Receiver {
        register: register.bits,
        held,
        count: register.count,
        ..next
    };
    Ok((answer, next))
}

/// The byte of line bits of a point that became the reference, and of one at
/// the origin: no group of line bits has these numbers.
pub const REFERENCE_BYTE: u8 = 16;
pub const GAP_BYTE: u8 = 17;

/// Takes points, re and im in turn, all or none. For each a byte of line bits,
/// a byte of data bits with 16 times the count of unsettled ones added, and the
/// distance, 0 for a point at the origin, are written. Refuses by 1, 2, 4, 7, 8
/// and 16.
pub fn receive_points(
    state: Receiver,
    points: &[i16],
    line: &mut [u8],
    plain: &mut [u8],
    distance: &mut [u32],
) -> Result<Receiver, Refusal> {
    let (mode, scrambler) = checked(&state)?;
    need_lent(points.len(), line, plain, distance)?;
    let in_range = |x: &i16| (-16384..=16384).contains(x);
    need(points.iter().all(in_range), Refusal::COORDINATE)?;
    let left = (u32::MAX - state.place.0) as usize;
    need(points.len() / 2 <= left, Refusal::TOO_LONG)?;
    let mut next = state;
    let numbers = line.iter_mut().zip(plain.iter_mut()).zip(distance);
    for (pair, ((line, plain), distance)) in points.chunks_exact(2).zip(numbers) {
        let (re, im) = (pair[0], pair[1]);
        let (answer, after) = take_point(next, mode, scrambler, Point { re, im })?;
        (*line, *plain, *distance) = block_numbers(mode.width, answer);
        next = after;
    }
    Ok(next)
}

/// Takes points in levels, re and im in turn, all or none, and writes what
/// `receive_points` writes for them in units. Refuses by 1, 2, 4, 7, 18, 8 and
/// 16: number 18 of any point goes before number 8 of any.
pub fn receive_level_points(
    state: Receiver,
    levels: &[f32],
    line: &mut [u8],
    plain: &mut [u8],
    distance: &mut [u32],
) -> Result<Receiver, Refusal> {
    checked(&state)?;
    need_lent(levels.len(), line, plain, distance)?;
    let finite = |level: &f32| level.is_finite();
    need(levels.iter().all(finite), Refusal::NOT_FINITE)?;
    let units = levels.iter().map(|&level| reading::coordinate(level));
    let points: Option<Vec<i16>> = units.collect();
    let points = points.ok_or(Refusal::COORDINATE)?;
    receive_points(state, &points, line, plain, distance)
}

/// Number 7 of a block: an odd count of numbers, or a lent part shorter than the
/// points.
fn need_lent(numbers: usize, line: &[u8], plain: &[u8], distance: &[u32]) -> Result<(), Refusal> {
    let lent = line.len().min(plain.len()).min(distance.len());
    let fits = numbers.is_multiple_of(2) && lent >= numbers / 2;
    need(fits, Refusal::LENT_NUMBERS)
}

/// What a block has for a point: its line bits, its data bits, its distance.
pub fn block_numbers(width: u32, answer: Answer) -> (u8, u8, u32) {
    match answer {
        Answer::Reference { distance } => (REFERENCE_BYTE, 0, distance.0),
        Answer::Gap(_) => (GAP_BYTE, 0, 0),
        Answer::Bits {
            line,
            plain,
            settled,
            distance,
        } => {
            let unsettled = (width - settled.count_ones()) as u8;
            (line, plain + 16 * unsettled, distance.0)
        }
    }
}
