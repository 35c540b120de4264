//! The rows of the receiver.

use std::hint::black_box;

use kerambiu::raw as ours;
use outside::point::Point;
use outside::reading::{Levels, Reading};
use outside::receiver::{self, Answer, Receiver};
use outside::tuned;

use super::measure::{Side, Work};
use super::{call_row, input, levels_row};
use crate::bulk::ReceiveBlock;
use crate::layout::{self, ANSWER, STATE};
use crate::points;
use crate::signal::Signal;

const POINTS: usize = 40_000;
/// The points of one call of bulk receive.
const BLOCK: usize = 4_000;
/// Single points between gaps, where there are any.
const BETWEEN_GAPS: usize = 256;
/// The length of such a gap in unit intervals.
const GAP: u32 = 3;

/// A receiver of one of the implementations.
trait Receives {
    fn fresh(signal: Signal) -> Self;
    fn gap(&mut self);
    fn state(&self) -> [u8; STATE];
}

/// A receiver of points in units, or in levels.
trait Takes<P>: Receives {
    /// Takes a point; the bytes of the answer are kept if so.
    fn point<const KEPT: bool>(&mut self, point: P, kept: &mut Vec<u8>);
}

/// The proved library, with the bytes that it is lent.
struct Proved {
    state: [u8; STATE],
    answer: [u8; ANSWER],
}

impl Receives for Proved {
    fn fresh(signal: Signal) -> Proved {
        Proved {
            state: layout::receiver_bytes(&signal.receiver()),
            answer: [0; ANSWER],
        }
    }

    fn gap(&mut self) {
        black_box(ours::receive_gap(&mut self.state, GAP, &mut self.answer));
    }

    fn state(&self) -> [u8; STATE] {
        self.state
    }
}

impl Takes<Point> for Proved {
    #[inline(always)]
    fn point<const KEPT: bool>(&mut self, point: Point, kept: &mut Vec<u8>) {
        let number = ours::receive_point(&mut self.state, point.re, point.im, &mut self.answer);
        self.keep::<KEPT>(number, kept);
    }
}

impl Takes<Levels> for Proved {
    #[inline(always)]
    fn point<const KEPT: bool>(&mut self, point: Levels, kept: &mut Vec<u8>) {
        let number = ours::receive_levels(&mut self.state, point.re, point.im, &mut self.answer);
        self.keep::<KEPT>(number, kept);
    }
}

impl Proved {
    #[inline(always)]
    fn keep<const KEPT: bool>(&self, number: u8, kept: &mut Vec<u8>) {
        black_box((number, &self.answer));
        if KEPT {
            kept.extend(self.answer);
        }
    }
}

/// The plain implementation on its own state.
struct Plain {
    width: u32,
    state: Receiver,
}

impl Receives for Plain {
    fn fresh(signal: Signal) -> Plain {
        Plain {
            width: signal.mode.width,
            state: signal.receiver(),
        }
    }

    fn gap(&mut self) {
        let told = receiver::receive_gap(self.state, GAP);
        self.state = told.expect("taken").1;
    }

    fn state(&self) -> [u8; STATE] {
        layout::receiver_bytes(&self.state)
    }
}

impl Takes<Point> for Plain {
    #[inline(always)]
    fn point<const KEPT: bool>(&mut self, point: Point, kept: &mut Vec<u8>) {
        let told = receiver::receive_point(self.state, point.re, point.im);
        self.keep::<KEPT>(told.expect("taken"), kept);
    }
}

impl Takes<Levels> for Plain {
    #[inline(always)]
    fn point<const KEPT: bool>(&mut self, point: Levels, kept: &mut Vec<u8>) {
        let told = receiver::receive_reading(self.state, Reading::Point(point));
        self.keep::<KEPT>(told.expect("taken"), kept);
    }
}

impl Plain {
    #[inline(always)]
    fn keep<const KEPT: bool>(&mut self, (answer, next): (Answer, Receiver), kept: &mut Vec<u8>) {
        black_box(answer);
        self.state = next;
        if KEPT {
            kept.extend(layout::answer_bytes(self.width, &answer));
        }
    }
}

/// The plain implementation over the same 16 and 12 bytes as the proved one.
struct InBytes {
    width: u32,
    state: [u8; STATE],
}

impl Receives for InBytes {
    fn fresh(signal: Signal) -> InBytes {
        InBytes {
            width: signal.mode.width,
            state: layout::receiver_bytes(&signal.receiver()),
        }
    }

    fn gap(&mut self) {
        let told = receiver::receive_gap(layout::receiver_of(&self.state), GAP);
        self.state = layout::receiver_bytes(&told.expect("taken").1);
    }

    fn state(&self) -> [u8; STATE] {
        self.state
    }
}

impl Takes<Point> for InBytes {
    #[inline(always)]
    fn point<const KEPT: bool>(&mut self, point: Point, kept: &mut Vec<u8>) {
        let before = layout::receiver_of(&self.state);
        let told = receiver::receive_point(before, point.re, point.im);
        let (answer, next) = told.expect("taken");
        let answer = black_box(layout::answer_bytes(self.width, &answer));
        self.state = black_box(layout::receiver_bytes(&next));
        if KEPT {
            kept.extend(answer);
        }
    }
}

/// A list of single calls: points, with gaps between if so.
struct Calls<P> {
    signal: Signal,
    points: Vec<P>,
    gaps: bool,
}

impl<P: Copy> Calls<P> {
    /// The points between two gaps.
    fn stretches(&self) -> impl Iterator<Item = &[P]> {
        let size = if self.gaps { BETWEEN_GAPS } else { POINTS };
        self.points.chunks(size)
    }

    fn run<R: Takes<P>, const KEPT: bool>(&self, kept: &mut Vec<u8>) {
        let mut receiver = R::fresh(self.signal);
        for stretch in self.stretches() {
            for &point in stretch {
                receiver.point::<KEPT>(point, kept);
            }
            if self.gaps {
                receiver.gap();
            }
        }
        kept.extend(receiver.state());
    }

    fn side<R: Takes<P>>(&self) -> Side<'_> {
        Box::new(|kept| match kept {
            Some(kept) => self.run::<R, true>(kept),
            None => self.run::<R, false>(&mut Vec::new()),
        })
    }

    /// Two receivers over the same calls.
    fn row<One: Takes<P>, Other: Takes<P>>(&self, name: &str) {
        let work = Work {
            proved: self.side::<One>(),
            plain: Some(self.side::<Other>()),
            tuned: None,
        };
        call_row(name, self.signal, POINTS, work);
    }
}

fn random_calls(signal: Signal) -> Calls<Point> {
    Calls {
        signal,
        points: input::random(signal.mode, POINTS),
        gaps: false,
    }
}

/// Points in levels that are rounded to the random ones.
fn level_calls(signal: Signal) -> Calls<Levels> {
    Calls {
        signal,
        points: input::in_levels(&input::random(signal.mode, POINTS)),
        gaps: false,
    }
}

/// The machine's noise: the same work on both sides.
pub fn noise(name: &str, signal: Signal) {
    random_calls(signal).row::<Plain, Plain>(name);
}

pub fn single(name: &str, signal: Signal) {
    random_calls(signal).row::<Proved, Plain>(name);
}

pub fn single_in_bytes(name: &str, signal: Signal) {
    random_calls(signal).row::<Proved, InBytes>(name);
}

pub fn single_with_gaps(name: &str, signal: Signal) {
    let calls = Calls {
        signal,
        points: input::with_origins(signal.mode, POINTS),
        gaps: true,
    };
    calls.row::<Proved, Plain>(name);
}

pub fn single_levels(name: &str, signal: Signal) {
    level_calls(signal).row::<Proved, Plain>(name);
}

/// The library's two calls of a point, in levels and in whole numbers.
pub fn single_levels_and_whole(name: &str, signal: Signal) {
    let (levels, whole) = (level_calls(signal), random_calls(signal));
    let sides = [levels.side::<Proved>(), whole.side::<Proved>()];
    levels_row(name, signal, POINTS, sides);
}

/// A list of blocks, with gaps between if so; points are in units or in levels.
pub struct Blocks<'a, N> {
    signal: Signal,
    numbers: &'a [N],
    /// The points of a block.
    size: usize,
    gaps: bool,
}

impl<'a, N> Blocks<'a, N> {
    /// All points in one block, which may be empty.
    pub fn of_one(signal: Signal, numbers: &'a [N]) -> Blocks<'a, N> {
        Blocks {
            signal,
            numbers,
            size: numbers.len() / 2,
            gaps: false,
        }
    }

    /// The numbers of each block: one at least.
    fn blocks(&self) -> impl Iterator<Item = &'a [N]> {
        let (first, rest) = self.numbers.split_at(2 * self.size);
        std::iter::once(first).chain(rest.chunks(2 * self.size.max(1)))
    }

    /// Blocks one after the other, each received by a call on the receiver.
    fn side<'b, R: Receives + 'b>(
        &'b self,
        receive: impl Fn(&mut R, &[N], &mut [u8], &mut [u8], &mut [u32]) + 'b,
    ) -> Side<'b> {
        let (mut line, mut plain) = (vec![0; self.size], vec![0; self.size]);
        let mut distance = vec![0; self.size];
        Box::new(move |mut kept| {
            let mut receiver = R::fresh(self.signal);
            for block in self.blocks() {
                receive(&mut receiver, block, &mut line, &mut plain, &mut distance);
                black_box((&line, &plain, &distance));
                if self.gaps {
                    receiver.gap();
                }
                if let Some(kept) = &mut kept {
                    kept.extend(line.iter().chain(&plain).chain(&receiver.state()));
                    kept.extend(distance.iter().flat_map(|number| number.to_le_bytes()));
                }
            }
        })
    }

    /// The plain implementation or the tuned one.
    fn rust_side(&self, receive_points: ReceiveBlock<N>) -> Side<'_> {
        self.side(move |rust: &mut Plain, block, line, plain, distance| {
            let told = receive_points(rust.state, block, line, plain, distance);
            rust.state = black_box(told).expect("taken");
        })
    }
}

impl Blocks<'_, i16> {
    fn proved_side(&self) -> Side<'_> {
        self.side(|proved: &mut Proved, block, line, plain, distance| {
            let state = &mut proved.state;
            black_box(ours::receive_points(state, block, line, plain, distance));
        })
    }

    /// With the tuned receiver that takes one point after the other.
    pub fn work(&self) -> Work<'_> {
        self.against(tuned::receive_points)
    }

    fn against(&self, tuned: ReceiveBlock) -> Work<'_> {
        Work {
            proved: self.proved_side(),
            plain: Some(self.rust_side(receiver::receive_points)),
            tuned: Some(self.rust_side(tuned)),
        }
    }
}

impl Blocks<'_, f32> {
    fn proved_side(&self) -> Side<'_> {
        self.side(|proved: &mut Proved, block, line, plain, distance| {
            let state = &mut proved.state;
            black_box(ours::receive_level_points(
                state, block, line, plain, distance,
            ));
        })
    }

    pub fn work(&self) -> Work<'_> {
        Work {
            proved: self.proved_side(),
            plain: Some(self.rust_side(receiver::receive_level_points)),
            tuned: Some(self.rust_side(tuned::receive_level_points)),
        }
    }
}

/// Noisy sent points in blocks of so many.
fn small_blocks(name: &str, signal: Signal, size: usize) {
    let blocks = Blocks {
        signal,
        numbers: &points::flat(&input::noisy(signal.mode, POINTS)),
        size,
        gaps: false,
    };
    call_row(name, signal, POINTS, blocks.work());
}

pub fn bulk_by_one(name: &str, signal: Signal) {
    small_blocks(name, signal, 1);
}

/// As a listing takes the points of a record.
pub fn bulk_by_seven(name: &str, signal: Signal) {
    small_blocks(name, signal, 7);
}

fn bulk_row(name: &str, signal: Signal, points: &[Point], gaps: bool, tuned: ReceiveBlock) {
    let blocks = Blocks {
        signal,
        numbers: &points::flat(points),
        size: BLOCK,
        gaps,
    };
    call_row(name, signal, POINTS, blocks.against(tuned));
}

pub fn bulk(name: &str, signal: Signal) {
    let points = input::random(signal.mode, POINTS);
    bulk_row(name, signal, &points, false, tuned::receive_points);
}

pub fn bulk_noisy(name: &str, signal: Signal) {
    let points = input::noisy(signal.mode, POINTS);
    bulk_row(name, signal, &points, false, tuned::receive_points);
}

/// In the modes that have the guard.
pub fn bulk_repeating(name: &str, signal: Signal) {
    if signal.mode.guard {
        let points = input::repeating(signal.mode, POINTS);
        bulk_row(name, signal, &points, false, tuned::receive_points);
    }
}

pub fn bulk_with_gaps(name: &str, signal: Signal) {
    let points = input::with_origins(signal.mode, POINTS);
    bulk_row(name, signal, &points, true, tuned::receive_points);
}

/// Against the tuned receiver that goes over the points in passes.
pub fn bulk_in_passes(name: &str, signal: Signal) {
    let points = input::noisy(signal.mode, POINTS);
    bulk_row(name, signal, &points, false, tuned::receive_in_passes);
}

pub fn bulk_levels(name: &str, signal: Signal) {
    let levels = input::in_levels(&input::noisy(signal.mode, POINTS));
    let blocks = Blocks {
        signal,
        numbers: &points::flat_levels(&levels),
        size: BLOCK,
        gaps: false,
    };
    call_row(name, signal, POINTS, blocks.work());
}

/// The library's two calls of a block, in levels and in whole numbers.
fn bulk_levels_and_whole(name: &str, signal: Signal, points: &[Point]) {
    let levels = Blocks {
        signal,
        numbers: &points::flat_levels(&input::in_levels(points)),
        size: BLOCK,
        gaps: false,
    };
    let whole = Blocks {
        signal,
        numbers: &points::flat(points),
        size: BLOCK,
        gaps: false,
    };
    let sides = [levels.proved_side(), whole.proved_side()];
    levels_row(name, signal, POINTS, sides);
}

pub fn noisy_levels_and_whole(name: &str, signal: Signal) {
    bulk_levels_and_whole(name, signal, &input::noisy(signal.mode, POINTS));
}

pub fn random_levels_and_whole(name: &str, signal: Signal) {
    bulk_levels_and_whole(name, signal, &input::random(signal.mode, POINTS));
}
