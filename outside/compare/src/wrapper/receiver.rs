//! Receivers: made, taken from bytes, and given points, gaps and readings.

use kerambiu::raw as ours;
use kerambiu::{Answer, Block, Receiver, Refusal};
use outside::mode::Mode;
use outside::rng::Rng;

use super::{outcome, random_numbers, typed};
use crate::layout::{self, ANSWER, STATE};
use crate::tally::Tally;
use crate::{faults, floats, points, receiving};

/// Calls in a round on one receiver.
const CALLS: u64 = 8;

/// A call of one event, and what stands for it in print.
#[derive(Clone, Copy, Debug)]
enum Event {
    Point(i16, i16),
    Gap(u32),
    Levels(f32, f32),
    Squelch(f32),
    Hole(u32),
}

fn u32_bytes(word: u32) -> [u8; 4] {
    word.to_le_bytes()
}

/// The bytes that the header gives an answer.
fn answer_bytes(answer: Answer) -> [u8; ANSWER] {
    let (first, gap, distance) = match answer {
        Answer::Reference { distance } => ([0; 4], 0, distance),
        Answer::Bits {
            line,
            data,
            unsettled,
            distance,
        } => ([1, line, data, unsettled], 0, distance),
        Answer::Gap { intervals } => ([2, 0, 0, 0], intervals, 0),
    };
    let mut bytes = [0; ANSWER];
    bytes[..4].copy_from_slice(&first);
    bytes[4..8].copy_from_slice(&u32_bytes(gap));
    bytes[8..].copy_from_slice(&u32_bytes(distance));
    bytes
}

fn random_event(rng: &mut Rng, mode: &Mode) -> Event {
    let intervals = rng.next_u64() as u32 >> rng.below(33).min(31);
    let intervals = if rng.below(4) == 0 { 0 } else { intervals };
    let [re, im] = [(); 2].map(|()| floats::random(rng));
    match rng.below(12) {
        0 => Event::Gap(intervals),
        1 => Event::Hole(intervals),
        2 => Event::Squelch(re),
        3 => Event::Levels(re, im),
        4 | 5 => Event::Levels(floats::in_range(rng), floats::in_range(rng)),
        6 => {
            let point = points::out_of_range(rng);
            Event::Point(point.re, point.im)
        }
        _ => {
            let point = points::in_range(rng, mode);
            Event::Point(point.re, point.im)
        }
    }
}

fn take(receiver: &mut Receiver, event: Event) -> Result<Answer, Refusal> {
    match event {
        Event::Point(re, im) => receiver.point(re, im),
        Event::Gap(n) => receiver.gap(n),
        Event::Levels(re, im) => receiver.levels(re, im),
        Event::Squelch(power) => receiver.squelch(power),
        Event::Hole(n) => receiver.hole(n),
    }
}

fn take_thin(state: &mut [u8], event: Event, answer: &mut [u8]) -> u8 {
    match event {
        Event::Point(re, im) => ours::receive_point(state, re, im, answer),
        Event::Gap(n) => ours::receive_gap(state, n, answer),
        Event::Levels(re, im) => ours::receive_levels(state, re, im, answer),
        Event::Squelch(power) => ours::receive_squelch(state, power, answer),
        Event::Hole(n) => ours::receive_hole(state, n, answer),
    }
}

/// One event on both sides; the state is that of the thin call, which a refusal leaves.
fn run_event(tally: &mut Tally, receiver: &mut Receiver, event: Event) {
    let mut state = receiver.bytes();
    let mut answer = [0; ANSWER];
    let number = take_thin(&mut state, event, &mut answer);
    let given = outcome(tally, "event", number, take(receiver, event));
    let same = given.map_or([0; ANSWER], answer_bytes) == answer;
    tally.check(same && receiver.bytes() == state, || {
        format!("{event:?}: {given:?}, thin {answer:?}")
    });
    let place = u32::from_le_bytes([state[12], state[13], state[14], state[15]]);
    let shown = (receiver.mode().number(), receiver.role().number());
    tally.check(
        receiver.place() == place && shown == (state[0], state[1]),
        || format!("place, mode or role of {state:?}"),
    );
}

/// Numbers of points, at times an odd count, at times one out of range.
fn random_points(rng: &mut Rng, mode: &Mode) -> Vec<i16> {
    let count = rng.below(40);
    let mut all: Vec<_> = (0..count).map(|_| points::in_range(rng, mode)).collect();
    if rng.below(6) == 0 {
        all.push(points::out_of_range(rng));
    }
    let mut numbers = points::flat(&all);
    if rng.below(6) == 0 {
        numbers.pop();
    }
    numbers
}

/// A block's bytes and distances against a thin call's, and its answers against
/// those of single calls.
fn check_block(tally: &mut Tally, before: &Receiver, block: &Block, points: &[i16], thin: &Thin) {
    let same = (&block.line, &block.plain, &block.distance) == (&thin.0, &thin.1, &thin.2);
    let mut single = before.clone();
    let answers = points.chunks_exact(2).map(|p| single.point(p[0], p[1]));
    let each = answers.eq(block.answers().map(Ok));
    tally.check(same && each && block.place == before.place(), || {
        format!("block of {} numbers", points.len())
    });
}

/// Line bytes, data bytes and distances.
type Thin = (Vec<u8>, Vec<u8>, Vec<u32>);

fn run_points(tally: &mut Tally, receiver: &mut Receiver, points: &[i16]) {
    let before = receiver.clone();
    let mut state = receiver.bytes();
    let count = points.len() / 2;
    let mut thin = (vec![0; count], vec![0; count], vec![0; count]);
    let number = ours::receive_points(&mut state, points, &mut thin.0, &mut thin.1, &mut thin.2);
    let block = outcome(tally, "points", number, receiver.points(points));
    tally.check(receiver.bytes() == state, || "state after points".into());
    if let Some(block) = block {
        check_block(tally, &before, &block, points, &thin);
    }
}

/// Points in levels: of whole units, so that they are those of the numbers, and now
/// and then one that is not finite.
fn run_levels(tally: &mut Tally, rng: &mut Rng, receiver: &mut Receiver, points: &[i16]) {
    let before = receiver.clone();
    let mut levels: Vec<f32> = points.iter().map(|&x| f32::from(x) / 1024.0).collect();
    if rng.below(6) == 0 && !levels.is_empty() {
        levels[0] = floats::random_not_finite(rng);
    }
    let mut state = receiver.bytes();
    let count = points.len() / 2;
    let mut thin = (vec![0; count], vec![0; count], vec![0; count]);
    let (line, plain) = (&mut thin.0, &mut thin.1);
    let number = ours::receive_level_points(&mut state, &levels, line, plain, &mut thin.2);
    let block = outcome(tally, "levels", number, receiver.level_points(&levels));
    tally.check(receiver.bytes() == state, || "state after levels".into());
    if let Some(block) = block {
        check_block(tally, &before, &block, points, &thin);
    }
}

/// A receiver made of any two numbers, at a place.
fn run_new(tally: &mut Tally, rng: &mut Rng) {
    let numbers = random_numbers(rng);
    let place = rng.next_u64() as u32;
    let mut state = [0; STATE];
    let number = ours::fresh(&mut state, numbers.0, numbers.1);
    let made = typed(numbers).and_then(|(mode, role)| {
        let at_place = Receiver::at_place(mode, role, place)?;
        Ok((Receiver::new(mode, role)?, at_place))
    });
    if let Some((fresh, at_place)) = outcome(tally, "new", number, made) {
        tally.check(fresh.bytes() == state, || "fresh receiver".into());
        state[12..].copy_from_slice(&u32_bytes(place));
        tally.check(at_place.bytes() == state, || "receiver at a place".into());
        let again = Receiver::from_bytes(state);
        tally.check(again == Ok(at_place), || "its bytes".into());
    }
}

/// A receiver taken from the bytes of a state, which is at times none. What is wrong
/// with it is what a thin call says, unless that is about the place.
fn run_from_bytes(tally: &mut Tally, rng: &mut Rng, mode: &Mode, role: u8) -> Option<Receiver> {
    let mut state = layout::receiver_bytes(&receiving::sound_state(rng, mode, role));
    match rng.below(12) {
        0 => state[0] = faults::no_mode(rng),
        1 => state[1] = faults::no_role(rng, mode),
        2 => receiving::break_field(rng, mode, &mut state),
        _ => {}
    }
    let number = ours::receive_gap(&mut state.clone(), 1, &mut [0; ANSWER]);
    let number = if number == 16 { 0 } else { number };
    let receiver = outcome(tally, "state", number, Receiver::from_bytes(state))?;
    tally.check(receiver.bytes() == state, || "bytes of a receiver".into());
    Some(receiver)
}

/// A receiver made, one taken from bytes, and calls on that.
pub fn run(tally: &mut Tally, rng: &mut Rng) {
    run_new(tally, rng);
    let (mode, role) = rng.mode_and_role();
    let Some(mut receiver) = run_from_bytes(tally, rng, mode, role) else {
        return;
    };
    for _ in 0..CALLS {
        let event = random_event(rng, mode);
        run_event(tally, &mut receiver, event);
    }
    let points = random_points(rng, mode);
    run_points(tally, &mut receiver, &points);
    run_levels(tally, rng, &mut receiver, &points);
}
