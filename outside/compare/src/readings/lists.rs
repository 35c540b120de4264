//! Lists of calls of all kinds, in whole numbers and in levels, single and in
//! blocks, refused ones among them. Each side carries its own state from call to
//! call.

use kerambiu::raw as ours;
use outside::mode::Mode;
use outside::point::Point;
use outside::reading::{Levels, Reading};
use outside::receiver::{self, Answer, Receiver};
use outside::refusal::Refusal;
use outside::rng::Rng;
use outside::sender::Sender;

use super::single::UNWRITTEN;
use crate::layout::{self, ANSWER, STATE};
use crate::signal::Signal;
use crate::tally::Tally;
use crate::{bits, floats, guard, points, receiving};

/// The points of a block that was sent, and the blocks of each mode and role.
const SENT: usize = 200;
const SENT_BLOCKS: usize = 50;

/// A call of a list.
#[derive(Debug)]
enum Event {
    Point(Point),
    Gap(u32),
    Reading(Reading),
    Points(Vec<i16>),
    LevelPoints(Vec<f32>),
}

/// What a call wrote: an answer, or the three parts of a block.
#[derive(PartialEq, Debug)]
struct Written {
    answer: Vec<u8>,
    line: Vec<u8>,
    plain: Vec<u8>,
    distance: Vec<u32>,
}

impl Written {
    /// So many lent bytes of an answer and places of a block.
    fn unwritten(answer: usize, places: usize) -> Written {
        Written {
            answer: vec![UNWRITTEN; answer],
            line: vec![UNWRITTEN; places],
            plain: vec![UNWRITTEN; places],
            distance: vec![u32::from(UNWRITTEN); places],
        }
    }

    fn put_answer(&mut self, width: u32, answer: &Answer) {
        self.answer[..ANSWER].copy_from_slice(&layout::answer_bytes(width, answer));
    }
}

/// The library's side.
fn proved(state: &mut [u8; STATE], event: &Event, out: &mut Written) -> u8 {
    let answer = &mut out.answer;
    let (line, plain, distance) = (&mut out.line, &mut out.plain, &mut out.distance);
    match event {
        Event::Point(point) => ours::receive_point(state, point.re, point.im, answer),
        Event::Gap(n) => ours::receive_gap(state, *n, answer),
        Event::Reading(Reading::Point(levels)) => {
            ours::receive_levels(state, levels.re, levels.im, answer)
        }
        Event::Reading(Reading::Squelch { power }) => ours::receive_squelch(state, *power, answer),
        Event::Reading(Reading::Hole { intervals }) => {
            ours::receive_hole(state, *intervals, answer)
        }
        Event::Points(numbers) => ours::receive_points(state, numbers, line, plain, distance),
        Event::LevelPoints(levels) => {
            ours::receive_level_points(state, levels, line, plain, distance)
        }
    }
}

/// The outside implementation's side.
fn outside(state: &mut Receiver, event: &Event, out: &mut Written) -> Result<(), Refusal> {
    let width = Mode::find(state.mode)?.width;
    let (line, plain, distance) = (&mut out.line, &mut out.plain, &mut out.distance);
    let single = match event {
        Event::Point(point) => receiver::receive_point(*state, point.re, point.im),
        Event::Gap(n) => receiver::receive_gap(*state, *n),
        Event::Reading(reading) => receiver::receive_reading(*state, *reading),
        Event::Points(numbers) => {
            *state = receiver::receive_points(*state, numbers, line, plain, distance)?;
            return Ok(());
        }
        Event::LevelPoints(levels) => {
            *state = receiver::receive_level_points(*state, levels, line, plain, distance)?;
            return Ok(());
        }
    };
    // The states of a list are sound: no number goes before 7.
    if out.answer.len() < ANSWER {
        return Err(Refusal::LENT_NUMBERS);
    }
    let (answer, next) = single?;
    out.put_answer(width, &answer);
    *state = next;
    Ok(())
}

/// A coordinate: in range mostly, at times not, or not finite.
fn coordinate(rng: &mut Rng) -> f32 {
    match rng.below(40) {
        0 => floats::out_of_range(rng),
        1 => floats::random_not_finite(rng),
        2 => floats::random(rng),
        _ => floats::in_range(rng),
    }
}

/// A point in levels: coordinates by themselves, or about a point of the mode.
fn levels(rng: &mut Rng, mode: &Mode) -> Levels {
    if rng.below(3) == 0 {
        let [re, im] = [(); 2].map(|()| coordinate(rng));
        return Levels { re, im };
    }
    let point = points::in_range(rng, mode);
    let [re, im] = [point.re, point.im].map(|units| floats::rounding_to(rng, units));
    Levels { re, im }
}

fn whole_point(rng: &mut Rng, mode: &Mode) -> Point {
    match rng.below(30) {
        0 => points::out_of_range(rng),
        _ => points::in_range(rng, mode),
    }
}

/// A count of intervals, at times none.
fn intervals(rng: &mut Rng) -> u32 {
    match rng.below(8) {
        0 => 0,
        _ => rng.next_u64() as u32 >> rng.below(32),
    }
}

fn event(rng: &mut Rng, mode: &Mode) -> Event {
    let count = rng.below(12);
    match rng.below(16) {
        0..=3 => Event::Point(whole_point(rng, mode)),
        4 => Event::Gap(intervals(rng)),
        5..=9 => Event::Reading(Reading::Point(levels(rng, mode))),
        10 => Event::Reading(Reading::Squelch {
            power: coordinate(rng),
        }),
        11 => Event::Reading(Reading::Hole {
            intervals: intervals(rng),
        }),
        12 => {
            let points: Vec<Point> = (0..count).map(|_| whole_point(rng, mode)).collect();
            Event::Points(points::flat(&points))
        }
        _ => {
            let points = (0..count).map(|_| levels(rng, mode));
            let mut flat: Vec<f32> = points.flat_map(|point| [point.re, point.im]).collect();
            if rng.below(20) == 0 {
                flat.push(coordinate(rng));
            }
            Event::LevelPoints(flat)
        }
    }
}

/// One list of calls on both sides.
fn run_list(tally: &mut Tally, rng: &mut Rng, length: usize) {
    let (mode, role) = rng.mode_and_role();
    let mut right_state = receiving::sound_state(rng, mode, role);
    let mut state = layout::receiver_bytes(&right_state);
    for _ in 0..length {
        let event = event(rng, mode);
        let answer = match rng.below(20) {
            0 => rng.below(ANSWER as u64) as usize,
            _ => ANSWER + rng.below(3) as usize,
        };
        // At times too few places for the points.
        let places = rng.pick(&[10, 12, 12, 12, 14]);
        let mut out = Written::unwritten(answer, places);
        let mut right_out = Written::unwritten(answer, places);
        let number = proved(&mut state, &event, &mut out);
        tally.count(number);
        let right = outside(&mut right_state, &event, &mut right_out);
        let right = right.err().map_or(0, |refusal| refusal.0);
        let same_state = state == layout::receiver_bytes(&right_state);
        tally.check(number == right && out == right_out && same_state, || {
            format!("{event:?}: {number} {state:?} {out:?}, outside {right} {right_state:?}")
        });
    }
}

/// What a sender sent, each coordinate moved by less than half a unit, in one
/// block: the data bits come back where they are assured.
fn run_sent(tally: &mut Tally, rng: &mut Rng, signal: Signal) {
    let width = signal.mode.width as usize;
    let sender = Sender {
        mode: signal.mode.number,
        role: signal.role,
        reference: rng.pick(signal.mode.states),
        register: rng.below(1 << signal.mode.register_length) as u32,
        held: signal.scrambler().full(),
        count: guard::random_count(rng, signal.mode),
    };
    let (mut state, data) = (layout::sender_bytes(&sender), rng.bits(SENT * width));
    let mut sent = [0; 2 * SENT];
    let sending = ours::send(&mut state, &data, &mut sent, 0);
    let moved: Vec<f32> = sent
        .iter()
        .map(|&units| floats::rounding_to(rng, units))
        .collect();
    let mut state = layout::receiver_bytes(&signal.receiver());
    let (mut line, mut plain, mut distance) = ([0; SENT], [0; SENT], [0; SENT]);
    let number =
        ours::receive_level_points(&mut state, &moved, &mut line, &mut plain, &mut distance);
    tally.count(sending);
    tally.count(number);
    // The first point is the reference.
    let groups: Vec<u8> = data.chunks(width).map(bits::number_of).collect();
    let same = bits::assured(signal.mode, &line[1..], &plain[1..], &groups[1..])
        && bits::unsettled(&plain) == signal.mode.register_length
        && distance == [0; SENT];
    tally.check(sending == 0 && number == 0 && same, || {
        format!("sent by {sender:?}: {sending}, {number}")
    });
}

/// Compares `calls` calls in lists, and what was sent; whether there was no
/// difference.
pub fn compare(rng: &mut Rng, calls: u64) -> bool {
    let mut tally = Tally::default();
    while tally.calls() < calls {
        let length = rng.between(1, 60) as usize;
        run_list(&mut tally, rng, length);
    }
    for signal in Signal::all() {
        for _ in 0..SENT_BLOCKS {
            run_sent(&mut tally, rng, signal);
        }
    }
    tally.report("readings, mixed lists", &[0, 7, 18, 8, 9, 16])
}
