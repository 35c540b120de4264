//! Receiver events: random lists of points, gaps and refused calls, with states
//! damaged in every field.

use kerambiu::raw as ours;
use outside::mode::{Mode, MODES};
use outside::point::Point;
use outside::receiver::{self, Receiver};
use outside::rng::Rng;
use outside::scrambler::GUARD_LIMIT;
use outside::units::{BitCount, UnitIntervals};

use crate::layout::{self, ANSWER, STATE};
use crate::signal::Signal;
use crate::tally::Tally;
use crate::{faults, guard, points};

/// Bytes of an answer before a call, to show what a call leaves.
const UNWRITTEN: u8 = 0xa5;
const SEED: u64 = 1;

#[derive(Clone, Copy)]
enum Event {
    Point(Point),
    Gap(u32),
}

/// What is wrong with a call.
#[derive(Clone, Copy, PartialEq)]
enum Fault {
    Mode,
    Role,
    Field,
    FewBytes,
    Event,
    Place,
}

const FAULTS: [Fault; 6] = [
    Fault::Mode,
    Fault::Role,
    Fault::Field,
    Fault::FewBytes,
    Fault::Event,
    Fault::Place,
];

/// A call on lent bytes.
struct Call {
    state: [u8; STATE],
    event: Event,
    answer: Vec<u8>,
}

/// A state that numbers 1, 2 and 4 let pass.
pub fn sound_state(rng: &mut Rng, mode: &Mode, role: u8) -> Receiver {
    let mut state = receiver::fresh(mode.number, role).expect("a mode and its role");
    if rng.below(3) > 0 {
        let any = rng.between(0, i64::from(mode.register_length)) as u32;
        let held = rng.pick(&[any, mode.register_length]);
        state.reference = Some(rng.pick(mode.states));
        state.register = rng.below(1 << held) as u32;
        state.held = BitCount(held);
        if held == mode.register_length {
            state.count = guard::random_count(rng, mode);
        }
    }
    state.place = UnitIntervals(match rng.below(4) {
        0 => u32::MAX - rng.below(40) as u32,
        1 => rng.next_u64() as u32,
        _ => 0,
    });
    state
}

fn sound_event(rng: &mut Rng, mode: &Mode) -> Event {
    if rng.below(16) == 0 {
        let n = rng.next_u64() as u32 >> rng.below(32);
        return Event::Gap(n.max(1));
    }
    Event::Point(points::in_range(rng, mode))
}

/// Breaks another field of a state than mode and role.
pub fn break_field(rng: &mut Rng, mode: &Mode, state: &mut [u8; STATE]) {
    let length = mode.register_length;
    match rng.below(8) {
        // A reference that is no state of the mode.
        0 => {
            state[2] = 1;
            state[3] = faults::no_state(rng, mode);
        }
        // More than R line bits.
        1 => state[8] = rng.between(i64::from(length) + 1, 255) as u8,
        // A line bit beyond the held ones.
        2 => {
            state[8] = rng.below(u64::from(length) + 1) as u8;
            let bits = 1u32 << rng.between(i64::from(state[8]), 31);
            state[4..8].copy_from_slice(&bits.to_le_bytes());
        }
        // Line bits without a reference.
        3 => {
            state[2..4].fill(0);
            state[8] = rng.between(1, 255) as u8;
        }
        // No layout: neither with nor without a reference.
        4 => {
            state[2] = rng.between(2, 255) as u8;
        }
        // No layout: a byte due to be zero.
        5 => state[10 + rng.below(2) as usize] = rng.between(1, 255) as u8,
        // A count above its range.
        6 => state[9] = faults::no_count(rng, mode),
        // A count with fewer than R line bits.
        _ => {
            state[8] = rng.below(u64::from(length)) as u8;
            state[4..8].fill(0);
            state[9] = rng.between(1, i64::from(GUARD_LIMIT.0)) as u8;
        }
    }
}

/// Puts a fault into a call; gives its number.
fn put_fault(rng: &mut Rng, mode: &Mode, call: &mut Call, fault: Fault) -> u8 {
    match fault {
        Fault::Mode => {
            call.state[0] = faults::no_mode(rng);
            1
        }
        Fault::Role => {
            call.state[1] = faults::no_role(rng, mode);
            2
        }
        Fault::Field => {
            break_field(rng, mode, &mut call.state);
            4
        }
        Fault::FewBytes => {
            call.answer.truncate(rng.below(ANSWER as u64) as usize);
            7
        }
        Fault::Event => match call.event {
            Event::Point(_) => {
                call.event = Event::Point(points::out_of_range(rng));
                8
            }
            Event::Gap(_) => {
                call.event = Event::Gap(0);
                9
            }
        },
        Fault::Place => {
            call.state[12..].fill(255);
            16
        }
    }
}

/// What the outside implementation makes of a call: its number, and the bytes
/// of state and answer after it.
fn expected(call: &Call) -> (u8, [u8; STATE], Vec<u8>) {
    let state = layout::receiver_of(&call.state);
    let told = match call.event {
        Event::Point(point) => receiver::receive_point(state, point.re, point.im),
        Event::Gap(n) => receiver::receive_gap(state, n),
    };
    let short = call.answer.len() < ANSWER;
    match told {
        Err(refusal) if short => (refusal.0.min(7), call.state, call.answer.clone()),
        Err(refusal) => (refusal.0, call.state, call.answer.clone()),
        Ok(_) if short => (7, call.state, call.answer.clone()),
        Ok((answer, next)) => {
            let width = MODES[usize::from(state.mode) - 1].width;
            let mut bytes = call.answer.clone();
            bytes[..ANSWER].copy_from_slice(&layout::answer_bytes(width, &answer));
            (0, layout::receiver_bytes(&next), bytes)
        }
    }
}

/// Runs a call on both sides; gives its number, and the bytes of state and
/// answer after it.
fn run(tally: &mut Tally, call: &Call) -> (u8, [u8; STATE], Vec<u8>) {
    let (mut state, mut answer) = (call.state, call.answer.clone());
    let number = match call.event {
        Event::Point(point) => ours::receive_point(&mut state, point.re, point.im, &mut answer),
        Event::Gap(n) => ours::receive_gap(&mut state, n, &mut answer),
    };
    tally.count(number);
    let (right, right_state, right_answer) = expected(call);
    tally.check(
        number == right && state == right_state && answer == right_answer,
        || format!("receiver, state {:?}: {number} {state:?} {answer:?}, outside {right} {right_state:?} {right_answer:?}", call.state),
    );
    (number, state, answer)
}

/// Hands a point to both sides; gives the bytes of state and answer after it.
pub fn run_point(tally: &mut Tally, state: [u8; STATE], point: Point) -> ([u8; STATE], Vec<u8>) {
    let call = Call {
        state,
        event: Event::Point(point),
        answer: vec![UNWRITTEN; ANSWER],
    };
    let (_, after, answer) = run(tally, &call);
    (after, answer)
}

/// One list of calls. Refused ones belong to it: the next call gets the state
/// that the refused one should have got.
fn run_list(tally: &mut Tally, rng: &mut Rng, length: usize) {
    let (mode, role) = rng.mode_and_role();
    let mut state = layout::receiver_bytes(&sound_state(rng, mode, role));
    for _ in 0..length {
        let mut call = Call {
            state,
            event: sound_event(rng, mode),
            answer: vec![UNWRITTEN; ANSWER + rng.below(3) as usize],
        };
        if rng.below(8) > 0 {
            state = run(tally, &call).1;
            continue;
        }
        let faults: Vec<u8> = faults::one_or_two(rng, &FAULTS)
            .into_iter()
            .map(|fault| put_fault(rng, mode, &mut call, fault))
            .collect();
        let (number, ..) = run(tally, &call);
        tally.expect_lowest(&faults, number);
    }
}

/// Reference, held line bits and count about their limits, in every combination:
/// alone, and beside each other fault of a point.
fn run_limits(tally: &mut Tally, rng: &mut Rng) {
    const OTHERS: [Option<Fault>; 6] = [
        None,
        Some(Fault::Mode),
        Some(Fault::Role),
        Some(Fault::FewBytes),
        Some(Fault::Event),
        Some(Fault::Place),
    ];
    for Signal { mode, role } in Signal::all() {
        for state in faults::states_about_limits(mode, role) {
            for other in OTHERS {
                let mut call = Call {
                    state: layout::receiver_bytes(&state),
                    event: Event::Point(points::in_range(rng, mode)),
                    answer: vec![UNWRITTEN; ANSWER],
                };
                let mut faults = faults::of_receiver(mode, &state);
                faults.extend(other.map(|fault| put_fault(rng, mode, &mut call, fault)));
                let (number, ..) = run(tally, &call);
                tally.expect_lowest(&faults, number);
            }
        }
    }
}

/// Making a receiver, for every mode and role and for too few lent bytes.
fn run_fresh(tally: &mut Tally) {
    for mode in 0..=255 {
        for role in 0..=255 {
            for size in [0, STATE - 1, STATE, STATE + 3] {
                let mut state = vec![UNWRITTEN; size];
                let mut right = state.clone();
                let number = ours::fresh(&mut state, mode, role);
                let refused = match receiver::fresh(mode, role) {
                    Err(refusal) => refusal.0,
                    Ok(_) if size < STATE => 7,
                    Ok(made) => {
                        right[..STATE].copy_from_slice(&layout::receiver_bytes(&made));
                        0
                    }
                };
                tally.count(number);
                tally.check(number == refused && state == right, || {
                    format!("fresh {mode} {role} {size}: {number} {state:?}")
                });
            }
        }
    }
}

/// Too few bytes of state: number 7, whatever the points or the gap, and nothing
/// is written.
fn run_short_states(tally: &mut Tally) {
    for size in 0..STATE {
        for re in [0, 4096, 16385] {
            let (mut state, mut answer) = (vec![1; size], vec![UNWRITTEN; ANSWER]);
            let (mut line, mut plain, mut distance) = ([UNWRITTEN], [UNWRITTEN], [9]);
            let mut block = |state: &mut [u8], points: &[i16]| {
                ours::receive_points(state, points, &mut line, &mut plain, &mut distance)
            };
            let numbers = [
                ours::receive_point(&mut state, re, 0, &mut answer),
                ours::receive_gap(&mut state, re as u32, &mut answer),
                block(&mut state, &[re, 0]),
                block(&mut state, &[]),
            ];
            numbers.iter().for_each(|&number| tally.count(number));
            let kept = state == vec![1; size] && answer == [UNWRITTEN; ANSWER];
            let block_kept = (line, plain, distance) == ([UNWRITTEN], [UNWRITTEN], [9]);
            tally.check(numbers == [7; 4] && kept && block_kept, || {
                format!("a state of {size} bytes: {numbers:?}")
            });
        }
    }
}

/// Compares `events` receiver events; whether there was no difference.
pub fn compare(events: u64) -> bool {
    let mut tally = Tally::default();
    let mut rng = Rng::new(SEED);
    run_fresh(&mut tally);
    run_short_states(&mut tally);
    run_limits(&mut tally, &mut rng);
    let others = tally.calls();
    while tally.calls() < others + events {
        let length = rng.between(1, 60) as usize;
        run_list(&mut tally, &mut rng, length);
    }
    println!("receiver: random lists, seed {SEED}");
    tally.expect_each_two(&[1, 2, 4, 7, 8, 16]);
    tally.report("receiver", &[0, 1, 2, 4, 7, 8, 9, 16])
}
