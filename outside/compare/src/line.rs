//! What a mode makes of points and bits, through the calls of the receiver and
//! the sender: points decided over a grid and about every edge, the differential
//! code between all states, and the scramblers over long runs.

use kerambiu::raw as ours;
use outside::code;
use outside::patterns;
use outside::point::{self, Decision, Point};
use outside::receiver::{Answer, Receiver, REFERENCE_BYTE};
use outside::rng::Rng;
use outside::scrambler::Register;
use outside::sender::{scrambled_group, Sender};
use outside::units::{GuardCount, UnitIntervals};

use crate::bits::{self, number_of};
use crate::bulk::{self, Block, Lent};
use crate::layout::{self, ANSWER};
use crate::signal::Signal;
use crate::tally::Tally;
use crate::{guard, points, receiving, sending};

const SEED: u64 = 6;

/// Coordinates about the edges of the deciding rules and of the range.
const COORDINATES: [i16; 48] = [
    -32768, -16385, -16384, -16383, -4096, -3072, -2897, -2896, -2895, -2049, -2048, -2047, -1449,
    -1448, -1025, -1024, -1023, -1000, -415, -414, -6, -3, -2, -1, 0, 1, 2, 3, 6, 414, 415, 1000,
    1023, 1024, 1025, 1448, 1449, 2047, 2048, 2049, 2895, 2896, 2897, 3072, 4096, 16383, 16384,
    32767,
];
/// The step of the grid's other coordinates.
const STEP: usize = 64;
/// How far about an edge or a sent point points are decided.
const AROUND: i64 = 2;
/// The points of a long run.
const RUN: usize = 4_000;
/// The greatest length of which all registers are taken.
const LONGEST_OF_ALL: u32 = 12;
/// The random registers of a greater length.
const RANDOM_REGISTERS: usize = 40;

fn sender(signal: Signal, reference: u8, register: Register) -> Sender {
    Sender {
        mode: signal.mode.number,
        role: signal.role,
        reference,
        register: register.bits,
        held: signal.scrambler().full(),
        count: register.count,
    }
}

/// A receiver with a reference and a full register.
fn receiver(signal: Signal, reference: u8, register: Register) -> Receiver {
    Receiver {
        reference: Some(reference),
        register: register.bits,
        held: signal.scrambler().full(),
        count: register.count,
        ..signal.receiver()
    }
}

/// The data bits that a register scrambles into a group of line bits.
fn data_of(signal: Signal, register: Register, group: u8) -> Vec<u8> {
    let line = bits::bits_of(signal.mode, &[group]);
    patterns::data_for(&sender(signal, signal.mode.states[0], register), &line)
}

/// All registers of a length up to 12; else all zeros, all ones, each bit alone
/// and random ones. Each has some count where there is a guard.
fn registers(signal: Signal, rng: &mut Rng) -> Vec<Register> {
    let length = signal.mode.register_length;
    let count = 1 << length;
    let chosen = if length <= LONGEST_OF_ALL {
        (0..count).collect()
    } else {
        let mut chosen = vec![0, count - 1];
        chosen.extend((0..length).map(|bit| 1 << bit));
        chosen.extend((0..RANDOM_REGISTERS).map(|_| rng.below(u64::from(count)) as u32));
        chosen
    };
    let with_count = |bits| Register {
        bits,
        count: guard::random_count(rng, signal.mode),
    };
    chosen.into_iter().map(with_count).collect()
}

/// A fresh receiver takes a point: the reference after it is the decided state,
/// and the answer has the distance.
fn decide(tally: &mut Tally, signal: Signal, (re, im): (i16, i16)) {
    let fresh = signal.receiver();
    let (before, unwritten) = (layout::receiver_bytes(&fresh), [0xa5; ANSWER]);
    let (mut state, mut answer) = (before, unwritten);
    let number = ours::receive_point(&mut state, re, im, &mut answer);
    tally.count(number);
    let after = |told: Answer, reference: Option<u8>| {
        let next = Receiver {
            reference,
            place: UnitIntervals(1),
            ..fresh
        };
        let bytes = layout::answer_bytes(signal.mode.width, &told);
        (0, layout::receiver_bytes(&next), bytes)
    };
    let right = match point::decide(signal.mode, re, im) {
        _ if !(Point { re, im }).in_range() => (8, before, unwritten),
        Decision::State { state, distance } => after(Answer::Reference { distance }, Some(state)),
        Decision::Origin => after(Answer::Gap(UnitIntervals(1)), None),
    };
    tally.check((number, state, answer) == right, || {
        let (mode, role) = (signal.mode.number, signal.role);
        format!("decide {mode} {role} {re} {im}: {number} {state:?} {answer:?}, outside {right:?}")
    });
}

/// Every pair of the listed coordinates and those that are STEP apart.
fn decide_grid(tally: &mut Tally, signal: Signal) {
    let mut coordinates: Vec<i16> = (-16384..=16384).step_by(STEP).collect();
    coordinates.extend(COORDINATES);
    coordinates.sort();
    coordinates.dedup();
    for &re in &coordinates {
        for &im in &coordinates {
            decide(tally, signal, (re, im));
        }
    }
}

/// A point, if its numbers are numbers that a call takes.
fn decide_at(tally: &mut Tally, signal: Signal, re: i64, im: i64) {
    if let (Ok(re), Ok(im)) = (i16::try_from(re), i16::try_from(im)) {
        decide(tally, signal, (re, im));
    }
}

/// Along every edge of the mode, points to either side of it, in both
/// directions; and all about every sent point.
fn decide_around(tally: &mut Tally, signal: Signal) {
    let largest = i64::from(point::LARGEST_COORDINATE);
    for along in 0..=largest + AROUND {
        for edge in points::edges(signal.mode, along) {
            for quarters in 0..4 {
                let (re, im) = points::turned(edge, quarters);
                for off in -AROUND..=AROUND {
                    decide_at(tally, signal, re + off, im);
                    decide_at(tally, signal, re, im + off);
                }
            }
        }
    }
    for &state in signal.mode.states {
        let Point { re, im } = point::sent(signal.mode, state);
        for off in -AROUND..=AROUND {
            for across in -AROUND..=AROUND {
                decide_at(tally, signal, i64::from(re) + off, i64::from(im) + across);
            }
        }
    }
}

/// A group of line bits after a reference: the point of its state is sent.
fn send_group(tally: &mut Tally, signal: Signal, reference: u8, register: Register, group: u8) {
    let start = layout::sender_bytes(&sender(signal, reference, register));
    let data = data_of(signal, register, group);
    let told = sending::run_send(tally, &start, &data, 4, 1);
    let reached = code::next_state(signal.mode, reference, group);
    let Point { re, im } = point::sent(signal.mode, reached);
    let same = told.state[2] == reached && told.out[1..3] == [re, im];
    tally.check(same, || {
        format!(
            "group {group} after {start:?}: {:?} {:?}",
            told.state, told.out
        )
    });
}

/// A state's point after a reference: its group of line bits, and the data bits
/// that a sender would have made it from.
fn receive_state(tally: &mut Tally, signal: Signal, reference: u8, register: Register, state: u8) {
    let before = layout::receiver_bytes(&receiver(signal, reference, register));
    let sent = point::sent(signal.mode, state);
    let (after, answer) = receiving::run_point(tally, before, sent);
    let group = code::group(signal.mode, reference, state);
    let plain = number_of(&data_of(signal, register, group));
    // Neither a gap nor a distance.
    let same = after[3] == state && answer == [1, group, plain, 0, 0, 0, 0, 0, 0, 0, 0, 0];
    tally.check(same, || {
        format!("state {state} after {before:?}: {after:?} {answer:?}")
    });
}

/// The differential code both ways, from every state.
fn run_code(tally: &mut Tally, rng: &mut Rng, signal: Signal) {
    for register in registers(signal, rng) {
        for &reference in signal.mode.states {
            for group in 0..1 << signal.mode.width {
                send_group(tally, signal, reference, register, group);
            }
            for &state in signal.mode.states {
                receive_state(tally, signal, reference, register, state);
            }
        }
    }
}

/// A run of data from a register: sent, then received by a receiver with that
/// register and by a fresh one.
fn run_bits(tally: &mut Tally, rng: &mut Rng, signal: Signal, register: Register, data: &[u8]) {
    let groups = || data.chunks(signal.mode.width as usize);
    let reference = rng.pick(signal.mode.states);
    let start = sender(signal, reference, register);
    let sent = sending::run_send(tally, &layout::sender_bytes(&start), data, 2 * RUN, 0);
    let mut hear = |from: Receiver| {
        let before = layout::receiver_bytes(&from);
        let block = Block {
            state: before,
            numbers: sent.out.clone(),
            lent: Lent::of(RUN),
        };
        bulk::run(tally, signal.mode.width, &block)
    };
    let knowing = hear(receiver(signal, reference, register));
    let fresh = hear(signal.receiver());
    let mut running = register;
    let scrambled = groups().map(|bits| {
        let bits = bits.iter().copied();
        let (group, after) = scrambled_group(signal.scrambler(), running, bits);
        running = after;
        group
    });
    let line: Vec<u8> = scrambled.collect();
    let plain: Vec<u8> = groups().map(number_of).collect();
    let same = knowing.line == line && knowing.plain == plain && knowing.distance == [0; RUN];
    tally.check(same, || format!("bits from {start:?}, register known"));
    // The first point is the reference.
    let same = [fresh.line[0], fresh.plain[0]] == [REFERENCE_BYTE, 0]
        && fresh.line[1..] == line[1..]
        && fresh.distance == [0; RUN]
        && bits::unsettled(&fresh.plain[1..]) == signal.mode.register_length
        && bits::assured(signal.mode, &line[1..], &fresh.plain[1..], &plain[1..]);
    tally.check(same, || format!("bits from {start:?}, fresh receiver"));
}

/// Zeros, ones, both in turn and random data, from several registers.
fn run_scrambler(tally: &mut Tally, rng: &mut Rng, signal: Signal) {
    let count = RUN * signal.mode.width as usize;
    let ones = (1 << signal.mode.register_length) - 1;
    let random = [(); 3].map(|()| rng.below(u64::from(ones)) as u32);
    for bits in [0, 1, ones].into_iter().chain(random) {
        let turns = (0..count).map(|k| (k % 2) as u8).collect();
        for data in [vec![0; count], vec![1; count], turns, rng.bits(count)] {
            let count = GuardCount(0);
            run_bits(tally, rng, signal, Register { bits, count }, &data);
        }
    }
}

/// Compares every mode with each of its roles; whether there was no difference.
pub fn compare() -> bool {
    let mut tally = Tally::default();
    let mut rng = Rng::new(SEED);
    for signal in Signal::all() {
        decide_grid(&mut tally, signal);
        decide_around(&mut tally, signal);
        run_code(&mut tally, &mut rng, signal);
        run_scrambler(&mut tally, &mut rng, signal);
    }
    println!("line: deciding, differential code, scramblers; seed {SEED}");
    tally.report("line", &[0, 8])
}
