//! The guard (document 02, R-6): lines that repeat with a period that it counts
//! over, sent and received in every way, from states with any count.

use std::collections::BTreeMap;

use kerambiu::raw as ours;
use outside::mode::Mode;
use outside::patterns;
use outside::point::Point;
use outside::receiver::{self, Answer, Receiver};
use outside::rng::Rng;
use outside::scrambler::GUARD_LIMIT;
use outside::sender::{self, Sender};
use outside::store::{self, RECORD, RECORD_POINTS};
use outside::tuned;
use outside::units::{GuardCount, UnitIntervals};

use crate::bits::{assured, bits_of, number_of};
use crate::bulk::{self, Block, Lent};
use crate::layout;
use crate::readings::block as levels;
use crate::signal::Signal;
use crate::tally::Tally;
use crate::{floats, listing, receiving, sending};

const SEED: u64 = 8;
/// How often the guard has to fire, in each kind of call: to invert a bit, as the
/// outside implementation sees it.
const FEWEST: u64 = 10_000;
/// The most points of a sending call.
const MOST_POINTS: i64 = 200;
/// One point in so many is at the origin where there are any.
const ORIGINS: u64 = 60;

/// A count that a full register can have: about the limit, none, or any.
pub fn random_count(rng: &mut Rng, mode: &Mode) -> GuardCount {
    let limit = GUARD_LIMIT.0;
    let any = rng.below(u64::from(limit) + 1) as u8;
    let count = rng.pick(&[0, limit - 2, limit - 1, limit, any]);
    GuardCount(if mode.guard { count } else { 0 })
}

/// Every count of a mode's guard above zero.
pub fn counts(mode: &Mode) -> impl Iterator<Item = GuardCount> {
    let most = if mode.guard { GUARD_LIMIT.0 } else { 0 };
    (1..=most).map(GuardCount)
}

/// How often the guard fired, by what was called.
#[derive(Default)]
struct Fired(BTreeMap<&'static str, u64>);

impl Fired {
    fn add(&mut self, called: &'static str, times: u64) {
        *self.0.entry(called).or_default() += times;
    }

    /// Prints the counts; none may be too small.
    fn report(&self, tally: &mut Tally) {
        let all: u64 = self.0.values().sum();
        let each = self
            .0
            .iter()
            .map(|(called, times)| format!("{called} {times}"));
        let each: Vec<String> = each.collect();
        println!("guard: fired {all} times: {}; seed {SEED}", each.join(", "));
        for (called, &times) in &self.0 {
            tally.check(times >= FEWEST, || {
                format!("{called}: it fired {times} times, not {FEWEST}")
            });
        }
    }
}

/// How often the guard fires as a receiver takes points.
fn firings(mut state: Receiver, numbers: &[i16]) -> u64 {
    let (mode, scrambler) = Mode::find_with_role(state.mode, state.role).expect("sound");
    let mut fired = 0;
    for pair in numbers.chunks_exact(2) {
        let told = receiver::receive_point(state, pair[0], pair[1]);
        let (answer, next) = told.expect("points in range");
        if let Answer::Bits { line, .. } = answer {
            let bits = bits_of(mode, &[line]).into_iter();
            let register = state.register_and_count();
            fired += patterns::inversions(scrambler, register, state.held, bits).0;
        }
        state = next;
    }
    fired
}

/// Data points that follow one another, and the sender before them.
struct Sent {
    signal: Signal,
    start: Sender,
    data: Vec<u8>,
    numbers: Vec<i16>,
}

impl Sent {
    /// A receiver that has what the sender had.
    fn knowing(&self) -> Receiver {
        Receiver {
            reference: Some(self.start.reference),
            register: self.start.register,
            held: self.start.held,
            count: self.start.count,
            ..self.signal.receiver()
        }
    }

    /// The data bits of each point.
    fn groups(&self) -> Vec<u8> {
        let width = self.signal.mode.width as usize;
        self.data.chunks(width).map(number_of).collect()
    }
}

/// Data for the next points of a sender: the line repeats, or would if there were
/// no guard; now and then data are random.
fn random_data(rng: &mut Rng, state: &Sender, bits: usize) -> Vec<u8> {
    if rng.below(6) == 0 {
        return rng.bits(bits);
    }
    let data_for = rng.pick(&[patterns::data_for, patterns::data_without_guard]);
    data_for(state, &patterns::repeated(rng, bits))
}

/// A list of sending calls on both sides.
fn send(tally: &mut Tally, rng: &mut Rng, signal: Signal) -> Sent {
    let start = layout::sender_of(&sending::sound_state(rng, signal.mode, signal.role));
    let (mut state, mut data, mut numbers) = (start, Vec::new(), Vec::new());
    for _ in 0..rng.between(1, 5) {
        let points = rng.between(1, MOST_POINTS) as usize;
        let input = random_data(rng, &state, points * signal.mode.width as usize);
        sending::run_send(tally, &layout::sender_bytes(&state), &input, 2 * points, 0);
        let mut out = vec![0; 2 * points];
        state = sender::send(state, &input, &mut out, 0).expect("sound");
        data.extend(input);
        numbers.extend(out);
    }
    Sent {
        signal,
        start,
        data,
        numbers,
    }
}

/// Points in blocks of any size; gives the bytes of line bits and of data bits.
fn hear(tally: &mut Tally, rng: &mut Rng, from: &Receiver, sent: &Sent) -> (Vec<u8>, Vec<u8>) {
    let (mut state, mut line, mut plain) = (layout::receiver_bytes(from), vec![], vec![]);
    let mut rest = &sent.numbers[..];
    while !rest.is_empty() {
        let count = rng.between(1, rest.len() as i64 / 2) as usize;
        let (numbers, behind) = rest.split_at(2 * count);
        let block = Block {
            state,
            numbers: numbers.to_vec(),
            lent: Lent::of(count),
        };
        let told = bulk::run(tally, sent.signal.mode.width, &block);
        (state, rest) = (told.state, behind);
        line.extend(told.line);
        plain.extend(told.plain);
    }
    (line, plain)
}

fn hear_singly(tally: &mut Tally, from: &Receiver, numbers: &[i16]) {
    let mut state = layout::receiver_bytes(from);
    for pair in numbers.chunks_exact(2) {
        let (re, im) = (pair[0], pair[1]);
        state = receiving::run_point(tally, state, Point { re, im }).0;
    }
}

fn hear_in_levels(tally: &mut Tally, rng: &mut Rng, from: &Receiver, numbers: &[i16]) {
    let in_levels = numbers.iter().map(|&units| floats::rounding_to(rng, units));
    let block = levels::Block {
        state: layout::receiver_bytes(from).to_vec(),
        levels: in_levels.collect(),
        lent: Lent::of(numbers.len() / 2),
    };
    levels::run(tally, &block);
}

/// The points in one block, with origin points among them.
fn hear_with_origins(tally: &mut Tally, rng: &mut Rng, from: &Receiver, sent: &Sent) -> u64 {
    let mut numbers = sent.numbers.clone();
    for pair in numbers.chunks_exact_mut(2) {
        if rng.below(ORIGINS) == 0 {
            pair.fill(0);
        }
    }
    let fired = firings(*from, &numbers);
    let block = Block {
        state: layout::receiver_bytes(from),
        lent: Lent::of(numbers.len() / 2),
        numbers,
    };
    bulk::run(tally, sent.signal.mode.width, &block);
    fired
}

/// A receiver takes points in every way. Line bits from the second point on are
/// the sender's, and data bits are the given ones from the first assured one on.
fn receive(tally: &mut Tally, rng: &mut Rng, fired: &mut Fired, from: &Receiver, sent: &Sent) {
    let (line, plain) = hear(tally, rng, from, sent);
    hear_singly(tally, from, &sent.numbers);
    hear_in_levels(tally, rng, from, &sent.numbers);
    for called in ["blocks", "single calls", "levels"] {
        fired.add(called, firings(*from, &sent.numbers));
    }
    let times = hear_with_origins(tally, rng, from, sent);
    fired.add("blocks with origins", times);
    let groups = sent.groups();
    let same = match *from == sent.knowing() {
        true => plain == groups,
        false => assured(sent.signal.mode, &line[1..], &plain[1..], &groups[1..]),
    };
    tally.check(same, || format!("{from:?} after {:?}", sent.start));
}

/// A store of the points, with a loss among them, and its listing into lent bytes.
fn list(tally: &mut Tally, rng: &mut Rng, sent: &Sent, [out, tuned_out]: [&mut [u8]; 2]) -> u64 {
    let points = sent.numbers.len() / 2;
    let lost_after = 2 * rng.below(points as u64) as usize;
    let (before, behind) = sent.numbers.split_at(lost_after);
    let mut bytes = vec![0; RECORD * (4 + points / RECORD_POINTS)];
    let Signal { mode, role } = sent.signal;
    store::make(&mut bytes, mode.number, role).expect("made");
    store::append_points(&mut bytes, before).expect("room");
    store::append_lost(&mut bytes, 1 + rng.below(1000) as u32).expect("room");
    store::append_points(&mut bytes, behind).expect("room");
    listing::run(tally, &bytes, out, tuned_out);
    let fresh = sent.signal.receiver();
    firings(fresh, before) + firings(fresh, behind)
}

/// Compares `lists` lists of each mode and role; whether there was no difference,
/// and the guard fired often enough.
pub fn compare(lists: u64) -> bool {
    let (mut tally, mut fired) = (Tally::default(), Fired::default());
    let mut rng = Rng::new(SEED);
    let mut out = vec![0; ours::LISTING_BYTES];
    let mut tuned_out = vec![0; tuned::LISTING_ROOM];
    for signal in (0..lists).flat_map(|_| Signal::all()) {
        let sent = send(&mut tally, &mut rng, signal);
        fired.add("sending", firings(sent.knowing(), &sent.numbers));
        let elsewhere = Receiver {
            place: UnitIntervals(rng.below(1 << 31) as u32),
            ..receiving::sound_state(&mut rng, signal.mode, signal.role)
        };
        for from in [sent.knowing(), signal.receiver(), elsewhere] {
            receive(&mut tally, &mut rng, &mut fired, &from, &sent);
        }
        let times = list(&mut tally, &mut rng, &sent, [&mut out, &mut tuned_out]);
        fired.add("listings", times);
    }
    fired.report(&mut tally);
    tally.report("guard", &[0])
}
