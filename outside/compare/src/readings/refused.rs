//! Refused readings: every set of faults that a call can have at once. Number 9
//! never stands beside 18, since a hole has no float.

use std::collections::BTreeSet;

use outside::mode::Mode;
use outside::reading::{Levels, Reading};
use outside::rng::Rng;

use super::block::{self, Block, Received};
use super::single::{self, Call, Told};
use crate::bulk::Lent;
use crate::layout::{ANSWER, STATE};
use crate::signal::Signal;
use crate::tally::Tally;
use crate::{faults, floats, receiving};

/// What is wrong with a call, those that count later first. A set of them is put
/// in in this order, so that each is the one that shows as it is put in.
#[derive(Clone, Copy, PartialEq, Eq, PartialOrd, Ord, Debug)]
enum Fault {
    Place,
    EmptyHole,
    Coordinate,
    NotFinite,
    ShortDistance,
    ShortPlain,
    ShortLine,
    OddCount,
    ShortAnswer,
    ShortState,
    WrongField,
    NoRole,
    NoMode,
}

use Fault::*;

impl Fault {
    fn number(self) -> u8 {
        match self {
            NoMode => 1,
            NoRole => 2,
            WrongField => 4,
            ShortState | ShortAnswer | OddCount | ShortLine | ShortPlain | ShortDistance => 7,
            NotFinite => 18,
            Coordinate => 8,
            EmptyHole => 9,
            Place => 16,
        }
    }

    /// Whether two faults can be in one call. Without its bytes there is no
    /// state to refuse, and a hole of nothing does not go beyond the last place.
    fn beside(self, other: Fault) -> bool {
        let pair = (self.min(other), self.max(other));
        !matches!(
            pair,
            (Place, EmptyHole | ShortState) | (ShortState, WrongField | NoRole | NoMode)
        )
    }
}

const POINT: [Fault; 8] = [
    Place,
    Coordinate,
    NotFinite,
    ShortAnswer,
    ShortState,
    WrongField,
    NoRole,
    NoMode,
];
const SQUELCH: [Fault; 7] = [
    Place,
    NotFinite,
    ShortAnswer,
    ShortState,
    WrongField,
    NoRole,
    NoMode,
];
const HOLE: [Fault; 7] = [
    Place,
    EmptyHole,
    ShortAnswer,
    ShortState,
    WrongField,
    NoRole,
    NoMode,
];
const BLOCK: [Fault; 11] = [
    Place,
    Coordinate,
    NotFinite,
    ShortDistance,
    ShortPlain,
    ShortLine,
    OddCount,
    ShortState,
    WrongField,
    NoRole,
    NoMode,
];

/// All sets of faults that can be in one call.
fn sets(all: &[Fault]) -> Vec<Vec<Fault>> {
    let mut sets: Vec<Vec<Fault>> = vec![vec![]];
    for &fault in all {
        let fits = |set: &&Vec<Fault>| set.iter().all(|other| fault.beside(*other));
        let with = |set: &Vec<Fault>| [set.as_slice(), &[fault]].concat();
        let further: Vec<Vec<Fault>> = sets.iter().filter(fits).map(with).collect();
        sets.extend(further);
    }
    sets
}

/// Faults that were met: alone, each beside itself, or two beside each other.
#[derive(Default)]
struct Met {
    pairs: BTreeSet<(Fault, Fault)>,
    /// Blocks with number 8 in an earlier point than number 18, in the same one
    /// and in a later one.
    places: [u64; 3],
}

impl Met {
    fn meet(&mut self, set: &[Fault]) {
        match *set {
            [one] => self.pairs.insert((one, one)),
            [one, other] => self.pairs.insert((one, other)),
            _ => false,
        };
    }

    /// Every fault was met alone, and every two that can be in one call.
    fn expect_all(&self, tally: &mut Tally, all: &[Fault]) {
        for (k, &one) in all.iter().enumerate() {
            for &other in all[k..].iter().filter(|&&other| one.beside(other)) {
                let met = self.pairs.contains(&(one, other));
                tally.check(met, || format!("{one:?} was not met beside {other:?}"));
            }
        }
    }
}

/// A kind of reading, and the faults of its call.
struct Kind {
    name: &'static str,
    sound: fn(&mut Rng) -> Reading,
    faults: &'static [Fault],
}

const KINDS: [Kind; 3] = [
    Kind {
        name: "readings, faults of points",
        sound: |rng| {
            let [re, im] = [(); 2].map(|()| floats::in_range(rng));
            Reading::Point(Levels { re, im })
        },
        faults: &POINT,
    },
    Kind {
        name: "readings, faults of squelches",
        sound: |rng| Reading::Squelch {
            power: floats::in_range(rng),
        },
        faults: &SQUELCH,
    },
    Kind {
        name: "readings, faults of holes",
        sound: |rng| Reading::Hole {
            intervals: rng.between(1, 1 << 30) as u32,
        },
        faults: &HOLE,
    },
];

/// Puts a float into one of a reading's places.
fn put_float(reading: &mut Reading, at: usize, float: f32) {
    match reading {
        Reading::Point(Levels { re, .. }) if at == 0 => *re = float,
        Reading::Point(Levels { im, .. }) => *im = float,
        Reading::Squelch { power } => *power = float,
        Reading::Hole { .. } => {}
    }
}

/// Puts a fault into the state of a call that takes so many intervals.
fn put_into_state(rng: &mut Rng, mode: &Mode, state: &mut Vec<u8>, fault: Fault, intervals: u32) {
    match fault {
        NoMode => state[0] = faults::no_mode(rng),
        NoRole => state[1] = faults::no_role(rng, mode),
        WrongField => {
            let bytes = state.first_chunk_mut::<STATE>();
            receiving::break_field(rng, mode, bytes.expect("a whole state"));
        }
        ShortState => state.truncate(rng.below(STATE as u64) as usize),
        _ => {
            let place = u32::MAX - rng.below(intervals.into()) as u32;
            state[12..STATE].copy_from_slice(&place.to_le_bytes());
        }
    }
}

/// Puts a fault into a call; one of two floats for number 18, the other for 8.
fn put_fault(rng: &mut Rng, mode: &Mode, call: &mut Call, fault: Fault, first: usize) {
    match fault {
        NotFinite => put_float(&mut call.reading, first, floats::random_not_finite(rng)),
        Coordinate => put_float(&mut call.reading, 1 - first, floats::out_of_range(rng)),
        EmptyHole => call.reading = Reading::Hole { intervals: 0 },
        ShortAnswer => call.answer = rng.below(ANSWER as u64) as usize,
        _ => {
            let intervals = match call.reading {
                Reading::Hole { intervals } => intervals.max(1),
                _ => 1,
            };
            put_into_state(rng, mode, &mut call.state, fault, intervals);
        }
    }
}

fn numbers(set: &[Fault]) -> Vec<u8> {
    set.iter().map(|fault| fault.number()).collect()
}

/// A call with some faults, each of which shows as it is put in; nothing is
/// written.
fn run_set(tally: &mut Tally, rng: &mut Rng, signal: Signal, kind: &Kind, set: &[Fault]) {
    let mut state = receiving::sound_state(rng, signal.mode, signal.role);
    state.place.0 = rng.below(1 << 31) as u32;
    let reading = (kind.sound)(rng);
    let mut call = Call::of(rng, &state, reading);
    let first = rng.below(2) as usize;
    for (k, &fault) in set.iter().enumerate() {
        put_fault(rng, signal.mode, &mut call, fault, first);
        let told = single::run(tally, &call);
        tally.expect_lowest(&numbers(&set[..=k]), told.number);
        let kept = Told {
            number: told.number,
            ..call.unwritten()
        };
        tally.check(told == kept, || format!("{call:?}: refused and written"));
    }
}

/// Every set of faults of a kind of reading, with every mode and role; whether
/// there was no difference.
fn compare_kind(rng: &mut Rng, kind: &Kind, rounds: usize) -> bool {
    let mut tally = Tally::default();
    let (mut met, sets) = (Met::default(), sets(kind.faults));
    for _ in 0..rounds {
        for signal in Signal::all() {
            for set in &sets {
                run_set(&mut tally, rng, signal, kind, set);
                met.meet(set);
            }
        }
    }
    met.expect_all(&mut tally, kind.faults);
    tally.report(kind.name, &numbers(kind.faults))
}

/// Puts a fault into a block: number 18 into the first of two floats, 8 into the
/// second.
fn put_into_block(rng: &mut Rng, mode: &Mode, block: &mut Block, fault: Fault, at: [usize; 2]) {
    let count = block.levels.len() / 2;
    let fewer = rng.below(count as u64) as usize;
    match fault {
        NotFinite => block.levels[at[0]] = floats::random_not_finite(rng),
        Coordinate => block.levels[at[1]] = floats::out_of_range(rng),
        OddCount => {
            let one_more = rng.pick(&[1.0, 17.0, f32::NAN]);
            block.levels.push(one_more);
        }
        ShortLine => block.lent.line = fewer,
        ShortPlain => block.lent.plain = fewer,
        ShortDistance => block.lent.distance = fewer,
        _ => put_into_state(rng, mode, &mut block.state, fault, count as u32),
    }
}

/// A block with some faults, likewise.
fn run_block_set(tally: &mut Tally, rng: &mut Rng, signal: Signal, met: &mut Met, set: &[Fault]) {
    let mut state = receiving::sound_state(rng, signal.mode, signal.role);
    state.place.0 = rng.below(1 << 31) as u32;
    let count = rng.between(1, 6) as usize;
    let mut block = Block {
        state: single::lent_state(rng, &state),
        levels: (0..2 * count).map(|_| floats::in_range(rng)).collect(),
        lent: Lent::of(count),
    };
    let first = rng.below(2 * count as u64) as usize;
    let further = 1 + rng.below(2 * count as u64 - 1) as usize;
    let at = [first, (first + further) % (2 * count)];
    for (k, &fault) in set.iter().enumerate() {
        put_into_block(rng, signal.mode, &mut block, fault, at);
        let told = block::run(tally, &block);
        tally.expect_lowest(&numbers(&set[..=k]), told.number);
        let kept = Received {
            number: told.number,
            ..block.unwritten()
        };
        tally.check(told == kept, || format!("{set:?}: refused and written"));
    }
    met.meet(set);
    if set.contains(&NotFinite) && set.contains(&Coordinate) {
        let earlier_or_later = (at[1] / 2).cmp(&(at[0] / 2)) as i8;
        met.places[(1 + earlier_or_later) as usize] += 1;
    }
}

/// Every set of faults of a block, likewise.
fn compare_blocks(rng: &mut Rng, rounds: usize) -> bool {
    let mut tally = Tally::default();
    let (mut met, sets) = (Met::default(), sets(&BLOCK));
    for _ in 0..rounds {
        for signal in Signal::all() {
            for set in &sets {
                run_block_set(&mut tally, rng, signal, &mut met, set);
            }
        }
    }
    met.expect_all(&mut tally, &BLOCK);
    let places = met.places;
    tally.check(places.iter().all(|&count| count > 0), || {
        format!("8 before 18, in the same point, after it: {places:?}")
    });
    tally.report("readings, faults of blocks", &numbers(&BLOCK))
}

/// Compares each set of faults `rounds` times; whether there was no difference.
pub fn compare(rng: &mut Rng, rounds: usize) -> bool {
    let mut same = compare_blocks(rng, rounds);
    for kind in &KINDS {
        same &= compare_kind(rng, kind, rounds);
    }
    same
}
