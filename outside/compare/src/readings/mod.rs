//! Readings in single precision: points in levels, squelched intervals and holes,
//! single and in blocks. Coordinates and powers are of every exponent, at every
//! tie and at every whole number in range, and random.

pub(crate) mod block;
mod lists;
mod refused;
mod single;

use outside::reading::{self, Levels, Reading};
use outside::receiver::Receiver;
use outside::rng::Rng;
use outside::units::{BitCount, UnitIntervals};

use crate::bulk::Lent;
use crate::floats;
use crate::guard;
use crate::signal::Signal;
use crate::tally::Tally;
use block::Block;
use single::Call;

const SEED: u64 = 7;
/// The rounds of every set of faults.
const ROUNDS: usize = 4;

/// What is handed over.
struct Source {
    /// Every mode with each of its roles, and states of it.
    signals: Vec<(Signal, Vec<Receiver>)>,
    /// Floats that every mode and role gets.
    listed: Vec<f32>,
}

impl Source {
    fn of(rng: &mut Rng) -> Source {
        let signals = Signal::all().map(|signal| (signal, states(rng, signal)));
        let signals = signals.collect();
        let listed = [
            floats::of_every_exponent(rng),
            floats::not_finite(rng),
            floats::subnormal(rng),
            floats::ties(),
            floats::wholes(),
        ];
        Source {
            signals,
            listed: listed.concat(),
        }
    }
}

/// States of a receiver: without a reference, with each one, with each count of
/// line bits, and with each of the guard's; each of them at the first place,
/// anywhere, and at the last ones.
fn states(rng: &mut Rng, signal: Signal) -> Vec<Receiver> {
    let fresh = signal.receiver();
    let with = |reference: u8, register: u32, held: u32| Receiver {
        reference: Some(reference),
        register,
        held: BitCount(held),
        ..fresh
    };
    let mut made = vec![fresh];
    made.extend(signal.mode.states.iter().map(|&state| with(state, 0, 0)));
    for held in 1..=signal.mode.register_length {
        let ones = (1 << held) - 1;
        for register in [0, ones, rng.below(1 << held) as u32] {
            made.push(with(rng.pick(signal.mode.states), register, held));
        }
    }
    for count in guard::counts(signal.mode) {
        let full = signal.mode.register_length;
        let register = rng.below(1 << full) as u32;
        let state = with(rng.pick(signal.mode.states), register, full);
        made.push(Receiver { count, ..state });
    }
    let anywhere = rng.below(1 << 31) as u32;
    let places = [0, anywhere, u32::MAX - 2, u32::MAX - 1, u32::MAX].map(UnitIntervals);
    let at = |place| made.iter().map(move |&state| Receiver { place, ..state });
    places.into_iter().flat_map(at).collect()
}

/// Floats counted by what becomes of them as coordinates.
#[derive(Default)]
struct Kinds {
    all: u64,
    not_finite: u64,
    out_of_range: u64,
    /// In range, and as near to another whole number.
    ties: u64,
    /// In range, and nearest to 0.
    zeros: u64,
}

impl Kinds {
    fn count(&mut self, level: f32) {
        self.all += 1;
        if !level.is_finite() {
            self.not_finite += 1;
            return;
        }
        let Some(units) = reading::coordinate(level) else {
            self.out_of_range += 1;
            return;
        };
        let off = 1024.0 * f64::from(level) - f64::from(units);
        self.ties += u64::from(off.abs() == 0.5);
        self.zeros += u64::from(units == 0);
    }
}

/// A comparison of sound calls and of those that a float or the place refuses.
struct Readings<'a> {
    source: &'a Source,
    rng: Rng,
    kinds: Kinds,
    points: Tally,
    squelches: Tally,
    holes: Tally,
    blocks: Tally,
}

impl Readings<'_> {
    /// A point and its turn.
    fn point(&mut self, state: &Receiver, re: f32, im: f32) {
        let reading = Reading::Point(Levels { re, im });
        let call = Call::of(&mut self.rng, state, reading);
        single::run_and_turn(&mut self.points, &call);
    }

    fn squelch(&mut self, state: &Receiver, power: f32) {
        let call = Call::of(&mut self.rng, state, Reading::Squelch { power });
        single::run(&mut self.squelches, &call);
    }

    fn hole(&mut self, state: &Receiver, intervals: u32) {
        let call = Call::of(&mut self.rng, state, Reading::Hole { intervals });
        single::run(&mut self.holes, &call);
    }

    /// A block and its turn, with a few places more than points.
    fn block(&mut self, state: &Receiver, levels: Vec<f32>) {
        let mut room = || levels.len() / 2 + self.rng.below(3) as usize;
        let lent = Lent {
            line: room(),
            plain: room(),
            distance: room(),
        };
        let block = Block {
            state: single::lent_state(&mut self.rng, state),
            levels,
            lent,
        };
        block::run_and_turn(&mut self.blocks, &block);
    }

    /// A float as either coordinate, of a fresh receiver, whose answer has the
    /// distance and whose reference the direction, and of any; and as a power.
    fn float(&mut self, (signal, states): &(Signal, Vec<Receiver>), level: f32) {
        let any = self.rng.pick(states);
        let other = match self.rng.below(4) {
            0 => 0.0,
            _ => floats::in_range(&mut self.rng),
        };
        self.point(&signal.receiver(), level, other);
        self.point(&any, other, level);
        self.squelch(&any, level);
    }

    fn listed_floats(&mut self) {
        let source = self.source;
        for &level in &source.listed {
            self.kinds.count(level);
            for signal in &source.signals {
                self.float(signal, level);
            }
        }
    }

    /// Floats of any bits and floats in range, in turn, each with one mode and
    /// role.
    fn random_floats(&mut self, count: u64) {
        let signals = &self.source.signals;
        for k in 0..count {
            let level = match k % 2 {
                0 => floats::random(&mut self.rng),
                _ => floats::in_range(&mut self.rng),
            };
            self.kinds.count(level);
            let which = self.rng.below(signals.len() as u64) as usize;
            self.float(&signals[which], level);
        }
    }

    /// Every two of the floats at which an outcome changes.
    fn pairs(&mut self) {
        let edges = floats::edges();
        for (signal, states) in &self.source.signals {
            for &re in &edges {
                for &im in &edges {
                    let any = self.rng.pick(states);
                    self.point(&signal.receiver(), re, im);
                    self.point(&any, re, im);
                }
            }
        }
    }

    /// Coordinates in range for a number of points: few mostly, now and then many.
    fn random_levels(&mut self) -> Vec<f32> {
        let most = if self.rng.below(16) == 0 { 2_000 } else { 12 };
        let count = 2 * self.rng.between(1, most) as usize;
        let one = |_| floats::in_range(&mut self.rng);
        (0..count).map(one).collect()
    }

    /// One of some states, far from the last place.
    fn early(&mut self, states: &[Receiver]) -> Receiver {
        Receiver {
            place: UnitIntervals(self.rng.below(1 << 31) as u32),
            ..self.rng.pick(states)
        }
    }

    /// The listed floats that are in range in blocks of any size, each of them as
    /// either coordinate beside random ones.
    fn accepted_blocks(&mut self, states: &[Receiver], listed: &[f32]) {
        let mut listed = listed.iter();
        while !listed.as_slice().is_empty() {
            let mut levels = self.random_levels();
            for pairs in levels.chunks_mut(4) {
                let last = pairs.len() - 1;
                if let Some(&level) = listed.next() {
                    (pairs[0], pairs[last]) = (level, level);
                }
            }
            let state = self.early(states);
            self.block(&state, levels);
        }
    }

    /// The other listed floats, each anywhere in a block by itself.
    fn refused_blocks(&mut self, states: &[Receiver], listed: &[f32]) {
        for &level in listed {
            let mut levels = self.random_levels();
            let at = self.rng.below(levels.len() as u64) as usize;
            levels[at] = level;
            let state = self.rng.pick(states);
            self.block(&state, levels);
        }
    }

    fn all_blocks(&mut self) {
        let source = self.source;
        let in_range = |level: &f32| level.is_finite() && reading::coordinate(*level).is_some();
        let (taken, others): (Vec<f32>, Vec<f32>) = source.listed.iter().partition(|l| in_range(l));
        for (_, states) in &source.signals {
            self.accepted_blocks(states, &taken);
            self.refused_blocks(states, &others);
        }
    }

    /// From every state holes of none, the shortest ones, up to the last place and
    /// one beyond it, the longest, and random ones.
    fn all_holes(&mut self) {
        for (_, states) in &self.source.signals {
            for state in states {
                let left = u32::MAX - state.place.0;
                let about = [left.saturating_sub(1), left, left.saturating_add(1)];
                let random = [(); 4].map(|()| self.rng.next_u64() as u32 >> self.rng.below(32));
                let others = [0, 1, 2, 3, 255, 256, 65_536, 1 << 31, u32::MAX];
                for intervals in about.into_iter().chain(random).chain(others) {
                    self.hole(state, intervals);
                }
            }
        }
    }

    /// From every state blocks of few points, none among them, some at the origin:
    /// those that reach the last place and those that go beyond it.
    fn last_places(&mut self) {
        let half = floats::of_units(0.5);
        for (_, states) in &self.source.signals {
            for state in states {
                for count in 0..5 {
                    let one = |_| self.rng.pick(&[0.0, -0.0, half, -half, 1.0, -3.0]);
                    let levels = (0..2 * count).map(one).collect();
                    self.block(state, levels);
                }
            }
        }
    }

    /// Prints the counts; whether there was no difference.
    fn report(mut self) -> bool {
        let kinds = self.kinds;
        println!(
            "readings: {} floats, {} NaN or infinite, {} out of range, {} ties, {} nearest 0; \
             seed {SEED}",
            kinds.all, kinds.not_finite, kinds.out_of_range, kinds.ties, kinds.zeros
        );
        self.points.report("readings, points", &[0, 18, 8, 16])
            & self.squelches.report("readings, squelches", &[0, 18, 16])
            & self.holes.report("readings, holes", &[0, 9, 16])
            & self.blocks.report("readings, blocks", &[0, 18, 8, 16])
    }
}

/// Compares listed floats and `count` random ones, every set of faults, and
/// `count` calls in lists; whether there was no difference.
pub fn compare(count: u64) -> bool {
    let mut rng = Rng::new(SEED);
    let source = Source::of(&mut rng);
    let mut readings = Readings {
        source: &source,
        rng: Rng::new(rng.next_u64()),
        kinds: Kinds::default(),
        points: Tally::default(),
        squelches: Tally::default(),
        holes: Tally::default(),
        blocks: Tally::default(),
    };
    readings.listed_floats();
    readings.random_floats(count);
    readings.pairs();
    readings.all_blocks();
    readings.all_holes();
    readings.last_places();
    readings.report() & refused::compare(&mut rng, ROUNDS) & lists::compare(&mut rng, count)
}
