//! V.41 blocks: made and checked on all sides; altered within runs of 16 bits,
//! which has to be seen, by the generator, which is not, and otherwise; and each
//! set of faults of a call.

use std::collections::BTreeMap;

use kerambiu::raw as ours;
use outside::refusal::{self, Refusal};
use outside::rng::Rng;
use outside::tuned;
use outside::v41::{self, CHECK_BITS, GENERATOR, SIZES};

use crate::tally::Tally;

const SEED: u64 = 9;
/// How many blocks are altered within runs of 16 bits at least, and how many of
/// each size within runs of each length.
const FEWEST: u64 = 200_000;
const FEWEST_OF_A_LENGTH: u64 = 3_000;
/// Blocks that are altered otherwise, for each that is made.
const OTHERS: u64 = 8;
/// Counts of bits that are tried one by one.
const MOST_BITS: usize = 4_000;

/// What makes a block in the outside implementation.
type Make = fn(&[u8], &mut [u8]) -> Result<usize, Refusal>;

/// How many blocks were altered, and how many of them were accepted all the same.
#[derive(Default)]
struct Altered {
    /// Within runs of 16 bits, by the block's size and the length of the run.
    runs: BTreeMap<(usize, usize), u64>,
    runs_accepted: u64,
    by_generator: u64,
    by_generator_accepted: u64,
    others: u64,
    others_accepted: u64,
}

impl Altered {
    /// Prints the counts; none may be too small.
    fn report(&self, tally: &mut Tally) {
        let all: u64 = self.runs.values().sum();
        let least = self.runs.values().min().copied().unwrap_or(0);
        println!(
            "v41: altered within a run of 1 to 16 bits {all} blocks, {least} or more of each size and length, {} accepted; \
             by the generator {}, {} accepted; otherwise {}, {} accepted; seed {SEED}",
            self.runs_accepted,
            self.by_generator,
            self.by_generator_accepted,
            self.others,
            self.others_accepted
        );
        let each = self.runs.len() == SIZES.len() * CHECK_BITS && least >= FEWEST_OF_A_LENGTH;
        tally.check(each && all >= FEWEST, || {
            "too few blocks altered".to_string()
        });
    }
}

/// Both calls' counts, and random numbers for what they are given.
struct Comparison {
    rng: Rng,
    checks: Tally,
    makes: Tally,
    altered: Altered,
}

/// Lent bytes that hold anything.
fn lend(rng: &mut Rng, count: usize) -> Vec<u8> {
    (0..count).map(|_| rng.next_u64() as u8).collect()
}

/// Service and information bits: random ones, now and then few ones or all equal.
fn random_message(rng: &mut Rng, size: usize) -> Vec<u8> {
    let count = size - CHECK_BITS;
    match rng.below(8) {
        0 => vec![rng.below(2) as u8; count],
        1 => (0..count).map(|_| u8::from(rng.below(60) == 0)).collect(),
        _ => rng.bits(count),
    }
}

/// Alters the bits from a place on by a pattern's ones.
fn alter(bits: &mut [u8], place: usize, pattern: &[u8]) {
    let altered = bits[place..].iter_mut().zip(pattern);
    altered.for_each(|(bit, one)| *bit ^= one);
}

/// A run's first and last bit are altered, those between them at random.
fn random_run(rng: &mut Rng, length: usize) -> Vec<u8> {
    let mut pattern = rng.bits(length);
    (pattern[0], pattern[length - 1]) = (1, 1);
    pattern
}

impl Comparison {
    /// Checks a block on all sides with so many bytes lent; gives the number and
    /// the bytes. Those beyond the first, and all where the call is refused, stay
    /// as they were.
    fn check(&mut self, bits: &[u8], lent: usize) -> (u8, Vec<u8>) {
        let before = lend(&mut self.rng, lent);
        let (mut whole, mut right_whole) = (before.clone(), before.clone());
        let right = refusal::number(v41::check_into(bits, &mut right_whole));
        let number = ours::v41_check(bits, &mut whole);
        self.checks.count(number);
        let same = (number, &whole) == (right, &right_whole);
        self.checks.check(same, || {
            let count = bits.len();
            format!("check of {count} bits: {number} {whole:?}, outside {right} {right_whole:?}")
        });
        let kept = usize::from(number == 0).min(lent);
        self.checks.check(whole[kept..] == before[kept..], || {
            format!("check of {} bits: {number}, written beyond", bits.len())
        });
        let verdict = v41::check(bits);
        for check in [v41::check_by_register, tuned::v41_check] {
            self.checks.check(check(bits) == verdict, || {
                format!("check of {} bits: register or tuned", bits.len())
            });
        }
        (number, whole)
    }

    /// Whether a block is accepted, which is the same on all sides.
    fn accepted(&mut self, bits: &[u8]) -> bool {
        let lent = 1 + self.rng.below(3) as usize;
        let (number, whole) = self.check(bits, lent);
        let sound = number == 0 && whole[0] <= 1;
        self.checks.check(sound, || {
            format!("check of {} bits: {number} {whole:?}", bits.len())
        });
        whole[0] == 1
    }

    /// Makes a block on all sides with so many bytes lent; gives the number and
    /// the bytes. Those beyond the block, and all where the call is refused, stay
    /// as they were.
    fn make(&mut self, bits: &[u8], lent: usize) -> (u8, Vec<u8>) {
        let before = lend(&mut self.rng, lent);
        let outside = |make: Make| {
            let mut out = before.clone();
            (refusal::number(make(bits, &mut out)), out)
        };
        let right = outside(v41::make);
        let mut out = before.clone();
        let number = ours::v41_make(bits, &mut out);
        self.makes.count(number);
        let told = (number, out);
        self.makes.check(told == right, || {
            let (count, right_number) = (bits.len(), right.0);
            format!("make of {count} bits, {lent} lent: {number}, outside {right_number}")
        });
        let kept = match number {
            0 => (bits.len() + CHECK_BITS).min(lent),
            _ => 0,
        };
        self.makes.check(told.1[kept..] == before[kept..], || {
            format!("make of {} bits: {number}, written beyond", bits.len())
        });
        for make in [v41::make_by_register, tuned::v41_make] {
            self.makes.check(outside(make) == right, || {
                format!("make of {} bits: register or tuned", bits.len())
            });
        }
        told
    }

    /// A random block of a size: it begins with the bits given and is accepted.
    fn made(&mut self, size: usize) -> Vec<u8> {
        let message = random_message(&mut self.rng, size);
        let lent = size + self.rng.below(20) as usize;
        let (number, mut block) = self.make(&message, lent);
        block.truncate(size);
        let whole = number == 0 && block.starts_with(&message) && self.accepted(&block);
        self.makes
            .check(whole, || format!("made block of {size} bits: {number}"));
        block
    }

    /// Alters a block within a run, which is never accepted.
    fn alter_within_run(&mut self, block: &[u8], length: usize, place: usize) {
        let mut bits = block.to_vec();
        alter(&mut bits, place, &random_run(&mut self.rng, length));
        let accepted = self.accepted(&bits);
        let size = block.len();
        *self.altered.runs.entry((size, length)).or_default() += 1;
        self.altered.runs_accepted += u64::from(accepted);
        self.checks.check(!accepted, || {
            format!("accepted: {size} bits altered within {length} from {place} on")
        });
    }

    /// Alters 17 bits by the generator, which is accepted.
    fn alter_by_generator(&mut self, block: &[u8], place: usize) {
        let mut bits = block.to_vec();
        alter(&mut bits, place, &GENERATOR);
        let accepted = self.accepted(&bits);
        self.altered.by_generator += 1;
        self.altered.by_generator_accepted += u64::from(accepted);
        self.checks.check(accepted, || {
            format!("not accepted: {} bits, by the generator", block.len())
        });
    }

    /// Alters a block otherwise: some bits, two runs, several times by the
    /// generator, all bits, or moved by one. All sides have the same verdict.
    fn alter_otherwise(&mut self, block: &[u8]) {
        let mut bits = block.to_vec();
        let last = (block.len() - GENERATOR.len()) as u64;
        let places: Vec<usize> = (0..12).map(|_| self.rng.below(last + 1) as usize).collect();
        let some = 1 + self.rng.below(places.len() as u64) as usize;
        match self.rng.below(5) {
            0 => places[..some].iter().for_each(|&at| bits[at] ^= 1),
            1 => places[..2].iter().for_each(|&at| {
                let length = 1 + self.rng.below(CHECK_BITS as u64) as usize;
                alter(&mut bits, at, &random_run(&mut self.rng, length));
            }),
            2 => places[..some]
                .iter()
                .for_each(|&at| alter(&mut bits, at, &GENERATOR)),
            3 => bits = self.rng.bits(block.len()),
            _ => bits.rotate_left(1),
        }
        let accepted = self.accepted(&bits);
        self.altered.others += 1;
        self.altered.others_accepted += u64::from(accepted);
    }

    /// A block of each size, made and altered in every way: at its front, at its
    /// very end, anywhere.
    fn run_blocks(&mut self) {
        for size in SIZES {
            let block = self.made(size);
            for length in 1..=GENERATOR.len() {
                let last = size - length;
                for place in [0, last, self.rng.below(last as u64 + 1) as usize] {
                    match length {
                        17 => self.alter_by_generator(&block, place),
                        _ => self.alter_within_run(&block, length, place),
                    }
                }
            }
            (0..OTHERS).for_each(|_| self.alter_otherwise(&block));
        }
    }

    /// At every place of every size: a bit altered, a run of 16 altered, a byte
    /// above 1.
    fn run_places(&mut self) {
        for size in SIZES {
            let block = self.made(size);
            for place in 0..size {
                self.alter_within_run(&block, 1, place);
                self.alter_within_run(&block, CHECK_BITS, place.min(size - CHECK_BITS));
                let mut bits = block.clone();
                bits[place] = self.rng.between(2, 255) as u8;
                let (number, _) = self.check(&bits, 1);
                self.checks.expect_lowest(&[5], number);
                if place < size - CHECK_BITS {
                    let (number, _) = self.make(&bits[..size - CHECK_BITS], size);
                    self.makes.expect_lowest(&[5], number);
                }
            }
        }
    }

    /// Every count of bits, of which number 19 refuses all but four.
    fn run_counts(&mut self) {
        for count in 0..=MOST_BITS {
            let bits = self.rng.bits(count);
            let number_19 = |sound: bool| Vec::from_iter((!sound).then_some(19));
            let faults = number_19(SIZES.contains(&count));
            let (number, _) = self.check(&bits, 1);
            self.checks.expect_lowest(&faults, number);
            let faults = number_19(SIZES.contains(&(count + CHECK_BITS)));
            let (number, _) = self.make(&bits, count + CHECK_BITS);
            self.makes.expect_lowest(&faults, number);
        }
    }

    /// A call of check and one of make with some faults: the lowest refuses them.
    fn run_faults(&mut self, faults: &[Fault]) {
        let numbers: Vec<u8> = faults.iter().map(|fault| fault.number()).collect();
        let short = faults.contains(&Fault::Lent);
        let bits = faulty(&mut self.rng, &SIZES, faults);
        let lent = if short { 0 } else { 1 + self.rng.below(4) };
        let (number, _) = self.check(&bits, lent as usize);
        self.checks.expect_lowest(&numbers, number);
        let bits = faulty(&mut self.rng, &SIZES.map(|size| size - CHECK_BITS), faults);
        let size = (bits.len() + CHECK_BITS) as u64;
        let fewer = self.rng.below(size);
        let lent = match short {
            true => self.rng.pick(&[0, size - 1, fewer]),
            false => size + self.rng.below(20),
        };
        let (number, _) = self.make(&bits, lent as usize);
        self.makes.expect_lowest(&numbers, number);
    }
}

/// What is wrong with a call.
#[derive(Clone, Copy, PartialEq)]
enum Fault {
    Size,
    Byte,
    Lent,
}

impl Fault {
    const ALL: [Fault; 3] = [Fault::Size, Fault::Byte, Fault::Lent];

    fn number(self) -> u8 {
        match self {
            Fault::Size => 19,
            Fault::Byte => 5,
            Fault::Lent => 7,
        }
    }

    /// Every set of faults, of none and of all too.
    fn sets() -> impl Iterator<Item = Vec<Fault>> {
        let chosen = |set: usize| move |k: &usize| set >> k & 1 == 1;
        let all = Fault::ALL;
        (0..1 << all.len()).map(move |set| {
            let places = (0..all.len()).filter(chosen(set));
            places.map(|k| all[k]).collect()
        })
    }
}

/// A count of bits that is none of a call's, though near one of them at times.
fn no_size(rng: &mut Rng, sizes: &[usize]) -> usize {
    loop {
        let near = rng.pick(sizes) + rng.pick(&[0, 15, 17, 32]) - 16;
        let any = 1 + rng.below(5_000) as usize;
        let size = rng.pick(&[1, near, any]);
        if !sizes.contains(&size) {
            return size;
        }
    }
}

/// Bits for a call that takes some sizes, with the faults that bits can have.
fn faulty(rng: &mut Rng, sizes: &[usize], faults: &[Fault]) -> Vec<u8> {
    let size = match faults.contains(&Fault::Size) {
        true => no_size(rng, sizes),
        false => rng.pick(sizes),
    };
    let mut bits = rng.bits(size);
    if faults.contains(&Fault::Byte) {
        let any = rng.below(size as u64) as usize;
        let at = rng.pick(&[0, size - 1, any]);
        bits[at] = rng.between(2, 255) as u8;
    }
    bits
}

/// Compares blocks of each size, `rounds` times; whether there was no difference.
pub fn compare(rounds: u64) -> bool {
    let mut comparison = Comparison {
        rng: Rng::new(SEED),
        checks: Tally::default(),
        makes: Tally::default(),
        altered: Altered::default(),
    };
    comparison.run_places();
    comparison.run_counts();
    for _ in 0..rounds {
        comparison.run_blocks();
        Fault::sets().for_each(|faults| comparison.run_faults(&faults));
    }
    let Comparison {
        mut checks,
        mut makes,
        altered,
        ..
    } = comparison;
    altered.report(&mut checks);
    for tally in [&mut checks, &mut makes] {
        tally.expect_each_two(&[19, 5, 7]);
    }
    let numbers = [0, 19, 5, 7];
    checks.report("v41 check", &numbers) & makes.report("v41 make", &numbers)
}
