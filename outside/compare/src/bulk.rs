//! Blocks of points handed over by one call: byte by byte what the outside
//! implementation's block gives, plain and tuned, and what the single calls give
//! one by one; and each fault of a block alone and beside every other.

use kerambiu::raw as ours;
use outside::mode::Mode;
use outside::receiver::{self, Receiver};
use outside::refusal::Refusal;
use outside::rng::Rng;
use outside::tuned;

use crate::layout::{self, STATE};
use crate::tally::Tally;
use crate::{faults, points, receiving};

/// Bytes and distances beyond what a call writes, to show what it leaves.
const UNWRITTEN: u8 = 0xa5;
const UNWRITTEN_DISTANCE: u32 = 0xa5a5_a5a5;
const SEED: u64 = 4;

/// What receives a block in the outside implementation: numbers of points in
/// units, or in levels.
pub type ReceiveBlock<N = i16> =
    fn(Receiver, &[N], &mut [u8], &mut [u8], &mut [u32]) -> Result<Receiver, Refusal>;

/// How many bytes of line bits and of data bits and how many distances are lent.
#[derive(Clone, Copy)]
pub struct Lent {
    pub line: usize,
    pub plain: usize,
    pub distance: usize,
}

impl Lent {
    /// One of each for so many points.
    pub fn of(count: usize) -> Lent {
        Lent {
            line: count,
            plain: count,
            distance: count,
        }
    }
}

/// What a call is given: a state, the numbers of points, and lent parts.
pub struct Block {
    pub state: [u8; STATE],
    pub numbers: Vec<i16>,
    pub lent: Lent,
}

/// A call's number, and the state and the lent parts after it.
#[derive(PartialEq)]
pub struct Received {
    pub number: u8,
    pub state: [u8; STATE],
    pub line: Vec<u8>,
    pub plain: Vec<u8>,
    pub distance: Vec<u32>,
}

impl Block {
    fn unwritten(&self) -> Received {
        Received {
            number: 0,
            state: self.state,
            line: vec![UNWRITTEN; self.lent.line],
            plain: vec![UNWRITTEN; self.lent.plain],
            distance: vec![UNWRITTEN_DISTANCE; self.lent.distance],
        }
    }

    fn proved(&self) -> Received {
        let mut told = self.unwritten();
        let (line, plain) = (&mut told.line, &mut told.plain);
        let distance = &mut told.distance;
        told.number = ours::receive_points(&mut told.state, &self.numbers, line, plain, distance);
        told
    }

    /// By the plain implementation or a tuned one.
    fn outside(&self, receive_points: ReceiveBlock) -> Received {
        let mut told = self.unwritten();
        let (line, plain) = (&mut told.line, &mut told.plain);
        let start = layout::receiver_of(&self.state);
        match receive_points(start, &self.numbers, line, plain, &mut told.distance) {
            Ok(next) => told.state = layout::receiver_bytes(&next),
            Err(refusal) => told.number = refusal.0,
        }
        told
    }

    /// Whether the single calls, none of them refused, give what the block gave.
    fn as_single_calls(&self, width: u32, told: &Received) -> bool {
        let mut state = layout::receiver_of(&self.state);
        let bytes = told.line.iter().zip(&told.plain);
        let mut each = bytes.zip(&told.distance);
        let same = self.numbers.chunks_exact(2).all(|pair| {
            let Ok((answer, next)) = receiver::receive_point(state, pair[0], pair[1]) else {
                return false;
            };
            state = next;
            let (line, plain, distance) = receiver::block_numbers(width, answer);
            each.next() == Some(((&line, &plain), &distance))
        });
        same && layout::receiver_bytes(&state) == told.state
    }
}

/// Runs a block on all sides; gives what the proved one gave.
pub fn run(tally: &mut Tally, width: u32, block: &Block) -> Received {
    let what = |side: &str| {
        let (count, state) = (block.numbers.len(), block.state);
        format!("{side} block of {count} numbers, state {state:?}")
    };
    let right = block.outside(receiver::receive_points);
    let told = block.proved();
    tally.count(told.number);
    tally.check(told == right, || {
        let (number, right_number) = (told.number, right.number);
        format!("{}: {number}, outside {right_number}", what("proved"))
    });
    for receive_points in [tuned::receive_points, tuned::receive_in_passes] {
        tally.check(block.outside(receive_points) == right, || what("tuned"));
    }
    if told.number == 0 {
        tally.check(block.as_single_calls(width, &told), || {
            what("not the single calls,")
        });
    }
    told
}

/// How many points a block has: few mostly, now and then many.
fn random_count(rng: &mut Rng) -> usize {
    let most = if rng.below(50) == 0 { 2_000 } else { 40 };
    rng.below(most) as usize
}

fn random_points(rng: &mut Rng, mode: &Mode, count: usize) -> Vec<i16> {
    let point = |_| points::in_range(rng, mode);
    points::flat(&(0..count).map(point).collect::<Vec<_>>())
}

/// Puts a point out of range among the points of a block.
fn put_out_of_range(rng: &mut Rng, numbers: &mut [i16]) {
    let at = 2 * rng.below(numbers.len() as u64 / 2) as usize;
    let point = points::out_of_range(rng);
    numbers[at..at + 2].copy_from_slice(&[point.re, point.im]);
}

/// A random block, now and then with a point out of range, a number too many or
/// a lent part too short; gives the state after it.
fn run_random(tally: &mut Tally, rng: &mut Rng, mode: &Mode, state: [u8; STATE]) -> [u8; STATE] {
    let count = random_count(rng);
    let mut numbers = random_points(rng, mode, count);
    if count > 0 && rng.below(10) == 0 {
        put_out_of_range(rng, &mut numbers);
    }
    if rng.below(30) == 0 {
        numbers.push(1);
    }
    let mut room = || match rng.below(30) {
        0 => count.saturating_sub(1),
        _ => count + rng.below(3) as usize,
    };
    let lent = Lent {
        line: room(),
        plain: room(),
        distance: room(),
    };
    let block = Block {
        state,
        numbers,
        lent,
    };
    run(tally, mode.width, &block).state
}

/// What is wrong with a block.
#[derive(Clone, Copy)]
enum Fault {
    Mode,
    Role,
    Field,
    OddCount,
    ShortLine,
    ShortPlain,
    ShortDistance,
    Coordinate,
    Place,
}

/// All faults and their numbers; putting in one does not undo another.
const FAULTS: [(Fault, u8); 9] = [
    (Fault::Mode, 1),
    (Fault::Role, 2),
    (Fault::Field, 4),
    (Fault::OddCount, 7),
    (Fault::ShortLine, 7),
    (Fault::ShortPlain, 7),
    (Fault::ShortDistance, 7),
    (Fault::Coordinate, 8),
    (Fault::Place, 16),
];

/// A block that is not refused, of one point at least.
fn sound_block(rng: &mut Rng, mode: &Mode, role: u8) -> Block {
    let count = 1 + random_count(rng);
    let mut start = receiving::sound_state(rng, mode, role);
    start.place.0 = rng.below(1 << 31) as u32;
    Block {
        state: layout::receiver_bytes(&start),
        numbers: random_points(rng, mode, count),
        lent: Lent::of(count),
    }
}

fn put_fault(rng: &mut Rng, mode: &Mode, block: &mut Block, fault: Fault) {
    let count = block.numbers.len() / 2;
    let fewer = rng.below(count as u64) as usize;
    match fault {
        Fault::Mode => block.state[0] = faults::no_mode(rng),
        Fault::Role => block.state[1] = faults::no_role(rng, mode),
        Fault::Field => receiving::break_field(rng, mode, &mut block.state),
        Fault::OddCount => block.numbers.push(rng.between(-16384, 16384) as i16),
        Fault::ShortLine => block.lent.line = fewer,
        Fault::ShortPlain => block.lent.plain = fewer,
        Fault::ShortDistance => block.lent.distance = fewer,
        Fault::Coordinate => put_out_of_range(rng, &mut block.numbers),
        Fault::Place => {
            let place = u32::MAX - fewer as u32;
            block.state[12..].copy_from_slice(&place.to_le_bytes());
        }
    }
}

/// A block with some faults: the lowest of their numbers refuses it.
fn run_faults(tally: &mut Tally, rng: &mut Rng, faults: &[(Fault, u8)]) {
    let (mode, role) = rng.mode_and_role();
    let mut block = sound_block(rng, mode, role);
    for &(fault, _) in faults {
        put_fault(rng, mode, &mut block, fault);
    }
    let told = run(tally, mode.width, &block);
    let numbers: Vec<u8> = faults.iter().map(|&(_, number)| number).collect();
    tally.expect_lowest(&numbers, told.number);
    let kept = Received {
        number: told.number,
        ..block.unwritten()
    };
    tally.check(told == kept, || format!("{numbers:?} refused and written"));
}

/// Each fault alone, and every two of them.
fn run_all_faults(tally: &mut Tally, rng: &mut Rng) {
    for (k, &first) in FAULTS.iter().enumerate() {
        run_faults(tally, rng, &[first]);
        for &second in &FAULTS[k + 1..] {
            run_faults(tally, rng, &[first, second]);
        }
    }
}

/// Compares `count` blocks, in lists of four; whether there was no difference.
pub fn compare(count: u64) -> bool {
    let mut tally = Tally::default();
    let mut rng = Rng::new(SEED);
    for k in 0..count / 4 {
        let (mode, role) = rng.mode_and_role();
        let mut state = layout::receiver_bytes(&receiving::sound_state(&mut rng, mode, role));
        match rng.below(20) {
            0 => state[0] = faults::no_mode(&mut rng),
            1 => state[1] = faults::no_role(&mut rng, mode),
            2 => receiving::break_field(&mut rng, mode, &mut state),
            _ => {}
        }
        for _ in 0..4 {
            state = run_random(&mut tally, &mut rng, mode, state);
        }
        if k % 100 == 0 {
            run_all_faults(&mut tally, &mut rng);
        }
    }
    println!("bulk: {count} blocks, and each fault alone and beside every other; seed {SEED}");
    tally.report("bulk", &[0, 1, 2, 4, 7, 8, 16])
}
