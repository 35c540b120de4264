//! The rows of V.41 blocks, by size, and of settled bits.

use std::hint::black_box;

use kerambiu::raw as ours;
use outside::receiver;
use outside::refusal::Refusal;
use outside::rng::Rng;
use outside::settled;
use outside::tuned;
use outside::v41::{self, CHECK_BITS};

use super::measure::{measure, Side, Work};
use super::table::Table;
use super::{call_row, input};
use crate::points;
use crate::signal::Signal;

/// The points of one call for settled bits.
const POINTS: usize = 4_000;

/// A row of the table of blocks: its name, the bits of a block, and its work.
type BlockRow = (&'static str, usize, fn(&Block) -> Work<'_>);

const BLOCK_ROWS: [BlockRow; 4] = [
    ("V.41 check, 260 bits", 260, Block::checking),
    ("V.41 check, 3860 bits", 3860, Block::checking),
    ("V.41 make, 260 bits", 260, Block::making),
    ("V.41 make, 3860 bits", 3860, Block::making),
];

/// The rows whose name contains the word.
pub fn rows(word: &str) {
    for (name, size, work) in BLOCK_ROWS.iter().filter(|(name, ..)| name.contains(word)) {
        let block = Block::of(*size);
        let times = measure(work(&block)).map(|time| time.map(|ns| ns / *size as f64));
        let [proved, plain, tuned] = times;
        let ratio = |other: Option<f64>| Some(proved? / other?);
        let figures = [proved, plain, tuned, ratio(plain), ratio(tuned)];
        Table::V41.print_once(&[name], &figures);
    }
}

/// A block that is accepted.
struct Block(Vec<u8>);

impl Block {
    fn of(size: usize) -> Block {
        let mut bits = vec![0; size];
        let message = Rng::new(41).bits(size - CHECK_BITS);
        v41::make(&message, &mut bits).expect("made");
        Block(bits)
    }

    /// Checking by one of the two implementations.
    fn check_side(&self, check: fn(&[u8]) -> Result<bool, Refusal>) -> Side<'_> {
        Box::new(move |kept| {
            let whole = black_box(check(black_box(&self.0))).expect("a block");
            keep(kept, &[u8::from(whole)]);
        })
    }

    fn checking(&self) -> Work<'_> {
        Work {
            proved: Box::new(|kept| {
                let mut whole = [2];
                black_box(ours::v41_check(&self.0, &mut whole));
                keep(kept, black_box(&whole));
            }),
            plain: Some(self.check_side(v41::check_by_register)),
            tuned: Some(self.check_side(tuned::v41_check)),
        }
    }

    /// Making the block again of its service and information bits.
    fn make_side<'a>(&'a self, make: impl Fn(&[u8], &mut [u8]) + 'a) -> Side<'a> {
        let mut out = vec![2; self.0.len()];
        let message = &self.0[..self.0.len() - CHECK_BITS];
        Box::new(move |kept| {
            make(black_box(message), &mut out);
            keep(kept, black_box(&out));
        })
    }

    fn making(&self) -> Work<'_> {
        Work {
            proved: self.make_side(|bits, out| {
                black_box(ours::v41_make(bits, out));
            }),
            plain: Some(self.make_side(|bits, out| {
                black_box(v41::make_by_register(bits, out)).expect("made");
            })),
            tuned: Some(self.make_side(|bits, out| {
                black_box(tuned::v41_make(bits, out)).expect("made");
            })),
        }
    }
}

fn keep(kept: Option<&mut Vec<u8>>, bytes: &[u8]) {
    if let Some(kept) = kept {
        kept.extend(bytes);
    }
}

/// The bytes of received points.
struct Received {
    signal: Signal,
    line: Vec<u8>,
    plain: Vec<u8>,
}

impl Received {
    fn of(signal: Signal) -> Received {
        let numbers = points::flat(&input::noisy(signal.mode, POINTS));
        let (mut line, mut plain) = (vec![0; POINTS], vec![0; POINTS]);
        let mut distance = vec![0; POINTS];
        let fresh = signal.receiver();
        receiver::receive_points(fresh, &numbers, &mut line, &mut plain, &mut distance)
            .expect("in range");
        Received {
            signal,
            line,
            plain,
        }
    }

    /// The first run, which goes on to the end, by a call that is lent bytes and
    /// numbers.
    fn side<'a>(&'a self, settled: impl Fn(&mut [u8], &mut [usize]) + 'a) -> Side<'a> {
        let mut out = vec![2; self.signal.mode.width as usize * POINTS];
        Box::new(move |kept| {
            let mut run = [0; 3];
            settled(&mut out, &mut run);
            black_box((&out, &run));
            if let Some(kept) = kept {
                kept.extend(&out);
                kept.extend(run.iter().flat_map(|number| number.to_le_bytes()));
            }
        })
    }

    fn work(&self) -> Work<'_> {
        let mode = self.signal.mode.number;
        let Received { line, plain, .. } = self;
        Work {
            proved: self.side(move |out, run| {
                black_box(ours::settled_bits(mode, line, plain, out, run));
            }),
            plain: Some(self.side(move |out, run| {
                let (line, plain) = black_box((line, plain));
                settled::settled_bits(mode, line, plain, out, run).expect("room");
            })),
            tuned: None,
        }
    }
}

pub fn settled_bits(name: &str, signal: Signal) {
    call_row(name, signal, POINTS, Received::of(signal).work());
}
