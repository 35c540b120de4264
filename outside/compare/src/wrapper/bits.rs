//! Settled data bits and V.41 blocks.

use kerambiu::raw as ours;
use kerambiu::{settled_bits, v41, Mode};
use outside::rng::Rng;

use super::outcome;
use crate::tally::Tally;

/// Line bytes and data bytes that a receiver could have written, or any.
fn random_bytes(rng: &mut Rng, count: usize) -> (Vec<u8>, Vec<u8>) {
    let any = rng.below(4) == 0;
    let bytes = (0..count).map(|_| match rng.below(12) {
        0 => (rng.pick(&[16, 17]), 0),
        _ if any => (rng.next_u64() as u8, rng.next_u64() as u8),
        1 => (0, 16 * rng.below(5) as u8),
        _ => (rng.below(16) as u8, rng.below(16) as u8),
    });
    bytes.unzip()
}

fn run_settled(tally: &mut Tally, rng: &mut Rng) {
    let mode = rng.pick(&Mode::ALL);
    let count = rng.below(40) as usize;
    let (line, mut plain) = random_bytes(rng, count);
    if rng.below(8) == 0 {
        plain.push(0);
    }
    let (mut out, mut run) = (vec![0; 4 * count], [0; 3]);
    let number = ours::settled_bits(mode.number(), &line, &plain, &mut out, &mut run);
    let first = outcome(tally, "settled", number, settled_bits(mode, &line, &plain));
    if let Some(first) = first {
        let same = match &first {
            None => run == [count, 0, 0],
            Some(own) => [own.point, own.points] == run[..2] && own.bits == out[..run[2]],
        };
        tally.check(same, || format!("settled bits: {first:?}, thin {run:?}"));
    }
}

/// A block made and checked, whole and altered, of any size and of any bytes.
fn run_v41(tally: &mut Tally, rng: &mut Rng) {
    let size = rng.pick(&[244, 484, 964, 3844, 244, 260, 0]);
    let mut bits = rng.bits(size);
    if rng.below(8) == 0 && size > 0 {
        bits[rng.below(size as u64) as usize] = 2;
    }
    let mut out = vec![0; size + 16];
    let number = ours::v41_make(&bits, &mut out);
    let Some(mut block) = outcome(tally, "make block", number, v41::make(&bits)) else {
        return;
    };
    tally.check(block == out, || format!("block of {size} bits"));
    if rng.below(2) == 0 {
        let at = rng.below(block.len() as u64) as usize;
        block[at] += 1;
    }
    let mut whole = [0];
    let number = ours::v41_check(&block, &mut whole);
    let own = outcome(tally, "check block", number, v41::check(&block));
    tally.check(own.map_or(0, u8::from) == whole[0], || {
        format!("check of {size} bits: {own:?}, thin {whole:?}")
    });
}

pub fn run(tally: &mut Tally, rng: &mut Rng) {
    run_settled(tally, rng);
    run_v41(tally, rng);
}
