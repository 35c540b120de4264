//! Settled data bits in runs, as V.41 blocks are taken from them (document 02,
//! from the bytes of a block of points, and from single answers.

use crate::mode::Mode;
use crate::receiver::{Answer, REFERENCE_BYTE};
use crate::refusal::{need, Refusal};

/// Points one after the other with settled data bits: all of each, though of the
/// first one perhaps only the last in time.
#[derive(Clone, Copy, PartialEq, Eq, Debug)]
pub struct Run {
    /// The points before it.
    pub first: usize,
    pub points: usize,
    pub bits: usize,
}

impl Run {
    /// The three numbers in the order in which a call writes them.
    pub fn numbers(self) -> [usize; 3] {
        [self.first, self.points, self.bits]
    }
}

/// How many data bits of a point are settled, the last ones in time. A byte of
/// line bits that is no group of them stands for a point without data bits.
fn settled_in(width: usize, line: u8, plain: u8) -> usize {
    if line >= REFERENCE_BYTE {
        return 0;
    }
    width.saturating_sub(usize::from(plain / 16))
}

/// The first run of a block of points, after all of them if there is none.
pub fn first_run(width: usize, line: &[u8], plain: &[u8]) -> Run {
    let settled = |at: usize| settled_in(width, line[at], plain[at]);
    let Some(first) = (0..line.len()).find(|&at| settled(at) > 0) else {
        return Run {
            first: line.len(),
            points: 0,
            bits: 0,
        };
    };
    let mut later = first + 1..line.len();
    let end = later.find(|&at| settled(at) < width).unwrap_or(line.len());
    Run {
        first,
        points: end - first,
        bits: settled(first) + (end - first - 1) * width,
    }
}

/// Writes the settled data bits of the first run, one in a byte, and the run's
/// three numbers; those beyond stay as they are. Refuses by 1 and 7.
pub fn settled_bits(
    mode: u8,
    line: &[u8],
    plain: &[u8],
    out: &mut [u8],
    run: &mut [usize],
) -> Result<(), Refusal> {
    let width = Mode::find(mode)?.width as usize;
    need(plain.len() == line.len(), Refusal::LENT_NUMBERS)?;
    need(run.len() >= 3, Refusal::LENT_NUMBERS)?;
    let found = first_run(width, line, plain);
    need(out.len() >= found.bits, Refusal::LENT_NUMBERS)?;
    let mut free = out.iter_mut();
    for at in found.first..found.first + found.points {
        for position in (0..settled_in(width, line[at], plain[at])).rev() {
            if let Some(bit) = free.next() {
                *bit = plain[at] >> position & 1;
            }
        }
    }
    run[..3].copy_from_slice(&found.numbers());
    Ok(())
}

/// The settled data bits that single answers give, those between two gaps by
/// themselves; stretches without any are left out.
pub fn between_gaps(mode: &Mode, answers: &[Answer]) -> Vec<Vec<u8>> {
    let mut stretches = vec![Vec::new()];
    for answer in answers {
        match *answer {
            Answer::Gap(_) => stretches.push(Vec::new()),
            Answer::Reference { .. } => {}
            Answer::Bits { plain, settled, .. } => {
                let positions = (0..mode.width).rev();
                let told = positions.filter(|k| settled >> k & 1 == 1);
                let bits = told.map(|k| plain >> k & 1);
                stretches.last_mut().expect("one at least").extend(bits);
            }
        }
    }
    stretches.retain(|bits| !bits.is_empty());
    stretches
}
