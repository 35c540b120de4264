//! Every mode 2 point within range (document 02, R-5): off the origin it falls
//! into one sector and no other, and the library decides it as that sector's
//! state.

use std::ops::RangeInclusive;

use kerambiu::raw as ours;
use outside::code;
use outside::mode::{Mode, MODES};
use outside::point::{self, LARGEST_COORDINATE};
use outside::receiver::{self, GAP_BYTE, REFERENCE_BYTE};

use crate::layout::{self, STATE};
use crate::tally::Tally;

const MODE_2: &Mode = &MODES[1];
const RANGE: RangeInclusive<i16> = -LARGEST_COORDINATE..=LARGEST_COORDINATE;

/// The state whose sector a point falls into, if it is just one.
fn only_sector(re: i16, im: i16) -> Option<u8> {
    let sectors = point::sectors(re, im);
    let one = sectors.iter().filter(|&&inside| inside).count() == 1;
    let state = sectors.iter().position(|&inside| inside);
    state.filter(|_| one).map(|state| state as u8)
}

/// The byte of line bits of a point: of the change from the state before it, or
/// that it is the reference, or a gap.
fn line_byte(reference: Option<u8>, decided: Option<u8>) -> u8 {
    match (reference, decided) {
        (Some(reference), Some(state)) => code::group(MODE_2, reference, state),
        (None, Some(_)) => REFERENCE_BYTE,
        (_, None) => GAP_BYTE,
    }
}

/// A library's receiver, the state that its reference should be, and the points
/// that were found in just one sector.
struct Run {
    state: [u8; STATE],
    reference: Option<u8>,
    sectored: u64,
}

impl Run {
    /// All points with one re, from the lowest im on, in one block.
    fn take(&mut self, tally: &mut Tally, re: i16) {
        let points: Vec<i16> = RANGE.flat_map(|im| [re, im]).collect();
        let count = RANGE.count();
        let (mut line, mut plain) = (vec![0; count], vec![0; count]);
        let mut distance = vec![0; count];
        let number = ours::receive_points(
            &mut self.state,
            &points,
            &mut line,
            &mut plain,
            &mut distance,
        );
        tally.count(number);
        tally.check(number == 0, || format!("{number} for the points of {re}"));
        for (im, byte) in RANGE.zip(line) {
            let (reference, decided) = (self.reference, only_sector(re, im));
            let origin = (re, im) == (0, 0);
            let right = origin == decided.is_none() && byte == line_byte(reference, decided);
            tally.check(right, || {
                format!("({re}, {im}): {byte}, in sector {decided:?} after {reference:?}")
            });
            self.sectored += u64::from(decided.is_some());
            self.reference = decided;
        }
    }
}

/// Whether there was no difference.
pub fn compare() -> bool {
    let fresh = receiver::fresh(MODE_2.number, 0).expect("a mode and its role");
    let mut run = Run {
        state: layout::receiver_bytes(&fresh),
        reference: None,
        sectored: 0,
    };
    let mut tally = Tally::default();
    for re in RANGE {
        run.take(&mut tally, re);
    }
    println!("sectors: {} points in one sector each", run.sectored);
    tally.report("sectors", &[])
}
