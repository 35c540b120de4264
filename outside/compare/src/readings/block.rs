//! Blocks of points in levels: a call of the library against the outside
//! implementation, plain and tuned, against the library's call of whole numbers,
//! against its single calls, and against the block's turn.

use kerambiu::raw as ours;
use outside::reading::Levels;
use outside::receiver::{self, GAP_BYTE, REFERENCE_BYTE};
use outside::tuned;

use super::single::{turned_state, UNWRITTEN};
use crate::bulk::{Lent, ReceiveBlock};
use crate::floats;
use crate::layout::{self, ANSWER, STATE};
use crate::tally::Tally;

/// A distance before a call, to show what a call leaves.
const UNWRITTEN_DISTANCE: u32 = 0xa5a5_a5a5;

/// What a call is given: lent bytes of a state, coordinates in levels, and how
/// much is lent for what is written.
pub struct Block {
    pub state: Vec<u8>,
    pub levels: Vec<f32>,
    pub lent: Lent,
}

/// A call's number, and the lent parts after it.
#[derive(PartialEq)]
pub struct Received {
    pub number: u8,
    pub state: Vec<u8>,
    pub line: Vec<u8>,
    pub plain: Vec<u8>,
    pub distance: Vec<u32>,
}

/// What a block has for a point with this answer.
fn numbers_of(answer: &[u8; ANSWER]) -> (u8, u8, u32) {
    let [kind, line, plain, unsettled, _, _, _, _, distance @ ..] = *answer;
    let distance = u32::from_le_bytes(distance);
    match kind {
        0 => (REFERENCE_BYTE, 0, distance),
        1 => (line, plain + 16 * unsettled, distance),
        _ => (GAP_BYTE, 0, 0),
    }
}

impl Block {
    pub fn unwritten(&self) -> Received {
        Received {
            number: 0,
            state: self.state.clone(),
            line: vec![UNWRITTEN; self.lent.line],
            plain: vec![UNWRITTEN; self.lent.plain],
            distance: vec![UNWRITTEN_DISTANCE; self.lent.distance],
        }
    }

    fn proved(&self) -> Received {
        let mut told = self.unwritten();
        let (line, plain) = (&mut told.line, &mut told.plain);
        let (state, distance) = (&mut told.state, &mut told.distance);
        told.number = ours::receive_level_points(state, &self.levels, line, plain, distance);
        told
    }

    /// By the library's call of whole numbers; none where a float is not finite.
    fn in_whole_numbers(&self) -> Option<Received> {
        let mut told = self.unwritten();
        let (line, plain) = (&mut told.line, &mut told.plain);
        let (state, distance) = (&mut told.state, &mut told.distance);
        let units = self.levels.iter().map(|&level| floats::units(level));
        let numbers = units.collect::<Option<Vec<i16>>>()?;
        told.number = ours::receive_points(state, &numbers, line, plain, distance);
        Some(told)
    }

    /// By the library's single calls, one after the other; none where one of
    /// them is refused.
    fn one_by_one(&self) -> Option<Received> {
        let mut told = self.unwritten();
        let mut answer = [UNWRITTEN; ANSWER];
        let parts = told.line.iter_mut().zip(&mut told.plain);
        let parts = parts.zip(&mut told.distance);
        for (pair, ((line, plain), distance)) in self.levels.chunks_exact(2).zip(parts) {
            let number = ours::receive_levels(&mut told.state, pair[0], pair[1], &mut answer);
            if number != 0 {
                return None;
            }
            (*line, *plain, *distance) = numbers_of(&answer);
        }
        Some(told)
    }

    /// By the plain implementation or the tuned one.
    fn outside(&self, receive: ReceiveBlock<f32>) -> Received {
        let mut told = self.unwritten();
        let (line, plain) = (&mut told.line, &mut told.plain);
        let Some(bytes) = told.state.first_chunk_mut::<STATE>() else {
            told.number = 7;
            return told;
        };
        let start = layout::receiver_of(bytes);
        match receive(start, &self.levels, line, plain, &mut told.distance) {
            Ok(next) => *bytes = layout::receiver_bytes(&next),
            Err(refusal) => told.number = refusal.0,
        }
        told
    }

    /// State and points turned by 90°.
    fn turned(&self) -> Block {
        let points = self.levels.chunks_exact(2);
        let turned = points.flat_map(|pair| {
            let Levels { re, im } = turned_levels(pair);
            [re, im]
        });
        Block {
            state: turned_state(&self.state),
            levels: turned.collect(),
            lent: self.lent,
        }
    }
}

fn turned_levels(pair: &[f32]) -> Levels {
    let levels = Levels {
        re: pair[0],
        im: pair[1],
    };
    levels.turned()
}

/// Runs a block on all sides; gives what the library gave.
pub fn run(tally: &mut Tally, block: &Block) -> Received {
    let told = block.proved();
    tally.count(told.number);
    let what = |side: &str, number: u8| {
        let (count, state, told) = (block.levels.len(), &block.state, told.number);
        format!("block of {count} floats, state {state:?}: {told}, {side} {number}")
    };
    let right = block.outside(receiver::receive_level_points);
    tally.check(told == right, || what("outside", right.number));
    let fast = block.outside(tuned::receive_level_points);
    tally.check(fast == right, || what("tuned", fast.number));
    if let Some(whole) = block.in_whole_numbers() {
        tally.check(told == whole, || what("in whole numbers", whole.number));
    }
    match told.number {
        0 => {
            let single = block.one_by_one();
            tally.check(single.as_ref() == Some(&told), || what("single", 0));
        }
        // What refuses the block for its points refuses one of them.
        18 | 8 | 16 => tally.check(block.one_by_one().is_none(), || what("single", 0)),
        _ => {}
    }
    told
}

/// Runs a block of whole points, and its turn: all that is written is the same,
/// and the state after it is turned.
pub fn run_and_turn(tally: &mut Tally, block: &Block) -> Received {
    let told = run(tally, block);
    let mut turned = run(tally, &block.turned());
    let after = turned_state(&told.state);
    let same_state = std::mem::replace(&mut turned.state, told.state.clone()) == after;
    tally.check(same_state && turned == told, || {
        let (count, state) = (block.levels.len(), &block.state);
        format!("block of {count} floats, state {state:?}: turned")
    });
    told
}
