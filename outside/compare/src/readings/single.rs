//! Single readings: a call of the library against the outside implementation,
//! against the library's call of whole numbers, and a point against its turn.

use kerambiu::raw as ours;
use outside::mode::Mode;
use outside::point;
use outside::reading::{Levels, Reading};
use outside::receiver::{self, Receiver};
use outside::rng::Rng;

use crate::floats;
use crate::layout::{self, ANSWER, STATE};
use crate::tally::Tally;

/// Bytes of an answer before a call, and bytes beyond a state, to show what a
/// call leaves.
pub const UNWRITTEN: u8 = 0xa5;

/// What a call is given: lent bytes of a state, a reading, and how many bytes of
/// an answer are lent.
#[derive(Clone, Debug)]
pub struct Call {
    pub state: Vec<u8>,
    pub reading: Reading,
    pub answer: usize,
}

/// A call's number, and the lent bytes after it.
#[derive(PartialEq, Debug)]
pub struct Told {
    pub number: u8,
    pub state: Vec<u8>,
    pub answer: Vec<u8>,
}

/// The bytes of a state, now and then with some beyond it.
pub fn lent_state(rng: &mut Rng, state: &Receiver) -> Vec<u8> {
    let mut bytes = layout::receiver_bytes(state).to_vec();
    bytes.resize(STATE + rng.below(3) as usize, UNWRITTEN);
    bytes
}

/// The state turned by 90°: its reference is. Bytes that are no state of a
/// receiver stay as they are.
pub fn turned_state(bytes: &[u8]) -> Vec<u8> {
    let mut turned = bytes.to_vec();
    if let [number, _, 1, reference, ..] = &mut turned[..] {
        if let Some(mode) = Mode::find(*number).ok().filter(|m| m.has_state(*reference)) {
            let turns = 90 / mode.step;
            *reference = (0..turns).fold(*reference, |state, _| point::turn_state(mode, state));
        }
    }
    turned
}

impl Call {
    /// A call that lends enough, now and then more.
    pub fn of(rng: &mut Rng, state: &Receiver, reading: Reading) -> Call {
        Call {
            state: lent_state(rng, state),
            reading,
            answer: ANSWER + rng.below(3) as usize,
        }
    }

    pub fn unwritten(&self) -> Told {
        Told {
            number: 0,
            state: self.state.clone(),
            answer: vec![UNWRITTEN; self.answer],
        }
    }

    fn proved(&self) -> Told {
        let mut told = self.unwritten();
        let (state, answer) = (&mut told.state, &mut told.answer);
        told.number = match self.reading {
            Reading::Point(Levels { re, im }) => ours::receive_levels(state, re, im, answer),
            Reading::Squelch { power } => ours::receive_squelch(state, power, answer),
            Reading::Hole { intervals } => ours::receive_hole(state, intervals, answer),
        };
        told
    }

    /// By the library's call of whole numbers that this reading comes to; none
    /// where a float is not finite.
    fn in_whole_numbers(&self) -> Option<Told> {
        let mut told = self.unwritten();
        let (state, answer) = (&mut told.state, &mut told.answer);
        told.number = match self.reading {
            Reading::Point(Levels { re, im }) => {
                let (re, im) = (floats::units(re)?, floats::units(im)?);
                ours::receive_point(state, re, im, answer)
            }
            Reading::Squelch { power } if power.is_finite() => ours::receive_gap(state, 1, answer),
            Reading::Squelch { .. } => return None,
            Reading::Hole { intervals } => ours::receive_gap(state, intervals, answer),
        };
        Some(told)
    }

    fn outside(&self) -> Told {
        let mut told = self.unwritten();
        let Some(bytes) = told.state.first_chunk_mut::<STATE>() else {
            told.number = 7;
            return told;
        };
        let start = layout::receiver_of(bytes);
        let short = self.answer < ANSWER;
        match receiver::receive_reading(start, self.reading) {
            // Just the state's numbers go before 7.
            Err(refusal) if !short || refusal.0 < 7 => told.number = refusal.0,
            Ok((answer, next)) if !short => {
                let width = Mode::find(start.mode).expect("accepted").width;
                *bytes = layout::receiver_bytes(&next);
                told.answer[..ANSWER].copy_from_slice(&layout::answer_bytes(width, &answer));
            }
            _ => told.number = 7,
        }
        told
    }

    /// State and point turned by 90°; none where the reading is no point.
    fn turned(&self) -> Option<Call> {
        let Reading::Point(levels) = self.reading else {
            return None;
        };
        Some(Call {
            state: turned_state(&self.state),
            reading: Reading::Point(levels.turned()),
            answer: self.answer,
        })
    }
}

/// Runs a call on both sides, and in whole numbers where it can be; gives what
/// the library gave.
pub fn run(tally: &mut Tally, call: &Call) -> Told {
    let told = call.proved();
    tally.count(told.number);
    let right = call.outside();
    tally.check(told == right, || {
        format!("{call:?}: {told:?}, outside {right:?}")
    });
    if let Some(whole) = call.in_whole_numbers() {
        tally.check(told == whole, || {
            format!("{call:?}: {told:?}, in whole numbers {whole:?}")
        });
    }
    told
}

/// Runs a call, and its turn: number and answer are the same, and the state
/// after it is turned.
pub fn run_and_turn(tally: &mut Tally, call: &Call) {
    let told = run(tally, call);
    let Some(turned) = call.turned() else {
        return;
    };
    let right = Told {
        state: turned_state(&told.state),
        ..told
    };
    let told = run(tally, &turned);
    tally.check(told == right, || {
        format!("{turned:?}: {told:?}, turned {right:?}")
    });
}
