//! The rows of the sender.

use std::hint::black_box;

use kerambiu::raw as ours;
use outside::refusal::Refusal;
use outside::rng::Rng;
use outside::sender::{self, Sender};
use outside::tuned;

use super::measure::{Side, Work};
use super::{call_row, input};
use crate::layout::{self, STATE};
use crate::sending::{intervals, lengths};
use crate::signal::Signal;

/// The points of one call of send.
const POINTS: usize = 20_000;

/// The shortest training of a mode.
pub fn shortest(signal: Signal) -> u32 {
    lengths(signal.mode).0
}

/// Adds what a call wrote and the state after it.
fn keep(kept: Option<&mut Vec<u8>>, numbers: &[i16], state: &[u8; STATE]) {
    if let Some(kept) = kept {
        kept.extend(numbers.iter().flat_map(|number| number.to_le_bytes()));
        kept.extend(state);
    }
}

/// Opening with a training of some length.
pub fn opening(signal: Signal, length: u32) -> Work<'static> {
    let (mode, role) = (signal.mode.number, signal.role);
    let count = intervals(signal.mode, length);
    let (mut out, mut right) = (vec![0; 2 * count], vec![0; 2 * count]);
    let proved: Side = Box::new(move |kept| {
        let mut state = [0; STATE];
        black_box(ours::open(&mut state, mode, role, length, &mut out, 0));
        keep(kept, &out, &state);
    });
    let plain: Side = Box::new(move |kept| {
        let opened = black_box(sender::open(mode, role, length, &mut right, 0)).expect("opened");
        keep(kept, &right, &layout::sender_bytes(&opened));
    });
    Work {
        proved,
        plain: Some(plain),
        tuned: None,
    }
}

pub fn open(name: &str, signal: Signal) {
    let (_, length) = lengths(signal.mode);
    let count = intervals(signal.mode, length);
    call_row(name, signal, count, opening(signal, length));
}

/// What sends data.
type Send = fn(Sender, &[u8], &mut [i16], usize) -> Result<Sender, Refusal>;

/// Data for a sender that has been opened.
pub struct Data {
    start: Sender,
    input: Vec<u8>,
    points: usize,
}

impl Data {
    pub fn of(signal: Signal, points: usize) -> Data {
        let length = shortest(signal);
        let mut training = vec![0; 2 * intervals(signal.mode, length)];
        let (mode, role) = (signal.mode.number, signal.role);
        let opened = sender::open(mode, role, length, &mut training, 0);
        Data {
            start: opened.expect("opened"),
            input: Rng::new(7).bits(points * signal.mode.width as usize),
            points,
        }
    }

    /// Data for which the line repeats.
    fn repeating(signal: Signal, points: usize) -> Data {
        let data = Data::of(signal, points);
        Data {
            input: input::repeating_data(&data.start, data.input.len()),
            ..data
        }
    }

    fn proved_side(&self) -> Side<'_> {
        let mut out = vec![0; 2 * self.points];
        Box::new(move |kept| {
            let mut state = layout::sender_bytes(&self.start);
            black_box(ours::send(&mut state, &self.input, &mut out, 0));
            keep(kept, &out, &state);
        })
    }

    /// The plain implementation or the tuned one.
    fn side(&self, send: Send) -> Side<'_> {
        let mut out = vec![0; 2 * self.points];
        Box::new(move |kept| {
            let sent = black_box(send(self.start, &self.input, &mut out, 0));
            keep(kept, &out, &layout::sender_bytes(&sent.expect("sent")));
        })
    }

    pub fn work(&self) -> Work<'_> {
        Work {
            proved: self.proved_side(),
            plain: Some(self.side(sender::send)),
            tuned: Some(self.side(tuned::send)),
        }
    }
}

/// In the modes that have the guard.
pub fn send_repeating(name: &str, signal: Signal) {
    if signal.mode.guard {
        let data = Data::repeating(signal, POINTS);
        call_row(name, signal, POINTS, data.work());
    }
}

pub fn send(name: &str, signal: Signal) {
    let data = Data::of(signal, POINTS);
    call_row(name, signal, POINTS, data.work());
}
