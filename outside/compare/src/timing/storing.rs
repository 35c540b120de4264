//! The rows of stores.

use std::hint::black_box;

use kerambiu::raw as ours;
use outside::listing;
use outside::refusal::Refusal;
use outside::store::{self, FEWEST_RECORDS, RECORD, RECORD_POINTS};
use outside::sums::{self, Sums};
use outside::tuned;

use super::measure::{Side, Work};
use super::{call_row, input};
use crate::points;
use crate::signal::Signal;

/// Points that fill a store of so many records.
fn capacity(records: usize) -> usize {
    RECORD_POINTS * (records - 1)
}

/// Points for a store, and the store, with one place left in its last record.
pub struct Filled {
    signal: Signal,
    /// The points' numbers, re and im in turn.
    numbers: Vec<i16>,
    store: Vec<u8>,
}

impl Filled {
    pub fn of(signal: Signal, records: usize) -> Filled {
        let numbers = points::flat(&input::random(signal.mode, capacity(records)));
        let mut store = vec![0; RECORD * records];
        store::make(&mut store, signal.mode.number, signal.role).expect("made");
        store::append_points(&mut store, &numbers[2..]).expect("room");
        Filled {
            signal,
            numbers,
            store,
        }
    }

    /// The smallest store with nothing in it.
    pub fn empty(signal: Signal) -> Filled {
        let mut filled = Filled::of(signal, FEWEST_RECORDS);
        store::make(&mut filled.store, signal.mode.number, signal.role).expect("made");
        filled
    }

    /// An append of one point. The first and the last record are put back
    /// before it, so that each call appends the same point.
    fn single_side<'a>(&'a self, append: impl Fn(&mut [u8], i16, i16) + 'a) -> Side<'a> {
        let mut bytes = self.store.clone();
        let last = bytes.len() - RECORD;
        Box::new(move |kept| {
            bytes[..RECORD].copy_from_slice(&self.store[..RECORD]);
            bytes[last..].copy_from_slice(&self.store[last..]);
            append(&mut bytes, 4096, 0);
            keep(kept, black_box(&bytes));
        })
    }

    pub fn single_append(&self) -> Work<'_> {
        let plain = |store: &mut [u8], re, im| store::append_point(store, re, im).expect("room");
        let tuned =
            |store: &mut [u8], re, im| tuned::append_points(store, &[re, im]).expect("room");
        Work {
            proved: self.single_side(|store, re, im| {
                black_box(ours::append_point(store, re, im));
            }),
            plain: Some(self.single_side(plain)),
            tuned: Some(self.single_side(tuned)),
        }
    }

    /// A store made anew and filled by one append.
    fn bulk_side<'a>(&'a self, fill: impl Fn(&mut [u8]) + 'a) -> Side<'a> {
        let mut bytes = vec![0; self.store.len()];
        Box::new(move |kept| {
            fill(&mut bytes);
            keep(kept, black_box(&bytes));
        })
    }

    pub fn bulk_append(&self) -> Work<'_> {
        let (mode, role) = (self.signal.mode.number, self.signal.role);
        Work {
            proved: self.bulk_side(move |store| {
                ours::make(store, mode, role);
                black_box(ours::append_points(store, &self.numbers));
            }),
            plain: Some(self.bulk_side(move |store| {
                store::make(store, mode, role).expect("made");
                store::append_points(store, &self.numbers).expect("room");
            })),
            tuned: Some(self.bulk_side(move |store| {
                store::make(store, mode, role).expect("made");
                tuned::append_points(store, &self.numbers).expect("room");
            })),
        }
    }

    pub fn reading(&self) -> Work<'_> {
        let room = 3 * (self.numbers.len() / 2);
        let (mut out, mut right) = (vec![0; room], vec![0; room]);
        Work {
            proved: Box::new(move |kept| {
                let mut count = [0];
                black_box(ours::read(&self.store, &mut out, 0, &mut count));
                keep_numbers(kept, &out[..3 * count[0]]);
            }),
            plain: Some(Box::new(move |kept| {
                let count = black_box(store::read_into(&self.store, &mut right, 0));
                keep_numbers(kept, &right[..3 * count.expect("room")]);
            })),
            tuned: None,
        }
    }

    pub fn listing(&self) -> Work<'_> {
        let mut text = vec![0; ours::LISTING_BYTES];
        let mut tuned_text = vec![0; tuned::LISTING_ROOM];
        Work {
            proved: Box::new(move |kept| {
                let mut count = [0];
                black_box(ours::list(&self.store, &mut text, &mut count));
                keep(kept, &text[..count[0]]);
            }),
            plain: Some(Box::new(|kept| {
                keep(kept, &black_box(listing::list(&self.store)));
            })),
            tuned: Some(Box::new(move |kept| {
                let length = black_box(tuned::list(&self.store, &mut tuned_text));
                keep(kept, &tuned_text[..length.expect("room")]);
            })),
        }
    }

    /// Sums by one of the two implementations.
    fn sums_side<'a>(&'a self, sums: fn(&[u8]) -> Result<Sums, Refusal>) -> Side<'a> {
        Box::new(move |kept| {
            let sums = black_box(sums(&self.store)).expect("accepted");
            keep_sums(kept, sums.numbers());
        })
    }

    pub fn sums(&self) -> Work<'_> {
        Work {
            proved: Box::new(|kept| {
                let mut sums = [0; 3];
                black_box(ours::sums(&self.store, &mut sums));
                keep_sums(kept, black_box(sums));
            }),
            plain: Some(self.sums_side(sums::sums)),
            tuned: Some(self.sums_side(tuned::sums)),
        }
    }
}

/// Making the smallest store.
pub fn making(signal: Signal) -> Work<'static> {
    let (mode, role) = (signal.mode.number, signal.role);
    let (mut one, mut other) = ([0; RECORD * FEWEST_RECORDS], [0; RECORD * FEWEST_RECORDS]);
    Work {
        proved: Box::new(move |kept| {
            black_box(ours::make(&mut one, mode, role));
            keep(kept, black_box(&one));
        }),
        plain: Some(Box::new(move |kept| {
            black_box(store::make(&mut other, mode, role)).expect("made");
            keep(kept, black_box(&other));
        })),
        tuned: None,
    }
}

fn keep(kept: Option<&mut Vec<u8>>, bytes: &[u8]) {
    if let Some(kept) = kept {
        kept.extend(bytes);
    }
}

fn keep_numbers(kept: Option<&mut Vec<u8>>, numbers: &[i64]) {
    if let Some(kept) = kept {
        kept.extend(numbers.iter().flat_map(|number| number.to_le_bytes()));
    }
}

fn keep_sums(kept: Option<&mut Vec<u8>>, sums: [u64; 3]) {
    if let Some(kept) = kept {
        kept.extend(sums.iter().flat_map(|number| number.to_le_bytes()));
    }
}

fn largest(signal: Signal) -> Filled {
    Filled::of(signal, store::MOST_RECORDS)
}

/// One append to a chain of full length: the whole store is looked at.
pub fn append_single(name: &str, signal: Signal) {
    call_row(name, signal, 1, largest(signal).single_append());
}

pub fn append_bulk(name: &str, signal: Signal) {
    let points = capacity(store::MOST_RECORDS);
    call_row(name, signal, points, largest(signal).bulk_append());
}

pub fn read(name: &str, signal: Signal) {
    let points = capacity(store::MOST_RECORDS) - 1;
    call_row(name, signal, points, largest(signal).reading());
}

pub fn list(name: &str, signal: Signal) {
    let points = capacity(store::MOST_RECORDS) - 1;
    call_row(name, signal, points, largest(signal).listing());
}

pub fn sums(name: &str, signal: Signal) {
    let points = capacity(store::MOST_RECORDS) - 1;
    call_row(name, signal, points, largest(signal).sums());
}
