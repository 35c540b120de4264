//! Stores at the limits of what one can hold, for tests, samples and comparison
//! programs.

use crate::store::{append_lost, append_points, make, MOST_RECORDS, RECORD, RECORD_POINTS};

/// A store, and what it is called.
pub type Named = (&'static str, Vec<u8>);

/// The most records of a chain.
const MOST_CHAIN: usize = MOST_RECORDS - 1;

/// Full stores, the longest track, and stores whose intervals do not fit their
/// total: counted in 32 bits they would wrap to it.
pub fn stores() -> [Named; 8] {
    [
        ("full", full()),
        ("points", of_points([4096, 0])),
        ("origins", of_points([0, 0])),
        ("losses", losses()),
        ("longest", longest()),
        ("wrapped", wrapped()),
        ("wrapped_point", wrapped_point()),
        ("wrapped_full", wrapped_full()),
    ]
}

fn made(records: usize, mode: u8) -> Vec<u8> {
    let mut store = vec![0; records * RECORD];
    make(&mut store, mode, 0).expect("made");
    store
}

fn fill(store: &mut [u8], point: [i16; 2], records: usize) {
    append_points(store, &point.repeat(RECORD_POINTS * records)).expect("room");
}

/// The longest listing but a few bytes: a great loss, and then points alone.
fn full() -> Vec<u8> {
    let mut store = made(MOST_RECORDS, 4);
    let records = MOST_CHAIN - 1;
    let points = (RECORD_POINTS * records) as u32;
    append_lost(&mut store, u32::MAX - points).expect("room");
    fill(&mut store, [3072, 1024], records);
    store
}

/// Records that are full of one point.
fn of_points(point: [i16; 2]) -> Vec<u8> {
    let mut store = made(MOST_RECORDS, 2);
    fill(&mut store, point, MOST_CHAIN);
    store
}

/// Lost records alone, with the greatest total.
fn losses() -> Vec<u8> {
    let mut store = made(MOST_RECORDS, 3);
    append_lost(&mut store, u32::MAX - (MOST_CHAIN - 1) as u32).expect("room");
    for _ in 1..MOST_CHAIN {
        append_lost(&mut store, 1).expect("room");
    }
    store
}

/// The greatest lost count alone.
fn longest() -> Vec<u8> {
    let mut store = made(2, 1);
    append_lost(&mut store, u32::MAX).expect("room");
    store
}

fn set(store: &mut [u8], at: usize, number: u32) {
    store[at..at + 4].copy_from_slice(&number.to_le_bytes());
}

/// Where the total stands, and the lost count of a record.
const TOTAL: usize = 8;

fn lost_at(index: usize) -> usize {
    RECORD * index + 4
}

/// Lost 4294967295 and lost 2, with a total of 1.
fn wrapped() -> Vec<u8> {
    let mut store = made(3, 1);
    append_lost(&mut store, 1).expect("room");
    append_lost(&mut store, 2).expect("room");
    set(&mut store, lost_at(1), u32::MAX);
    set(&mut store, TOTAL, 1);
    store
}

/// Lost 4294967295 and a point, with a total of 0.
fn wrapped_point() -> Vec<u8> {
    let mut store = made(3, 4);
    append_lost(&mut store, 1).expect("room");
    append_points(&mut store, &[1024, 1024]).expect("room");
    set(&mut store, lost_at(1), u32::MAX);
    set(&mut store, TOTAL, 0);
    store
}

/// Lost 4294967295 in every record.
fn wrapped_full() -> Vec<u8> {
    let mut store = losses();
    for index in 1..MOST_RECORDS {
        set(&mut store, lost_at(index), u32::MAX);
    }
    set(&mut store, TOTAL, u32::MAX.wrapping_mul(MOST_CHAIN as u32));
    store
}
