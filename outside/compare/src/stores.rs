//! Random stores: sound ones, and ways to damage them.

use outside::rng::Rng;
use outside::store::{MOST_RECORDS, RECORD, RECORD_POINTS};

use crate::faults::no_mode;

/// Where a record names the next one; record 0 has its own place.
fn link_at(index: usize) -> usize {
    RECORD * index + if index == 0 { 6 } else { 0 }
}

fn set_link(store: &mut [u8], index: usize, next: usize) {
    let at = link_at(index);
    store[at..at + 2].copy_from_slice(&(next as u16).to_le_bytes());
}

fn link_of(store: &[u8], index: usize) -> usize {
    let at = link_at(index);
    usize::from(u16::from_le_bytes([store[at], store[at + 1]]))
}

fn total_of(store: &[u8]) -> u32 {
    u32::from_le_bytes([store[8], store[9], store[10], store[11]])
}

fn set_total(store: &mut [u8], total: u32) {
    store[8..12].copy_from_slice(&total.to_le_bytes());
}

/// The chain's records in order, as far as its indexes stay in the store and
/// none is met twice.
pub fn chain(store: &[u8]) -> Vec<usize> {
    let records = store.len() / RECORD;
    let mut met = Vec::new();
    if records == 0 {
        return met;
    }
    let mut index = link_of(store, 0);
    while index != 0 && index < records && !met.contains(&index) {
        met.push(index);
        index = link_of(store, index);
    }
    met
}

/// The bytes of a point: the origin, one about it, or one anywhere in range.
fn random_point(rng: &mut Rng) -> [u8; 4] {
    let most = rng.pick(&[0, 1, 16384, 16384, 16384, 16384]);
    let [re, im] = [(); 2].map(|()| rng.between(-most, most) as i16);
    let ([a, b], [c, d]) = (re.to_le_bytes(), im.to_le_bytes());
    [a, b, c, d]
}

/// Fills a record of points, some at the origin, or of lost intervals; gives
/// its intervals.
fn fill_record(rng: &mut Rng, record: &mut [u8], most: u32) -> u32 {
    record.fill(0);
    if rng.below(3) == 0 && most > 0 {
        let lost = match rng.below(4) {
            0 => most - rng.below(u64::from(most.min(9))) as u32,
            _ => 1 + rng.below(u64::from(most.min(1000))) as u32,
        };
        record[2] = 2;
        record[4..8].copy_from_slice(&lost.to_le_bytes());
        return lost;
    }
    let count = 1 + rng.below(RECORD_POINTS as u64) as usize;
    record[2] = 1;
    record[3] = count as u8;
    for place in record[4..4 + 4 * count].chunks_exact_mut(4) {
        place.copy_from_slice(&random_point(rng));
    }
    count as u32
}

/// How many records a store has: few mostly, up to the most at times.
fn record_count(rng: &mut Rng) -> usize {
    match rng.below(200) {
        0 => rng.between(2, MOST_RECORDS as i64) as usize,
        1..=40 => rng.between(2, 40) as usize,
        _ => rng.between(2, 6) as usize,
    }
}

/// A store that numbers 11 to 15 let pass: a chain over its records in random
/// order, with anything in those outside the chain.
pub fn sound(rng: &mut Rng) -> Vec<u8> {
    let records = record_count(rng);
    let mut store: Vec<u8> = (0..RECORD * records)
        .map(|_| rng.next_u64() as u8)
        .collect();
    let (mode, role) = rng.mode_and_role();
    store[..RECORD].fill(0);
    store[..4].copy_from_slice(b"VSYM");
    store[4] = mode.number;
    store[5] = role;
    let mut order: Vec<usize> = (1..records).collect();
    for k in (1..order.len()).rev() {
        order.swap(k, rng.below(k as u64 + 1) as usize);
    }
    order.truncate(rng.below(records as u64) as usize);
    let (mut last, mut total) = (0, 0u32);
    for index in order {
        // Seven intervals are left for each record that may come.
        let left = u32::MAX - total - (7 * records as u32).min(u32::MAX - total);
        let record = &mut store[RECORD * index..RECORD * (index + 1)];
        total += fill_record(rng, record, left);
        set_link(&mut store, last, index);
        last = index;
    }
    set_total(&mut store, total);
    store
}

/// A sound store with a chain of one record at least, so that it can be damaged
/// for each number.
pub fn with_chain(rng: &mut Rng) -> Vec<u8> {
    let mut store = sound(rng);
    while chain(&store).is_empty() {
        store = sound(rng);
    }
    store
}

/// Sizes that are no 32 times an N from 2 to 2048.
fn break_size(rng: &mut Rng, store: &mut Vec<u8>) {
    match rng.below(20) {
        0 => store.resize(RECORD * (MOST_RECORDS + 1), 0),
        1 => store.truncate(RECORD),
        2 => store.clear(),
        3..=10 => store.truncate(store.len() - 1 - rng.below(31) as usize),
        _ => store.resize(store.len() + 1 + rng.below(31) as usize, 0),
    }
}

fn break_record_0(rng: &mut Rng, store: &mut [u8]) {
    if store.len() < RECORD {
        return;
    }
    match rng.below(4) {
        0 => store[rng.below(4) as usize] ^= 1 << rng.below(8),
        1 => store[4] = no_mode(rng),
        2 => store[5] = rng.between(2, 255) as u8,
        _ => store[12 + rng.below(20) as usize] = rng.between(1, 255) as u8,
    }
}

fn break_link(rng: &mut Rng, store: &mut [u8]) {
    let (chain, records) = (chain(store), store.len() / RECORD);
    if records == 0 {
        return;
    }
    let from = [0].into_iter().chain(chain.iter().copied());
    let from: Vec<usize> = from.collect();
    let at = rng.below(from.len() as u64) as usize;
    let met = &from[1..=at];
    let next = if met.is_empty() || rng.below(2) == 0 {
        rng.between(records as i64, 65535) as usize
    } else {
        rng.pick(met)
    };
    set_link(store, from[at], next);
}

fn break_record(rng: &mut Rng, store: &mut [u8]) {
    let chain = chain(store);
    if chain.is_empty() {
        return;
    }
    let index = rng.pick(&chain);
    let record = &mut store[RECORD * index..RECORD * (index + 1)];
    let points = record[2] == 1;
    match rng.below(5) {
        0 => record[2] = [0, rng.between(3, 255) as u8][rng.below(2) as usize],
        1 if points => record[3] = [0, rng.between(8, 255) as u8][rng.below(2) as usize],
        1 => record[3] = rng.between(1, 255) as u8,
        2 if points => record[4..6].copy_from_slice(&16385i16.to_le_bytes()),
        2 => record[4..8].fill(0),
        3 if points && record[3] == 7 => record[6..8].copy_from_slice(&(-16385i16).to_le_bytes()),
        _ => record[31] = rng.between(65, 190) as u8,
    }
}

/// The numbers that a store is damaged for.
pub const DAMAGES: [u8; 5] = [11, 12, 13, 14, 15];

/// Damages a store for one of them.
pub fn damage(rng: &mut Rng, store: &mut Vec<u8>, number: u8) {
    match number {
        11 => break_size(rng, store),
        12 => break_record_0(rng, store),
        13 => break_link(rng, store),
        14 => break_record(rng, store),
        _ if store.len() >= RECORD => {
            let total = total_of(store).wrapping_add(rng.between(1, 0xffff_ffff) as u32);
            set_total(store, total);
        }
        _ => {}
    }
}
