//! Appending points: what is left of the last record first, then whole records.

use super::chain;
use super::receive::in_range;
use crate::refusal::{need, Refusal};
use crate::store::{
    Chain, BODY_AT, COUNT_AT, FIRST_AT, KIND_AT, KIND_POINTS, RECORD, RECORD_0_END, RECORD_POINTS,
    TOTAL_AT,
};

/// The numbers of a record's points.
const POINT_NUMBERS: usize = 2 * RECORD_POINTS;

/// What `store::append_points` does.
pub fn append_points(store: &mut [u8], numbers: &[i16]) -> Result<(), Refusal> {
    need(numbers.len().is_multiple_of(2), Refusal::LENT_NUMBERS)?;
    need(in_range(numbers), Refusal::COORDINATE)?;
    let chain = chain::check(store)?;
    let total = chain.total_after(store, numbers.len() / 2)?;
    put_points(store, &chain, numbers);
    store[TOTAL_AT..RECORD_0_END].copy_from_slice(&total.to_le_bytes());
    Ok(())
}

fn put_points(store: &mut [u8], chain: &Chain, numbers: &[i16]) {
    let (records, _) = store.as_chunks_mut::<RECORD>();
    let last = &mut records[chain.last];
    let (added, rest) = numbers.split_at(numbers.len().min(2 * chain.room));
    if !added.is_empty() {
        let held = RECORD_POINTS - chain.room;
        put_numbers(&mut last[BODY_AT + 4 * held..], added);
        last[COUNT_AT] += (added.len() / 2) as u8;
    }
    if rest.is_empty() {
        return;
    }
    let mut index = chain.greatest + 1;
    let link = if chain.last == 0 { FIRST_AT } else { 0 };
    last[link..link + 2].copy_from_slice(&(index as u16).to_le_bytes());
    let (whole, part) = rest.as_chunks::<POINT_NUMBERS>();
    for (record, numbers) in records[index..].iter_mut().zip(whole) {
        index += 1;
        *record = new_record(index, numbers);
    }
    if part.is_empty() {
        // Nothing follows the last whole record.
        records[index - 1][..2].fill(0);
    } else {
        records[index] = new_record(0, part);
    }
}

/// A record of points, with the index that follows it.
#[inline(always)]
fn new_record(next: usize, numbers: &[i16]) -> [u8; RECORD] {
    let mut record = [0; RECORD];
    record[..2].copy_from_slice(&(next as u16).to_le_bytes());
    record[KIND_AT] = KIND_POINTS;
    record[COUNT_AT] = (numbers.len() / 2) as u8;
    put_numbers(&mut record[BODY_AT..], numbers);
    record
}

#[inline(always)]
fn put_numbers(bytes: &mut [u8], numbers: &[i16]) {
    for (bytes, number) in bytes.chunks_exact_mut(2).zip(numbers) {
        bytes.copy_from_slice(&number.to_le_bytes());
    }
}
