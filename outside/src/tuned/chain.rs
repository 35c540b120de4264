//! A store's chain in one pass. Records that stand one behind the other, as
//! appends leave them, are walked without waiting for the index in each.

use crate::refusal::{need, Refusal};
use crate::store::{
    check_record_0, check_size, u16_at, u32_at, Chain, BODY_AT, COUNT_AT, FIRST_AT, KIND_AT,
    KIND_LOST, KIND_POINTS, LOST_END, RECORD, RECORD_POINTS, TOTAL_AT,
};

/// The words of a record, each of four numbers, the first lowest.
const WORDS: usize = RECORD / 8;
/// The highest bit of each number of a word, and all lower ones.
const HIGHEST: u64 = 0x8000_8000_8000_8000;
const LOWER: u64 = !HIGHEST;
/// 16384 for each number of a word.
const LARGEST: u64 = 0x4000_4000_4000_4000;

/// All ones where a record of so many points is unused.
const UNUSED: [[u64; WORDS]; RECORD_POINTS + 1] = unused();

const fn unused() -> [[u64; WORDS]; RECORD_POINTS + 1] {
    let mut masks = [[0; WORDS]; RECORD_POINTS + 1];
    let mut count = 0;
    while count <= RECORD_POINTS {
        let mut byte = BODY_AT + 4 * count;
        while byte < RECORD {
            masks[count][byte / 8] |= 0xff << (8 * (byte % 8));
            byte += 1;
        }
        count += 1;
    }
    masks
}

/// A mark for each number of a word that is out of range. A number plus 16384
/// is 32768 at most if it is in range: its highest bit or its lower ones are 0.
#[inline(always)]
fn beyond(word: u64) -> u64 {
    let moved = ((word & LOWER) + LARGEST) ^ (word & HIGHEST);
    moved & ((moved & LOWER) + LOWER) & HIGHEST
}

/// The lost intervals of a record that has some.
pub fn lost_of(record: &[u8; RECORD]) -> u32 {
    u32_at(record, BODY_AT)
}

/// Visits the records of a chain in order, until a visit refuses. Number 13: an
/// index of N or more, or met twice.
#[inline(always)]
pub fn walk(
    store: &[u8],
    mut visit: impl FnMut(usize, &[u8; RECORD]) -> Result<(), Refusal>,
) -> Result<(), Refusal> {
    let (records, _) = store.as_chunks::<RECORD>();
    // N − 1 indexes at most are in use: a further one was met before.
    let mut left = records.len() - 1;
    let mut index = usize::from(u16_at(store, FIRST_AT));
    while index != 0 {
        need(index < records.len(), Refusal::INDEX)?;
        for record in &records[index..] {
            left = left.checked_sub(1).ok_or(Refusal::INDEX)?;
            visit(index, record)?;
            index += 1;
            let next = usize::from(u16_at(record, 0));
            if next != index {
                index = next;
                break;
            }
        }
    }
    Ok(())
}

/// What the pass has found so far.
struct Pass {
    chain: Chain,
    sum: u64,
    /// Not zero where a record breaks its layout or holds a point out of range.
    wrong: u64,
}

impl Pass {
    #[inline(always)]
    fn visit(&mut self, index: usize, record: &[u8; RECORD]) {
        self.chain.last = index;
        self.chain.greatest = self.chain.greatest.max(index);
        match (record[KIND_AT], usize::from(record[COUNT_AT])) {
            (KIND_POINTS, count @ 1..=RECORD_POINTS) => self.visit_points(record, count),
            (KIND_LOST, 0) => self.visit_lost(record),
            // Number 13 goes before: it may still come.
            _ => self.wrong = 1,
        }
    }

    /// Kind and count are in the range of coordinates, and so is an index that
    /// number 13 lets pass: all numbers are judged alike.
    #[inline(always)]
    fn visit_points(&mut self, record: &[u8; RECORD], count: usize) {
        let (words, _) = record.as_chunks::<8>();
        for (word, unused) in words.iter().zip(UNUSED[count]) {
            let word = u64::from_le_bytes(*word);
            self.wrong |= beyond(word) | word & unused;
        }
        self.sum += count as u64;
        self.chain.events += count;
        self.chain.room = RECORD_POINTS - count;
    }

    fn visit_lost(&mut self, record: &[u8; RECORD]) {
        let lost = lost_of(record);
        let unused = &record[LOST_END..];
        let whole = lost > 0 && unused.iter().all(|&byte| byte == 0);
        self.wrong |= u64::from(!whole);
        self.sum += u64::from(lost);
        self.chain.events += 1;
        self.chain.room = 0;
    }
}

/// Numbers 11 to 15, and what appending and listing need of the chain.
pub fn check(store: &[u8]) -> Result<Chain, Refusal> {
    check_size(store)?;
    check_record_0(store)?;
    let mut pass = Pass {
        chain: Chain {
            total: u32_at(store, TOTAL_AT),
            events: 0,
            last: 0,
            room: 0,
            greatest: 0,
        },
        sum: 0,
        wrong: 0,
    };
    walk(store, |index, record| {
        pass.visit(index, record);
        Ok(())
    })?;
    need(pass.wrong == 0, Refusal::RECORD)?;
    need(pass.sum == u64::from(pass.chain.total), Refusal::TOTAL)?;
    Ok(pass.chain)
}
