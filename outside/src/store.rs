//! The track store on bytes (document 01, "Track store").

use crate::mode::Mode;
use crate::point::Point;
use crate::refusal::{need, Refusal};

/// The bytes in a record.
pub const RECORD: usize = 32;
/// The fewest and most records in a store.
pub const FEWEST_RECORDS: usize = 2;
pub const MOST_RECORDS: usize = 2048;
/// The most points in a record.
pub const RECORD_POINTS: usize = 7;

/// The first four bytes of record 0.
const MARK: &[u8; 4] = b"VSYM";
pub(crate) const MODE_AT: usize = 4;
pub(crate) const ROLE_AT: usize = 5;
pub(crate) const FIRST_AT: usize = 6;
pub(crate) const TOTAL_AT: usize = 8;
pub(crate) const RECORD_0_END: usize = 12;

/// Places in a chain record; its next index stands at byte 0.
pub(crate) const KIND_AT: usize = 2;
pub(crate) const COUNT_AT: usize = 3;
pub(crate) const BODY_AT: usize = 4;
pub(crate) const LOST_END: usize = 8;
const POINT_BYTES: usize = 4;

pub(crate) const KIND_POINTS: u8 = 1;
pub(crate) const KIND_LOST: u8 = 2;

/// An event of a track.
#[derive(Clone, Copy, PartialEq, Eq, Debug)]
pub enum Event {
    Point(Point),
    /// Lost intervals.
    Lost(u32),
}

/// A store that numbers 11 to 15 let pass.
#[derive(Clone, Copy, Debug)]
pub struct Track<'a> {
    store: &'a [u8],
    chain: Chain,
}

/// What one pass over an accepted store finds.
#[derive(Clone, Copy, PartialEq, Eq, Debug)]
pub(crate) struct Chain {
    pub total: u32,
    pub events: usize,
    /// The index of the last record, 0 if the track is empty.
    pub last: usize,
    /// Points that still fit into the last record.
    pub room: usize,
    /// The greatest index, 0 if the track is empty.
    pub greatest: usize,
}

/// The content of a chain record.
enum Record {
    /// A count of points.
    Points(usize),
    /// Lost intervals.
    Lost(u32),
}

pub(crate) fn u16_at(bytes: &[u8], at: usize) -> u16 {
    u16::from_le_bytes([bytes[at], bytes[at + 1]])
}

pub(crate) fn u32_at(bytes: &[u8], at: usize) -> u32 {
    u32::from_le_bytes([bytes[at], bytes[at + 1], bytes[at + 2], bytes[at + 3]])
}

fn point_at(bytes: &[u8], at: usize) -> Point {
    Point {
        re: i16::from_le_bytes([bytes[at], bytes[at + 1]]),
        im: i16::from_le_bytes([bytes[at + 2], bytes[at + 3]]),
    }
}

fn record_at(store: &[u8], index: usize) -> &[u8] {
    &store[RECORD * index..RECORD * (index + 1)]
}

/// Where the index that follows a record stands; record 0 is the chain's head.
fn next_at(index: usize) -> usize {
    if index == 0 {
        FIRST_AT
    } else {
        RECORD * index
    }
}

fn next_of(store: &[u8], index: usize) -> usize {
    usize::from(u16_at(store, next_at(index)))
}

fn all_zero(bytes: &[u8]) -> bool {
    bytes.iter().all(|&byte| byte == 0)
}

/// Number 11.
pub(crate) fn check_size(store: &[u8]) -> Result<(), Refusal> {
    let records = store.len() / RECORD;
    let whole = store.len().is_multiple_of(RECORD);
    let in_range = (FEWEST_RECORDS..=MOST_RECORDS).contains(&records);
    need(whole && in_range, Refusal::STORE_SIZE)
}

/// Number 12.
pub(crate) fn check_record_0(store: &[u8]) -> Result<(), Refusal> {
    let known = Mode::find_with_role(store[MODE_AT], store[ROLE_AT]).is_ok();
    let unused = &store[RECORD_0_END..RECORD];
    need(
        store.starts_with(MARK) && known && all_zero(unused),
        Refusal::RECORD_0,
    )
}

/// The content of a chain record, unless it breaks its layout or holds a point
/// out of range.
fn parse_record(record: &[u8]) -> Option<Record> {
    let count = usize::from(record[COUNT_AT]);
    match record[KIND_AT] {
        KIND_POINTS if (1..=RECORD_POINTS).contains(&count) => {
            let (points, unused) = record[BODY_AT..].split_at(POINT_BYTES * count);
            let mut points = points.chunks_exact(POINT_BYTES);
            let fits = points.all(|bytes| point_at(bytes, 0).in_range());
            (fits && all_zero(unused)).then_some(Record::Points(count))
        }
        KIND_LOST if count == 0 => {
            let lost = u32_at(record, BODY_AT);
            (lost > 0 && all_zero(&record[LOST_END..])).then_some(Record::Lost(lost))
        }
        _ => None,
    }
}

/// Numbers 11 to 15, in one pass over the chain.
fn check(store: &[u8]) -> Result<Chain, Refusal> {
    check_size(store)?;
    check_record_0(store)?;
    let records = store.len() / RECORD;
    let mut chain = Chain {
        total: u32_at(store, TOTAL_AT),
        events: 0,
        last: 0,
        room: 0,
        greatest: 0,
    };
    let (mut sum, mut steps, mut broken) = (0u64, 1, false);
    let mut index = next_of(store, 0);
    while index != 0 {
        // N − 1 indexes at most are in use: a further one was met before.
        need(index < records && steps < records, Refusal::INDEX)?;
        match parse_record(record_at(store, index)) {
            Some(Record::Points(count)) => {
                sum += count as u64;
                chain.events += count;
                chain.room = RECORD_POINTS - count;
            }
            Some(Record::Lost(lost)) => {
                sum += u64::from(lost);
                chain.events += 1;
                chain.room = 0;
            }
            // Number 13 goes before: it may still come.
            None => broken = true,
        }
        chain.last = index;
        chain.greatest = chain.greatest.max(index);
        steps += 1;
        index = next_of(store, index);
    }
    need(!broken, Refusal::RECORD)?;
    need(sum == u64::from(chain.total), Refusal::TOTAL)?;
    Ok(chain)
}

impl<'a> Track<'a> {
    /// The track of a store. Refuses by 11 to 15.
    pub fn of(store: &'a [u8]) -> Result<Track<'a>, Refusal> {
        let chain = check(store)?;
        Ok(Track { store, chain })
    }

    pub fn mode(&self) -> u8 {
        self.store[MODE_AT]
    }

    pub fn role(&self) -> u8 {
        self.store[ROLE_AT]
    }

    /// The total unit intervals.
    pub fn total(&self) -> u32 {
        self.chain.total
    }

    /// The count of events.
    pub fn event_count(&self) -> usize {
        self.chain.events
    }

    /// The greatest index of a record in use, 0 if the track is empty.
    pub fn greatest_index(&self) -> usize {
        self.chain.greatest
    }

    /// The events in chain order.
    pub fn events(&self) -> Events<'a> {
        Events {
            store: self.store,
            index: next_of(self.store, 0),
            point: 0,
        }
    }
}

/// The events of an accepted store in chain order.
#[derive(Clone, Debug)]
pub struct Events<'a> {
    store: &'a [u8],
    /// The record of the next event, 0 at the end.
    index: usize,
    /// The next point in that record.
    point: usize,
}

impl Iterator for Events<'_> {
    type Item = Event;

    fn next(&mut self) -> Option<Event> {
        if self.index == 0 {
            return None;
        }
        let record = record_at(self.store, self.index);
        let (event, points) = if record[KIND_AT] == KIND_LOST {
            (Event::Lost(u32_at(record, BODY_AT)), 1)
        } else {
            let at = BODY_AT + POINT_BYTES * self.point;
            let points = usize::from(record[COUNT_AT]);
            (Event::Point(point_at(record, at)), points)
        };
        self.point += 1;
        if self.point == points {
            self.point = 0;
            self.index = next_of(self.store, self.index);
        }
        Some(event)
    }
}

/// Makes an empty store of the whole buffer. Refuses by 1, 2 and 11.
pub fn make(store: &mut [u8], mode: u8, role: u8) -> Result<(), Refusal> {
    Mode::find_with_role(mode, role)?;
    check_size(store)?;
    store.fill(0);
    store[..MODE_AT].copy_from_slice(MARK);
    store[MODE_AT] = mode;
    store[ROLE_AT] = role;
    Ok(())
}

/// Appends a point. Refuses by 8 and 11 to 17.
pub fn append_point(store: &mut [u8], re: i16, im: i16) -> Result<(), Refusal> {
    append_points(store, &[re, im])
}

/// Appends a lost count. Refuses by 9 and 11 to 17.
pub fn append_lost(store: &mut [u8], n: u32) -> Result<(), Refusal> {
    need(n > 0, Refusal::EMPTY_GAP)?;
    let mut chain = check(store)?;
    let total = chain.total.checked_add(n).ok_or(Refusal::TOO_LONG)?;
    need(
        chain.greatest + 1 < store.len() / RECORD,
        Refusal::STORE_FULL,
    )?;
    let record = add_record(store, &mut chain, KIND_LOST);
    store[record + BODY_AT..record + LOST_END].copy_from_slice(&n.to_le_bytes());
    set_total(store, total);
    Ok(())
}

/// Appends points, re and im in turn, all or none: what appending them one after
/// another does. Gives the lowest number that applies over the whole call: 7 for
/// a last number without its partner, 8 for any point out of range, 11 to 15, 16
/// for the total after all of them, 17 for fewer places than points.
pub fn append_points(store: &mut [u8], numbers: &[i16]) -> Result<(), Refusal> {
    let (pairs, rest) = numbers.as_chunks();
    let points = || pairs.iter().map(|&[re, im]| Point { re, im });
    need(rest.is_empty(), Refusal::LENT_NUMBERS)?;
    need(points().all(Point::in_range), Refusal::COORDINATE)?;
    let mut chain = check(store)?;
    let total = chain.total_after(store, pairs.len())?;
    for point in points() {
        put_point(store, &mut chain, point);
    }
    set_total(store, total);
    Ok(())
}

impl Chain {
    /// The total after so many points more. Numbers 16 and 17.
    pub(crate) fn total_after(&self, store: &[u8], points: usize) -> Result<u32, Refusal> {
        let more = u32::try_from(points).ok();
        let total = more.and_then(|more| self.total.checked_add(more));
        let records_left = store.len() / RECORD - 1 - self.greatest;
        let places_left = self.room + RECORD_POINTS * records_left;
        let total = total.ok_or(Refusal::TOO_LONG)?;
        need(points <= places_left, Refusal::STORE_FULL)?;
        Ok(total)
    }
}

/// Writes a point behind the last of the chain.
fn put_point(store: &mut [u8], chain: &mut Chain, point: Point) {
    if chain.room == 0 {
        add_record(store, chain, KIND_POINTS);
        chain.room = RECORD_POINTS;
    }
    let count = RECORD_POINTS - chain.room;
    let record = RECORD * chain.last;
    let at = record + BODY_AT + POINT_BYTES * count;
    store[at..at + 2].copy_from_slice(&point.re.to_le_bytes());
    store[at + 2..at + 4].copy_from_slice(&point.im.to_le_bytes());
    store[record + COUNT_AT] = count as u8 + 1;
    chain.room -= 1;
}

/// Writes a new record whole, with nothing in it, and links it to the chain's
/// end. Gives the place of its first byte.
fn add_record(store: &mut [u8], chain: &mut Chain, kind: u8) -> usize {
    let index = chain.greatest + 1;
    let record = RECORD * index;
    store[record..record + RECORD].fill(0);
    store[record + KIND_AT] = kind;
    let link = next_at(chain.last);
    // N is 2048 at most, so an index fits two bytes.
    store[link..link + 2].copy_from_slice(&(index as u16).to_le_bytes());
    chain.last = index;
    chain.greatest = index;
    record
}

fn set_total(store: &mut [u8], total: u32) {
    store[TOTAL_AT..RECORD_0_END].copy_from_slice(&total.to_le_bytes());
}

/// The events in chain order. Refuses by 11 to 15.
pub fn read(store: &[u8]) -> Result<Vec<Event>, Refusal> {
    Ok(Track::of(store)?.events().collect())
}

/// Writes the events into lent numbers from the offset on, three to an event:
/// 1, re, im for a point and 2, count, 0 for a lost count. Gives the count of
/// events. Refuses by 7 and 11 to 15; whether the numbers are too few is judged
/// only of an accepted store, since another has no events.
pub fn read_into(store: &[u8], out: &mut [i64], offset: usize) -> Result<usize, Refusal> {
    let lent = out.get_mut(offset..).ok_or(Refusal::LENT_NUMBERS)?;
    let track = Track::of(store)?;
    need(lent.len() / 3 >= track.event_count(), Refusal::LENT_NUMBERS)?;
    for (numbers, event) in lent.chunks_exact_mut(3).zip(track.events()) {
        numbers.copy_from_slice(&match event {
            Event::Point(point) => [
                i64::from(KIND_POINTS),
                i64::from(point.re),
                i64::from(point.im),
            ],
            Event::Lost(lost) => [i64::from(KIND_LOST), i64::from(lost), 0],
        });
    }
    Ok(track.event_count())
}
