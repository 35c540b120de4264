//! Track stores: points and lost intervals in records.

use crate::raw::{self, LISTING_BYTES, RECORD_BYTES};
use crate::refusal::outcome;
use crate::{Mode, Refusal, Role};

/// The most records that a store has; a greater count is refused as this and one is.
const MOST_RECORDS: usize = 2048;
/// Points in a record at most.
const RECORD_POINTS: usize = 7;

/// A track store, always a sound one: 2 to 2048 records of 32 bytes, with 14,329
/// points at most.
#[derive(Clone, PartialEq, Eq, Debug)]
pub struct Store {
    bytes: Vec<u8>,
}

/// What a store keeps, in turn.
#[derive(Clone, Copy, PartialEq, Eq, Debug)]
pub enum Event {
    Point { re: i16, im: i16 },
    Lost { intervals: u32 },
}

/// The sums of a store, the last line of its listing.
#[derive(Clone, Copy, PartialEq, Eq, Debug)]
pub struct Sums {
    /// Decided points: all but those at the origin.
    pub points: u64,
    /// Lost intervals, a point at the origin being one.
    pub lost: u64,
    /// Lost records and points at the origin.
    pub gaps: u64,
}

impl Store {
    /// An empty store of so many records.
    pub fn make(records: usize, mode: Mode, role: Role) -> Result<Store, Refusal> {
        let mut bytes = vec![0; RECORD_BYTES * records.min(MOST_RECORDS + 1)];
        outcome(raw::make(&mut bytes, mode.number(), role.number()))?;
        Ok(Store { bytes })
    }

    /// The store that these bytes are.
    pub fn from_bytes(bytes: Vec<u8>) -> Result<Store, Refusal> {
        outcome(raw::sums(&bytes, &mut [0; 3]))?;
        Ok(Store { bytes })
    }

    /// The bytes, laid out as in `include/kerambiu.h`.
    pub fn bytes(&self) -> &[u8] {
        &self.bytes
    }

    pub fn mode(&self) -> Mode {
        Mode::try_from(self.bytes[4]).expect("a sound store has a mode")
    }

    pub fn role(&self) -> Role {
        Role::try_from(self.bytes[5]).expect("a sound store has a role")
    }

    /// Appends a point.
    pub fn append_point(&mut self, re: i16, im: i16) -> Result<(), Refusal> {
        outcome(raw::append_point(&mut self.bytes, re, im))
    }

    /// Appends points, re and im in turn, all or none.
    pub fn append_points(&mut self, points: &[i16]) -> Result<(), Refusal> {
        outcome(raw::append_points(&mut self.bytes, points))
    }

    /// Appends lost intervals.
    pub fn append_lost(&mut self, intervals: u32) -> Result<(), Refusal> {
        outcome(raw::append_lost(&mut self.bytes, intervals))
    }

    /// All events, the first in time first.
    pub fn read(&self) -> Vec<Event> {
        let records = self.bytes.len() / RECORD_BYTES;
        let mut numbers = vec![0; 3 * RECORD_POINTS * (records - 1)];
        let mut count = [0];
        sound(raw::read(&self.bytes, &mut numbers, 0, &mut count));
        let events = numbers.chunks_exact(3).take(count[0]);
        events.map(|event| Event::of(event)).collect()
    }

    /// The listing, a line for each event.
    pub fn list(&self) -> String {
        list(&self.bytes)
    }

    /// Decided points, lost intervals and gaps.
    pub fn sums(&self) -> Sums {
        let mut sums = [0; 3];
        sound(raw::sums(&self.bytes, &mut sums));
        let [points, lost, gaps] = sums;
        Sums { points, lost, gaps }
    }
}

impl Event {
    /// Of three numbers: 1, re, im or 2, the count, 0.
    fn of(numbers: &[i64]) -> Event {
        match numbers[0] {
            1 => Event::Point {
                re: numbers[1] as i16,
                im: numbers[2] as i16,
            },
            _ => Event::Lost {
                intervals: numbers[1] as u32,
            },
        }
    }
}

/// The listing of any bytes: for those that are no store the line `refused N`.
pub fn list(bytes: &[u8]) -> String {
    let mut text = vec![0; LISTING_BYTES];
    let mut count = [0];
    sound(raw::list(bytes, &mut text, &mut count));
    text.truncate(count[0]);
    String::from_utf8(text).expect("a listing is ASCII")
}

/// A call that is not refused, since the store is sound and enough is lent.
fn sound(number: u8) {
    assert_eq!(number, 0, "refused, though nothing in the call is wrong");
}
