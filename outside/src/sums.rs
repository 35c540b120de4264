//! The sums of a track (document 02, R-2).

use std::fmt;

use crate::point::Point;
use crate::refusal::{need, Refusal};
use crate::store::{Event, Track};

/// What a track holds, counted over its events. Points and lost intervals
/// together are the total.
#[derive(Clone, Copy, PartialEq, Eq, Default, Debug)]
pub struct Sums {
    /// Decided points.
    pub points: u64,
    /// Lost intervals; a point at the origin is one.
    pub lost: u64,
    /// Lost records, each by itself also beside another, and points at the
    /// origin.
    pub gaps: u64,
}

impl Sums {
    /// Counts an event. Sums cannot wrap: a store has 14329 events at most, each
    /// of 4294967295 intervals at most.
    pub fn count(&mut self, event: Event) {
        match event {
            Event::Point(Point { re: 0, im: 0 }) => self.lose(1),
            Event::Point(_) => self.points += 1,
            Event::Lost(intervals) => self.lose(intervals),
        }
    }

    fn lose(&mut self, intervals: u32) {
        self.lost += u64::from(intervals);
        self.gaps += 1;
    }

    /// The three numbers in the order of the line.
    pub fn numbers(self) -> [u64; 3] {
        [self.points, self.lost, self.gaps]
    }
}

/// The last line of a listing.
impl fmt::Display for Sums {
    fn fmt(&self, out: &mut fmt::Formatter) -> fmt::Result {
        let [points, lost, gaps] = self.numbers();
        write!(out, "sum points {points} lost {lost} gaps {gaps}")
    }
}

/// The sums of a store. Refuses by 11 to 15.
pub fn sums(store: &[u8]) -> Result<Sums, Refusal> {
    let mut sums = Sums::default();
    for event in Track::of(store)?.events() {
        sums.count(event);
    }
    Ok(sums)
}

/// Writes the three sums into lent numbers; those beyond them stay as they are.
/// Refuses by 7, fewer than three lent numbers, and 11 to 15.
pub fn sums_into(store: &[u8], out: &mut [u64]) -> Result<(), Refusal> {
    need(out.len() >= 3, Refusal::LENT_NUMBERS)?;
    out[..3].copy_from_slice(&sums(store)?.numbers());
    Ok(())
}
