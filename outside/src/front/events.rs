//! Files of events: a point is re and im, two bytes each, the low one first. Lost
//! intervals are a pair that no point in range is, and their count in the next
//! four bytes, the low one first.

use crate::point::Point;
use crate::refusal::Refusal;
use crate::store::Event;

/// The pair that stands before a count of lost intervals.
pub const LOST_MARK: Point = Point {
    re: i16::MIN,
    im: i16::MIN,
};

/// The events of a file, one after the other; number 7, and nothing more, where
/// the bytes end inside an event. Points are not judged, nor are counts.
#[derive(Clone, Debug)]
pub struct Events<'a> {
    bytes: &'a [u8],
}

pub fn events(bytes: &[u8]) -> Events<'_> {
    Events { bytes }
}

impl Iterator for Events<'_> {
    type Item = Result<Event, Refusal>;

    fn next(&mut self) -> Option<Self::Item> {
        if self.bytes.is_empty() {
            return None;
        }
        let first = split_first(self.bytes);
        self.bytes = first.map_or(&[], |(_, rest)| rest);
        let event = first.map(|(event, _)| event);
        Some(event.ok_or(Refusal::LENT_NUMBERS))
    }
}

/// The first event and the bytes after it, unless the bytes end inside it.
fn split_first(bytes: &[u8]) -> Option<(Event, &[u8])> {
    let (&[a, b, c, d], rest) = bytes.split_first_chunk()?;
    let re = i16::from_le_bytes([a, b]);
    let im = i16::from_le_bytes([c, d]);
    let point = Point { re, im };
    if point != LOST_MARK {
        return Some((Event::Point(point), rest));
    }
    let (&count, rest) = rest.split_first_chunk()?;
    Some((Event::Lost(u32::from_le_bytes(count)), rest))
}

/// Writes an event behind others.
pub fn push_event(bytes: &mut Vec<u8>, event: Event) {
    match event {
        Event::Point(point) => push_point(bytes, point),
        Event::Lost(count) => {
            push_point(bytes, LOST_MARK);
            bytes.extend(count.to_le_bytes());
        }
    }
}

fn push_point(bytes: &mut Vec<u8>, point: Point) {
    bytes.extend(point.re.to_le_bytes());
    bytes.extend(point.im.to_le_bytes());
}
