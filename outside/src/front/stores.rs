//! The commands that read a track store, and the one that makes it.

use super::events::{events, push_event};
use super::Said;
use crate::listing;
use crate::refusal::Refusal;
use crate::store::{self, Event, Track, FEWEST_RECORDS, MOST_RECORDS, RECORD};
use crate::sums;

/// The listing. Refuses by 11 to 15.
pub fn list(input: &[u8]) -> Said {
    let accepted = Track::of(input).map(|_| ());
    Said::ended(listing::list(input), accepted, 0)
}

/// The last line of the listing alone. Refuses by 11 to 15.
pub fn sums(input: &[u8]) -> Said {
    match sums::sums(input) {
        Ok(sums) => Said::text(format!("{sums}\n"), Ok(()), 0),
        Err(refusal) => Said::text(String::new(), Err(refusal), 0),
    }
}

/// The events as a file of them. Refuses by 11 to 15, and writes nothing then.
pub fn points(input: &[u8]) -> Said {
    let mut out = Vec::new();
    let end = Track::of(input).map(|track| {
        track.events().for_each(|event| push_event(&mut out, event));
    });
    Said::ended(out, end, 0)
}

/// A track store of a file of events without its first ones. Refuses by 1, 2, 7,
/// 8, 9, 16 and 17; with the last two it writes the store of the events before.
pub fn store(mode: u8, role: u8, from: usize, input: &[u8]) -> Said {
    let mut store = vec![0; RECORD * MOST_RECORDS];
    let made = store::make(&mut store, mode, role);
    if made.is_err() {
        return Said::ended(Vec::new(), made, 0);
    }
    let mut taken = 0;
    let mut end = Ok(());
    for event in events(input) {
        end = event.and_then(|event| append_from(&mut store, event, taken, from));
        if end.is_err() {
            break;
        }
        taken += 1;
    }
    let out = if is_written(end) {
        fitted(store)
    } else {
        Vec::new()
    };
    Said::ended(out, end, taken)
}

/// Appends an event, unless it is one of the first ones. These are not judged.
fn append_from(store: &mut [u8], event: Event, place: usize, from: usize) -> Result<(), Refusal> {
    match event {
        _ if place < from => Ok(()),
        Event::Point(point) => store::append_point(store, point.re, point.im),
        Event::Lost(count) => store::append_lost(store, count),
    }
}

/// Whether the store is written: it holds all events, or as many as it can.
fn is_written(end: Result<(), Refusal>) -> bool {
    matches!(end, Ok(()) | Err(Refusal::TOO_LONG | Refusal::STORE_FULL))
}

/// The store with the records it needs: those in use, two at least.
fn fitted(mut store: Vec<u8>) -> Vec<u8> {
    let greatest = Track::of(&store).map_or(0, |track| track.greatest_index());
    store.truncate(RECORD * FEWEST_RECORDS.max(greatest + 1));
    store
}
