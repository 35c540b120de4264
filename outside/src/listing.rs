//! The listing of a store (document 01, "Listing program"), with the line of its
//! sums at the end (document 02, R-2). It has no distances.

use crate::mode::Mode;
use crate::receiver::{self, Answer, Receiver};
use crate::refusal::Refusal;
use crate::store::{Event, Track};
use crate::sums::Sums;

/// The text of a store's listing, or the one line of a refused store.
pub fn list(store: &[u8]) -> Vec<u8> {
    match list_track(store) {
        Ok(text) => text.into_bytes(),
        Err(refusal) => format!("refused {}\n", refusal.0).into_bytes(),
    }
}

fn list_track(store: &[u8]) -> Result<String, Refusal> {
    let track = Track::of(store)?;
    let width = Mode::find(track.mode())?.width;
    let mut text = format!(
        "track mode {} role {} total {}\n",
        track.mode(),
        track.role(),
        track.total()
    );
    let mut state = receiver::fresh(track.mode(), track.role())?;
    let mut sums = Sums::default();
    for event in track.events() {
        state = push_event(&mut text, width, state, event)?;
        sums.count(event);
    }
    text.push_str(&format!("{sums}\n"));
    Ok(text)
}

/// Writes the line of an event: its place, its kind, its bits or count. Gives the
/// receiver after it. Refuses as the receiver does, and has then written nothing.
#[inline]
pub(crate) fn push_event(
    text: &mut String,
    width: u32,
    state: Receiver,
    event: Event,
) -> Result<Receiver, Refusal> {
    let (answer, next) = receive(state, event)?;
    text.push_str(&state.place.0.to_string());
    push_answer(text, answer, width);
    text.push('\n');
    Ok(next)
}

fn receive(state: Receiver, event: Event) -> Result<(Answer, Receiver), Refusal> {
    match event {
        Event::Point(point) => receiver::receive_point(state, point.re, point.im),
        Event::Lost(count) => receiver::receive_gap(state, count),
    }
}

/// The kind of an event and its bits or count. An origin point was answered as
/// a gap of one.
fn push_answer(text: &mut String, answer: Answer, width: u32) {
    match answer {
        Answer::Reference { .. } => text.push_str(" ref"),
        Answer::Gap(length) => {
            text.push_str(" lost ");
            text.push_str(&length.0.to_string());
        }
        Answer::Bits {
            line,
            plain,
            settled,
            ..
        } => {
            text.push_str(" bits ");
            push_bits(text, line, u8::MAX, width);
            text.push(' ');
            push_bits(text, plain, settled, width);
        }
    }
}

/// The bits of a group in time order, with `-` for unsettled ones.
fn push_bits(text: &mut String, group: u8, settled: u8, width: u32) {
    for position in (0..width).rev() {
        text.push(match (settled >> position & 1, group >> position & 1) {
            (0, _) => '-',
            (_, 0) => '0',
            _ => '1',
        });
    }
}
