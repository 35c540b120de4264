//! The commands that send bits and receive events.

use super::bits::bits;
use super::events::events;
use super::Said;
use crate::listing::push_event;
use crate::mode::Mode;
use crate::receiver::{self, Receiver};
use crate::refusal::{need, Refusal};
use crate::sender::{self, Sender};
use crate::store::Event;
use crate::sums::Sums;
use crate::training::Training;

/// The points of training and of whole groups of data bits. Refuses by 1, 2 and 3,
/// and writes nothing then; by 5 and 6 after all that is whole.
pub fn send(mode: u8, role: u8, length: u32, input: &[u8]) -> Said {
    let (sender, mut numbers) = match opened(mode, role, length) {
        Ok(opened) => opened,
        Err(refusal) => return Said::ended(Vec::new(), Err(refusal), 0),
    };
    let (bits, end) = bits(input);
    let (groups, left) = data_points(sender, &bits);
    numbers.extend(groups);
    let end = end.and(need(left == 0, Refusal::BIT_COUNT));
    let out = numbers.iter().flat_map(|number| number.to_le_bytes());
    Said::ended(out.collect(), end, bits.len())
}

/// A sender after its training, and the numbers of the training's points.
fn opened(mode: u8, role: u8, length: u32) -> Result<(Sender, Vec<i16>), Refusal> {
    let (line_mode, _) = Mode::find_with_role(mode, role)?;
    let training = Training::of(line_mode, length).ok_or(Refusal::TRAINING_LENGTH)?;
    let mut numbers = vec![0; 2 * training.intervals()];
    let sender = sender::open(mode, role, length, &mut numbers, 0)?;
    Ok((sender, numbers))
}

/// The numbers of the points of all whole groups of bits, and how many bits are
/// left over.
fn data_points(sender: Sender, bits: &[u8]) -> (Vec<i16>, usize) {
    let width = Mode::find(sender.mode).expect("an open one's mode").width as usize;
    let left = bits.len() % width;
    let whole = &bits[..bits.len() - left];
    let mut numbers = vec![0; 2 * whole.len() / width];
    sender::send(sender, whole, &mut numbers, 0).expect("whole groups of bits");
    (numbers, left)
}

/// What a fresh receiver hears.
struct Heard {
    width: u32,
    state: Receiver,
    text: String,
    sums: Sums,
    events: usize,
}

/// The lines of a listing without its first one. Refuses by 1, 2, 7, 8, 9 and 16,
/// the number standing in the place of the sums.
pub fn receive(mode: u8, role: u8, input: &[u8]) -> Said {
    let mut heard = match Heard::nothing(mode, role) {
        Ok(heard) => heard,
        Err(refusal) => return Said::text(String::new(), Err(refusal), 0),
    };
    let end = events(input).try_for_each(|event| heard.hear(event?));
    if end.is_ok() {
        heard.text.push_str(&format!("{}\n", heard.sums));
    }
    Said::text(heard.text, end, heard.events)
}

impl Heard {
    fn nothing(mode: u8, role: u8) -> Result<Heard, Refusal> {
        Ok(Heard {
            state: receiver::fresh(mode, role)?,
            width: Mode::find(mode)?.width,
            text: String::new(),
            sums: Sums::default(),
            events: 0,
        })
    }

    fn hear(&mut self, event: Event) -> Result<(), Refusal> {
        self.state = push_event(&mut self.text, self.width, self.state, event)?;
        self.sums.count(event);
        self.events += 1;
        Ok(())
    }
}
