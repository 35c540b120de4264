//! Senders: opened, taken from bytes, and given data bits.

use kerambiu::raw as ours;
use kerambiu::Sender;
use outside::mode::Mode;
use outside::rng::Rng;

use super::{outcome, random_numbers, typed};
use crate::faults;
use crate::layout::STATE;
use crate::sending;
use crate::tally::Tally;

/// Numbers of the longest training.
const MOST: usize = 2 * (8192 + 272);
/// A number that no sent point has.
const UNWRITTEN: i16 = i16::MAX;
/// Calls in a round on one sender.
const CALLS: u64 = 4;

/// Opens a sender; what the thin call wrote is all that the typed one gives.
fn run_open(tally: &mut Tally, rng: &mut Rng) {
    let numbers = random_numbers(rng);
    let long = rng.between(1279, 8193) as u32;
    let length = rng.pick(&[0, 1, 0, 1, 2, 1280, 8192, long, long, u32::MAX]);
    let mut state = [0; STATE];
    let mut out = vec![UNWRITTEN; MOST];
    let number = ours::open(&mut state, numbers.0, numbers.1, length, &mut out, 0);
    let opened = typed(numbers).and_then(|(mode, role)| Sender::open(mode, role, length));
    if let Some((sender, training)) = outcome(tally, "open", number, opened) {
        let written = out.iter().take_while(|&&x| x != UNWRITTEN).count();
        tally.check(
            training == out[..written] && sender.bytes() == state,
            || format!("open {numbers:?} {length}: {} numbers", training.len()),
        );
    }
}

/// A sender taken from the bytes of a state, which is at times none.
fn run_from_bytes(tally: &mut Tally, rng: &mut Rng, mode: &Mode, role: u8) -> Option<Sender> {
    let mut state = sending::sound_state(rng, mode, role);
    match rng.below(12) {
        0 => state[0] = faults::no_mode(rng),
        1 => state[1] = faults::no_role(rng, mode),
        2 => state[2] = faults::no_state(rng, mode),
        3 => state[10 + rng.below(6) as usize] = 1,
        _ => {}
    }
    let mut out = [0; 8];
    let bits = vec![0; mode.width as usize];
    let number = ours::send(&mut state.clone(), &bits, &mut out, 0);
    let sender = outcome(tally, "state", number, Sender::from_bytes(state))?;
    tally.check(sender.bytes() == state, || "bytes of a sender".into());
    Some(sender)
}

/// Data bits, at times not a multiple of w, at times with a byte above 1.
fn random_bits(rng: &mut Rng, mode: &Mode) -> Vec<u8> {
    let points = rng.below(30) as usize;
    let mut bits = rng.bits(points * mode.width as usize);
    if rng.below(6) == 0 {
        bits.push(0);
    }
    if rng.below(6) == 0 && !bits.is_empty() {
        let at = rng.below(bits.len() as u64) as usize;
        bits[at] = rng.between(2, 255) as u8;
    }
    bits
}

fn run_send(tally: &mut Tally, sender: &mut Sender, bits: &[u8]) {
    let mut state = sender.bytes();
    let mut out = vec![UNWRITTEN; 2 * bits.len()];
    let number = ours::send(&mut state, bits, &mut out, 0);
    let sent = outcome(tally, "send", number, sender.send(bits));
    let written = out.iter().take_while(|&&x| x != UNWRITTEN).count();
    tally.check(
        sent.unwrap_or_default() == out[..written] && sender.bytes() == state,
        || format!("send {} bits", bits.len()),
    );
    let shown = (sender.mode().number(), sender.role().number());
    tally.check(shown == (state[0], state[1]), || "mode or role".into());
}

/// A sender opened, one taken from bytes, and calls on that.
pub fn run(tally: &mut Tally, rng: &mut Rng) {
    run_open(tally, rng);
    let (mode, role) = rng.mode_and_role();
    if let Some(mut sender) = run_from_bytes(tally, rng, mode, role) {
        for _ in 0..CALLS {
            let bits = random_bits(rng, mode);
            run_send(tally, &mut sender, &bits);
        }
    }
}
