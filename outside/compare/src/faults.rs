//! Faults that are put into calls.

use outside::mode::{Mode, MODES};
use outside::receiver::{self, Receiver};
use outside::rng::Rng;
use outside::scrambler::GUARD_LIMIT;
use outside::sender::Sender;
use outside::units::{BitCount, GuardCount};

/// One of some faults, or two that differ, in either order.
pub fn one_or_two<T: Copy>(rng: &mut Rng, all: &[T]) -> Vec<T> {
    let first = rng.below(all.len() as u64) as usize;
    let further = 1 + rng.below(all.len() as u64 - 1) as usize;
    let second = (first + further) % all.len();
    let both = [all[first], all[second]];
    both[..1 + rng.below(2) as usize].to_vec()
}

/// A byte that is no mode.
pub fn no_mode(rng: &mut Rng) -> u8 {
    let above = MODES.len() as i64 + 1;
    let any = rng.between(above, 255) as u8;
    rng.pick(&[0, above as u8, any])
}

/// A byte that is no role of the mode.
pub fn no_role(rng: &mut Rng, mode: &Mode) -> u8 {
    rng.between(mode.near_taps.len() as i64, 255) as u8
}

/// A byte that is no count of the mode's guard, or any but 0 where there is none.
pub fn no_count(rng: &mut Rng, mode: &Mode) -> u8 {
    let least = if mode.guard { GUARD_LIMIT.0 + 1 } else { 1 };
    let any = rng.between(least.into(), 255) as u8;
    rng.pick(&[least, any])
}

/// A byte that is no state of the mode.
pub fn no_state(rng: &mut Rng, mode: &Mode) -> u8 {
    let others: Vec<u8> = (0..=255).filter(|&byte| !mode.has_state(byte)).collect();
    rng.pick(&others)
}

/// Receivers with and without a reference, with held line bits and counts about
/// their limits, in every combination.
pub fn states_about_limits(mode: &Mode, role: u8) -> Vec<Receiver> {
    let (full, limit) = (mode.register_length, GUARD_LIMIT.0);
    let fresh = receiver::fresh(mode.number, role).expect("a mode and its role");
    let mut states = Vec::new();
    for reference in [None, Some(mode.states[0])] {
        for held in [0, full - 1, full, full + 1].map(BitCount) {
            for count in [0, 1, limit, limit + 1, 255].map(GuardCount) {
                states.push(Receiver {
                    reference,
                    held,
                    count,
                    ..fresh
                });
            }
        }
    }
    states
}

/// Number 4 of a receiver about the limits, if it applies.
pub fn of_receiver(mode: &Mode, state: &Receiver) -> Vec<u8> {
    let (held, full) = (state.held.0, mode.register_length);
    let without = state.reference.is_none() && held > 0;
    let few = held < full && state.count.0 > 0;
    let applies = held > full || without || few || wrong_count(mode, state.count);
    Vec::from_iter(applies.then_some(4))
}

/// Number 4 of a sender about the limits, if it applies.
pub fn of_sender(mode: &Mode, state: &Sender) -> Vec<u8> {
    let applies = state.held.0 != mode.register_length || wrong_count(mode, state.count);
    Vec::from_iter(applies.then_some(4))
}

/// Above 33, or above zero in a mode without the guard.
fn wrong_count(mode: &Mode, count: GuardCount) -> bool {
    match mode.guard {
        true => count.0 > 33,
        false => count.0 > 0,
    }
}
