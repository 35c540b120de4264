//! The tuned sender gives what the plain one gives.

use outside::mode::{modes_and_roles, Mode};
use outside::patterns;
use outside::refusal::Refusal;
use outside::rng::Rng;
use outside::sender::{self, Sender};
use outside::tuned;
use outside::units::{BitCount, GuardCount};

/// A lent number before a call, to show what a call leaves.
const UNWRITTEN: i16 = 0x5a5a;

/// Sends on both sides; gives what both gave.
fn send(state: Sender, input: &[u8], lent: usize, offset: usize) -> Result<Sender, Refusal> {
    let (mut out, mut right) = (vec![UNWRITTEN; lent], vec![UNWRITTEN; lent]);
    let next = tuned::send(state, input, &mut out, offset);
    assert_eq!(next, sender::send(state, input, &mut right, offset));
    assert_eq!(out, right, "{state:?}");
    if next.is_err() {
        assert!(out.iter().all(|&number| number == UNWRITTEN));
    }
    next
}

fn random_state(rng: &mut Rng, mode: &Mode, role: u8) -> Sender {
    Sender {
        mode: mode.number,
        role,
        reference: rng.pick(mode.states),
        register: rng.below(1 << mode.register_length) as u32,
        held: BitCount(mode.register_length),
        count: GuardCount(if mode.guard { rng.below(34) as u8 } else { 0 }),
    }
}

#[test]
fn lists_of_calls_of_any_size() {
    let mut rng = Rng::new(1);
    for (mode, role) in modes_and_roles() {
        for _ in 0..20 {
            let mut state = random_state(&mut rng, mode, role);
            for points in (0..40).chain([100, 1000]) {
                let input = rng.bits(points * mode.width as usize);
                let offset = rng.below(5) as usize;
                let lent = offset + 2 * points + rng.below(4) as usize;
                state = send(state, &input, lent, offset).unwrap();
            }
        }
    }
}

/// Data for which the line repeats, or would without a guard.
#[test]
fn lists_of_calls_with_repeated_patterns() {
    let mut rng = Rng::new(3);
    for (mode, role) in modes_and_roles() {
        for _ in 0..60 {
            let mut state = random_state(&mut rng, mode, role);
            for points in [1, 2, 3, 17, 90, 300] {
                let line = patterns::repeated(&mut rng, points * mode.width as usize);
                let data_for = rng.pick(&[patterns::data_for, patterns::data_without_guard]);
                let input = data_for(&state, &line);
                state = send(state, &input, 2 * points, 0).unwrap();
            }
        }
    }
}

#[test]
fn every_group_after_every_state() {
    for (mode, role) in modes_and_roles() {
        for &reference in mode.states {
            for data in 0..1 << (2 * mode.width) {
                let bit = |k| (data >> k & 1) as u8;
                let input: Vec<u8> = (0..2 * mode.width).map(bit).collect();
                let state = Sender {
                    reference,
                    ..random_state(&mut Rng::new(data), mode, role)
                };
                send(state, &input, 4, 0).unwrap();
            }
        }
    }
}

#[test]
fn the_lowest_number_refuses_and_nothing_is_written() {
    let numbers = [1, 2, 4, 5, 6, 7];
    let mut rng = Rng::new(2);
    for (mode, role) in modes_and_roles() {
        for faults in 0..1 << numbers.len() {
            let mut state = random_state(&mut rng, mode, role);
            let mut input = rng.bits(5 * mode.width as usize);
            let mut lent = 13;
            let present = |k: &usize| faults >> k & 1 == 1;
            for k in (0..numbers.len()).filter(present) {
                match numbers[k] {
                    1 => state.mode = 0,
                    2 => state.role = 2,
                    4 => state.held = BitCount(mode.register_length - 1),
                    5 => input[3] = 2,
                    6 => input.push(1),
                    _ => lent = 12,
                }
            }
            let lowest = (0..numbers.len()).find(present);
            let right = lowest.map(|k| Refusal(numbers[k]));
            assert_eq!(send(state, &input, lent, 3).err(), right);
            // An offset past the end.
            assert!(send(state, &[], 3, 4).is_err());
        }
    }
}
