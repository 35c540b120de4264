//! The tuned block receiver gives what the plain one gives.

use outside::code;
use outside::mode::{modes_and_roles, Mode, MODES};
use outside::patterns;
use outside::point;
use outside::receiver::{self, Receiver};
use outside::refusal::Refusal;
use outside::rng::Rng;
use outside::tuned;
use outside::units::{BitCount, GuardCount, UnitIntervals};

/// Bytes and numbers beyond what a call writes, to show what it leaves.
const UNWRITTEN: u8 = 0xa5;
const UNWRITTEN_DISTANCE: u32 = 0xa5a5_a5a5;

/// The lent bytes of line bits and of data bits, and the lent distances.
type Lent = (Vec<u8>, Vec<u8>, Vec<u32>);

/// Receives plainly and tuned, in both ways, into so many lent bytes and
/// distances; gives what all gave.
fn receive(
    state: Receiver,
    points: &[i16],
    lent: (usize, usize, usize),
) -> Result<Receiver, Refusal> {
    let unwritten = || -> Lent {
        let distance = vec![UNWRITTEN_DISTANCE; lent.2];
        (vec![UNWRITTEN; lent.0], vec![UNWRITTEN; lent.1], distance)
    };
    let mut right = unwritten();
    let (line, plain, distance) = (&mut right.0, &mut right.1, &mut right.2);
    let told = receiver::receive_points(state, points, line, plain, distance);
    for receive_points in [tuned::receive_points, tuned::receive_in_passes] {
        let mut tuned = unwritten();
        let (line, plain, distance) = (&mut tuned.0, &mut tuned.1, &mut tuned.2);
        let next = receive_points(state, points, line, plain, distance);
        assert_eq!(next, told, "{state:?}");
        assert_eq!(tuned, right, "{state:?}");
        if next.is_err() {
            assert_eq!(tuned, unwritten());
        }
    }
    told
}

fn accepted(state: Receiver, points: &[i16]) -> Receiver {
    let count = points.len() / 2;
    receive(state, points, (count + 1, count + 3, count + 2)).unwrap()
}

/// A receiver with a reference and so many line bits, and any count where a full
/// register has one.
fn holding(rng: &mut Rng, mode: &Mode, role: u8, held: u32) -> Receiver {
    let counts = mode.guard && held == mode.register_length;
    Receiver {
        reference: Some(rng.pick(mode.states)),
        register: rng.below(1 << held) as u32,
        held: BitCount(held),
        count: GuardCount(if counts { rng.below(34) as u8 } else { 0 }),
        place: UnitIntervals(rng.below(1 << 31) as u32),
        ..receiver::fresh(mode.number, role).unwrap()
    }
}

/// Compares points in one block, and each of them alone.
fn compare_decisions(mode: &'static Mode, points: &[i16]) {
    let mut state = receiver::fresh(mode.number, 0).unwrap();
    accepted(state, points);
    state = accepted(state, &[1, 1]);
    for pair in points.chunks(2) {
        accepted(state, pair);
    }
}

#[test]
fn every_point_of_a_small_grid() {
    let around = |middle: i16| (middle - 3).max(-16384)..=(middle + 3).min(16384);
    let mut coordinates: Vec<i16> = (-40..=40).collect();
    for middle in [-16384, -8192, -4096, -2048, 2048, 4096, 8192, 16384] {
        coordinates.extend(around(middle));
    }
    let pairs = |&re: &i16| coordinates.iter().flat_map(move |&im| [re, im]);
    let points: Vec<i16> = coordinates.iter().flat_map(pairs).collect();
    for mode in &MODES {
        compare_decisions(mode, &points);
    }
}

/// Points at which decisions change in the first quadrant.
fn edges(along: i32) -> [(i32, i32); 7] {
    let eighth = (f64::from(along) * (2f64.sqrt() - 1.0)) as i32;
    [
        (along, along),
        (along, along / 2),
        (along / 2, along),
        (along, eighth),
        (eighth, along),
        (along, 0),
        (along, 2048),
    ]
}

#[test]
fn points_on_and_beside_decision_edges() {
    let mut points = Vec::new();
    for along in (0..=16384).step_by(13).chain(16300..=16384) {
        for (mut re, mut im) in edges(along) {
            for _ in 0..4 {
                for (right, up) in [(0, 0), (1, 0), (0, 1), (-1, 0), (0, -1)] {
                    points.push((re + right).clamp(-16384, 16384) as i16);
                    points.push((im + up).clamp(-16384, 16384) as i16);
                }
                (re, im) = (-im, re);
            }
        }
    }
    for mode in &MODES {
        compare_decisions(mode, &points);
    }
}

/// Sent points with noise, one in `origins` at the origin.
fn noisy(rng: &mut Rng, mode: &Mode, count: usize, origins: u64) -> Vec<i16> {
    let mut points = Vec::new();
    for _ in 0..count {
        let sent = point::sent(mode, rng.pick(mode.states));
        let mut moved = |x: i16| x + rng.between(-900, 900) as i16;
        let point = [moved(sent.re), moved(sent.im)];
        let lost = rng.below(origins) == 0;
        points.extend(if lost { [0, 0] } else { point });
    }
    points
}

#[test]
fn lists_of_blocks_of_any_size() {
    let mut rng = Rng::new(1);
    for (mode, role) in modes_and_roles() {
        for origins in [2, 5, 20, 64, 1 << 40] {
            let mut state = receiver::fresh(mode.number, role).unwrap();
            for size in (0..40).chain(120..140).chain([250, 256, 257, 1000]) {
                state = accepted(state, &noisy(&mut rng, mode, size, origins));
            }
        }
    }
}

#[test]
fn any_count_of_held_line_bits() {
    let mut rng = Rng::new(2);
    for (mode, role) in modes_and_roles() {
        for held in 0..=mode.register_length {
            for size in (0..20).chain([200, 300]) {
                let state = holding(&mut rng, mode, role, held);
                let points = noisy(&mut rng, mode, size, 30);
                let next = accepted(state, &points);
                accepted(next, &points);
            }
        }
    }
}

/// Points of line bits that repeat, for which the guard inverts a bit now and then,
/// with a few at the origin.
#[test]
fn lists_of_repeated_patterns() {
    let mut rng = Rng::new(4);
    for (mode, role) in modes_and_roles() {
        for _ in 0..60 {
            let mut state = holding(&mut rng, mode, role, mode.register_length);
            let mut reference = mode.states[0];
            for size in [1, 3, 15, 16, 17, 90, 128, 129, 300] {
                let line = patterns::repeated(&mut rng, size * mode.width as usize);
                let mut points = Vec::new();
                for bits in line.chunks(mode.width as usize) {
                    let group = bits.iter().fold(0, |group, bit| 2 * group + bit);
                    reference = code::next_state(mode, reference, group);
                    let sent = point::sent(mode, reference);
                    let lost = rng.below(150) == 0;
                    points.extend(if lost { [0, 0] } else { [sent.re, sent.im] });
                }
                state = accepted(state, &points);
            }
        }
    }
}

/// Puts the fault of a number into a call.
fn put_fault(
    number: u8,
    state: &mut Receiver,
    points: &mut [i16],
    lent: &mut (usize, usize, usize),
) {
    match number {
        1 => state.mode = 7,
        2 => state.role = 2,
        4 => state.register = 1 << 30,
        7 => lent.2 -= 1,
        8 => points[7] = -16385,
        _ => state.place = UnitIntervals(u32::MAX - 3),
    }
}

#[test]
fn the_lowest_number_refuses_and_nothing_is_written() {
    let numbers = [1, 2, 4, 7, 8, 16];
    let mut rng = Rng::new(3);
    for (mode, role) in modes_and_roles() {
        for faults in 0..1 << numbers.len() {
            let mut state = holding(&mut rng, mode, role, 5);
            let mut points = noisy(&mut rng, mode, 4, 9);
            let mut lent = (4, 4, 4);
            let present = |k: &usize| faults >> k & 1 == 1;
            for k in (0..numbers.len()).filter(present) {
                put_fault(numbers[k], &mut state, &mut points, &mut lent);
            }
            let lowest = (0..numbers.len())
                .find(present)
                .map(|k| Refusal(numbers[k]));
            assert_eq!(receive(state, &points, lent).err(), lowest);
        }
    }
}

#[test]
fn refusals_at_their_limits() {
    let start = receiver::fresh(2, 0).unwrap();
    let refused = |state, points: &[i16], lent| receive(state, points, lent).err();
    assert_eq!(refused(start, &[1, 0, 0], (9, 9, 9)), Some(Refusal(7)));
    for lent in [(1, 2, 2), (2, 1, 2), (2, 2, 1)] {
        assert_eq!(refused(start, &[1, 0, 0, 1], lent), Some(Refusal(7)));
    }
    for outside in [16385, -16385, i16::MAX, i16::MIN] {
        for at in 0..600 {
            let mut points = vec![16384; 600];
            points[at] = outside;
            assert_eq!(refused(start, &points, (300, 300, 300)), Some(Refusal(8)));
        }
    }
    let place = UnitIntervals(u32::MAX - 2);
    let late = Receiver { place, ..start };
    assert_eq!(refused(late, &[5; 4], (2, 2, 2)), None);
    assert_eq!(refused(late, &[5; 6], (3, 3, 3)), Some(Refusal(16)));
    for reference in 0..=255 {
        let reference = Some(reference);
        for mode in 0..=7 {
            let state = Receiver {
                mode,
                reference,
                ..start
            };
            let _ = receive(state, &[5; 6], (3, 3, 3));
        }
    }
}
