//! The guard of modes 5 and 6 (document 02, R-6).

use outside::assurance::first_assured;
use outside::code;
use outside::listing;
use outside::mode::{Mode, MODES};
use outside::patterns::{data_for, data_without_guard, inversions, repeated, PERIODS};
use outside::point;
use outside::receiver::{self, receive_gap, receive_point, Answer, Receiver};
use outside::refusal::Refusal;
use outside::rng::Rng;
use outside::scrambler::{Register, Scrambler};
use outside::sender::{self, Sender};
use outside::store::{Event, Track};
use outside::training::Training;
use outside::units::{BitCount, GuardCount, UnitIntervals};

const GUARDED: [u8; 2] = [5, 6];

fn mode(number: u8) -> &'static Mode {
    Mode::find(number).unwrap()
}

fn scrambler(number: u8) -> Scrambler {
    Scrambler::of(mode(number), 0).unwrap()
}

fn opened(number: u8, length: u32) -> (Sender, Vec<i16>) {
    let training = Training::of(mode(number), length).unwrap();
    let mut out = vec![0; 2 * training.intervals()];
    let state = sender::open(number, 0, length, &mut out, 0).unwrap();
    (state, out)
}

fn random_sender(rng: &mut Rng, number: u8) -> Sender {
    Sender {
        mode: number,
        role: 0,
        reference: rng.pick(mode(number).states),
        register: rng.below(1 << 12) as u32,
        held: BitCount(12),
        count: GuardCount(rng.below(34) as u8),
    }
}

fn random_receiver(rng: &mut Rng, number: u8) -> Receiver {
    let held = rng.below(13) as u32;
    let count = if held == 12 { rng.below(34) as u8 } else { 0 };
    Receiver {
        reference: Some(rng.pick(mode(number).states)),
        register: rng.below(1 << held) as u32,
        held: BitCount(held),
        count: GuardCount(count),
        ..receiver::fresh(number, 0).unwrap()
    }
}

/// The points of data bits.
fn sent(state: Sender, data: &[u8]) -> (Sender, Vec<i16>) {
    let mut out = vec![0; 2 * data.len() / mode(state.mode).width as usize];
    let next = sender::send(state, data, &mut out, 0).unwrap();
    (next, out)
}

/// The line bits and the data bits of points, none where they are unsettled, and
/// the state after them.
fn heard(mut state: Receiver, points: &[i16]) -> (Vec<u8>, Vec<Option<u8>>, Receiver) {
    let (mut lines, mut data) = (Vec::new(), Vec::new());
    for pair in points.chunks(2) {
        let (answer, next) = receive_point(state, pair[0], pair[1]).unwrap();
        state = next;
        let Answer::Bits {
            line,
            plain,
            settled,
            ..
        } = answer
        else {
            continue;
        };
        for k in (0..mode(state.mode).width).rev() {
            lines.push(line >> k & 1);
            data.push((settled >> k & 1 == 1).then_some(plain >> k & 1));
        }
    }
    (lines, data, state)
}

/// The rule of R-6 over a list of line bits, of which the first twelve are the
/// register's: the line bits of some data bits, and how often one was inverted.
fn scrambled_by_text(register: &[u8; 12], count: &mut u8, data: &[u8]) -> (Vec<u8>, u64) {
    let (mut line, mut inverted) = (register.to_vec(), 0);
    for bit in data {
        let back = |k: usize| line[line.len() - k];
        let scrambled = bit ^ back(6) ^ back(7);
        if *count == 33 {
            line.push(1 - scrambled);
            *count = 0;
            inverted += 1;
        } else {
            let differs = [8, 9, 12].iter().all(|&k| back(k) != scrambled);
            line.push(scrambled);
            *count = if differs { 0 } else { *count + 1 };
        }
    }
    (line.split_off(12), inverted)
}

/// The bits of a register, oldest first.
fn oldest_first(register: u32) -> [u8; 12] {
    std::array::from_fn(|k| (register >> (11 - k) & 1) as u8)
}

#[test]
fn counts_after_opening() {
    for length in [0, 1] {
        assert_eq!(opened(5, length).0.count, GuardCount(3));
        assert_eq!(opened(6, length).0.count, GuardCount(0));
    }
}

/// It counts over the middle too, and is not the sender's before the 8 points
/// after it; these make it so.
#[test]
fn counts_of_a_receiver_that_hears_the_training() {
    for length in [0, 1] {
        for (number, before, after) in [(5, 20, 3), (6, 11, 0)] {
            let fresh = receiver::fresh(number, 0).unwrap();
            let (sender, points) = opened(number, length);
            let (_, _, state) = heard(fresh, &points[..points.len() - 16]);
            assert_eq!(
                (state.count, state.held),
                (GuardCount(before), BitCount(12))
            );
            let (_, _, state) = heard(fresh, &points);
            assert_eq!((state.count, state.held), (GuardCount(after), BitCount(12)));
            assert_eq!(state.register_and_count(), sender.register_and_count());
        }
    }
}

/// The training is that of the mode without the guard: nothing is inverted in it.
#[test]
fn training_points_are_those_without_the_guard() {
    for length in [0, 1] {
        for number in GUARDED {
            let (guarded, points) = opened(number, length);
            let (state, same) = opened(mode(number).unguarded, length);
            assert_eq!(points, same);
            assert_eq!(guarded.register % (1 << 7), state.register);
        }
    }
}

#[test]
fn zeros_from_a_zero_register() {
    for number in GUARDED {
        let scrambler = scrambler(number);
        let mut register = Register {
            bits: 0,
            count: GuardCount(0),
        };
        let line: Vec<u8> = (0..48)
            .map(|_| {
                let (line, after) = scrambler.scramble(register, 0);
                register = after;
                line
            })
            .collect();
        assert_eq!(line[..33], [0; 33]);
        assert_eq!(line[33..], [1, 0, 0, 0, 0, 0, 1, 1, 0, 0, 0, 0, 1, 0, 1]);
    }
}

#[test]
fn line_bits_follow_the_text() {
    let mut rng = Rng::new(1);
    let mut inverted = 0;
    for _ in 0..400 {
        for number in GUARDED {
            let state = random_sender(&mut rng, number);
            let data = match rng.below(3) {
                0 => rng.bits(600),
                1 => data_for(&state, &repeated(&mut rng, 600)),
                _ => data_without_guard(&state, &repeated(&mut rng, 600)),
            };
            let (mut count, before) = (state.count.0, oldest_first(state.register));
            let (right, times) = scrambled_by_text(&before, &mut count, &data);
            let knowing = Receiver {
                reference: Some(state.reference),
                register: state.register,
                held: state.held,
                count: state.count,
                ..receiver::fresh(number, 0).unwrap()
            };
            let (next, points) = sent(state, &data);
            let (line, plain, after) = heard(knowing, &points);
            assert_eq!(line, right);
            assert!(plain.into_iter().eq(data.iter().map(|&bit| Some(bit))));
            assert_eq!((next.count.0, after.count.0), (count, count));
            assert_eq!(oldest_first(next.register), right[588..]);
            let told = fired(&state, &line);
            assert_eq!(told, (times, next.register_and_count()));
            inverted += times;
        }
    }
    assert!(inverted > 5_000, "{inverted}");
}

/// Without compensation by the data the guard breaks the pattern up.
#[test]
fn every_34th_bit_of_a_repeated_pattern_is_inverted() {
    let mut rng = Rng::new(2);
    for number in GUARDED {
        for period in PERIODS {
            let pattern = rng.bits(period);
            let line: Vec<u8> = pattern.into_iter().cycle().take(12 + 340).collect();
            let register = line[..12]
                .iter()
                .fold(0, |bits, &bit| bits << 1 | u32::from(bit));
            let start = Register {
                bits: register,
                count: GuardCount(0),
            };
            let scrambler = scrambler(number);
            let bits = line[12..].iter().copied();
            let (inverted, after) = inversions(scrambler, start, scrambler.full(), bits);
            assert_eq!((inverted, after.count), (10, GuardCount(0)));
            let broken = Sender {
                register,
                count: GuardCount(0),
                ..random_sender(&mut rng, number)
            };
            let data = data_without_guard(&broken, &line[12..]);
            let (sent, _) = scrambled_by_text(&oldest_first(register), &mut 0, &data);
            assert_eq!(sent[..33], line[12..45]);
            assert_ne!(sent[33], line[45]);
        }
    }
}

/// The count of a receiver below twelve line bits is zero; the thirteenth is the
/// first that is counted over.
#[test]
fn nothing_is_counted_below_twelve_line_bits() {
    for number in GUARDED {
        let mode = mode(number);
        let fresh = receiver::fresh(number, 0).unwrap();
        let mut reference = mode.states[0];
        let mut state = fresh;
        // Line bits of zeros: none differs from another.
        for k in 0..20 {
            let sent = point::sent(mode, reference);
            state = receive_point(state, sent.re, sent.im).unwrap().1;
            let bits = mode.width * k;
            assert_eq!(state.held, BitCount(bits.min(12)));
            let counted = bits.saturating_sub(12).min(33);
            if bits - bits.min(12) <= 33 {
                assert_eq!(state.count, GuardCount(counted as u8));
            }
            reference = code::next_state(mode, reference, 0);
        }
        let (_, after) = receive_gap(state, 5).unwrap();
        assert_eq!(after.count, GuardCount(0));
        let (_, after) = receive_point(state, 0, 0).unwrap();
        assert_eq!(
            (after.count, after.place),
            (GuardCount(0), UnitIntervals(21))
        );
    }
}

/// With eleven line bits, the first bit of a point is not counted over and not
/// settled, and the others are both.
#[test]
fn a_count_begins_within_a_point() {
    for number in GUARDED {
        let mode = mode(number);
        let state = Receiver {
            reference: Some(0),
            held: BitCount(11),
            ..receiver::fresh(number, 0).unwrap()
        };
        let point = point::sent(mode, code::next_state(mode, 0, 0));
        let (answer, next) = receive_point(state, point.re, point.im).unwrap();
        assert_eq!(u32::from(next.count.0), mode.width - 1);
        let Answer::Bits { settled, .. } = answer else {
            panic!("{answer:?}");
        };
        assert_eq!(settled.count_ones(), mode.width - 1);
    }
}

fn number_of<T>(result: Result<T, Refusal>) -> u8 {
    result.err().map_or(0, |refusal| refusal.0)
}

#[test]
fn counts_out_of_range_are_number_4() {
    let mut rng = Rng::new(3);
    for mode in &MODES {
        let full = mode.register_length;
        for count in 0..=255 {
            for held in [0, 1, full - 1, full, full + 1] {
                let state = Receiver {
                    reference: Some(mode.states[1]),
                    held: BitCount(held),
                    count: GuardCount(count),
                    ..receiver::fresh(mode.number, 0).unwrap()
                };
                let counts = mode.guard && held == full && count <= 33;
                let passes = held <= full && (count == 0 || counts);
                let right = if passes { 0 } else { 4 };
                assert_eq!(number_of(receive_point(state, 1, 1)), right, "{state:?}");
                assert_eq!(number_of(receive_gap(state, 1)), right, "{state:?}");
                let state = Sender {
                    mode: mode.number,
                    role: 0,
                    reference: mode.states[0],
                    register: rng.below(2) as u32,
                    held: BitCount(held),
                    count: GuardCount(count),
                };
                let passes = held == full && (count == 0 || counts);
                let right = if passes { 0 } else { 4 };
                assert_eq!(number_of(sender::send(state, &[], &mut [], 0)), right);
            }
            let without_reference = Receiver {
                count: GuardCount(count),
                ..receiver::fresh(mode.number, 0).unwrap()
            };
            let right = if count == 0 { 0 } else { 4 };
            assert_eq!(number_of(receive_gap(without_reference, 1)), right);
        }
    }
}

/// Data for a line that repeats, then is random for a while, and repeats again.
fn repeating_data(rng: &mut Rng, state: &Sender) -> Vec<u8> {
    let random = rng.below(40) as usize;
    let mut line = repeated(rng, 60);
    line.extend(rng.bits(random));
    line.extend(repeated(rng, 120 - random));
    data_for(state, &line)
}

/// How often the guard of a sender fires, and what it keeps after some line bits.
fn fired(state: &Sender, line: &[u8]) -> (u64, Register) {
    let (scrambler, register) = (scrambler(state.mode), state.register_and_count());
    inversions(scrambler, register, scrambler.full(), line.iter().copied())
}

/// A receiver that is fresh or began elsewhere hears a sender: line bits are the
/// same from the second point on, settled data bits from the first assured one.
#[test]
fn receivers_agree_from_the_first_assured_bit_on() {
    let mut rng = Rng::new(4);
    let (mut inverted, mut none, mut apart) = (0, 0, 0);
    for number in GUARDED.repeat(2_000) {
        let width = mode(number).width as usize;
        let state = random_sender(&mut rng, number);
        let data = repeating_data(&mut rng, &state);
        let (right, _) =
            scrambled_by_text(&oldest_first(state.register), &mut { state.count.0 }, &data);
        let elsewhere = random_receiver(&mut rng, number);
        let start = rng.pick(&[receiver::fresh(number, 0).unwrap(), elsewhere]);
        let (line, plain, after) = heard(start, &sent(state, &data).1);
        // The first point has line bits only where there was a reference.
        let before = line.len() + width - data.len();
        let (line, plain) = (&line[before..], &plain[before..]);
        assert_eq!(line, &right[width..]);
        assert!(plain[12..].iter().all(Option::is_some));
        let given: Vec<Option<u8>> = data[width..].iter().copied().map(Some).collect();
        apart += u64::from(plain[12..] != given[12..]);
        let Some(first) = first_assured(mode(number), line) else {
            none += 1;
            continue;
        };
        assert_eq!(plain[first..], given[first..]);
        let (times, register) = fired(&state, &right);
        assert_eq!(after.register_and_count(), register);
        inverted += times;
    }
    // The cases are there: inverted bits, nothing assured, and data bits that are
    // settled and not the sender's.
    let enough = inverted > 5_000 && none > 100 && apart > 1_000;
    assert!(enough, "{inverted} {none} {apart}");
}

/// The first line bit that differs from all three is itself not assured.
#[test]
fn assurance_begins_after_the_bit_that_differs() {
    let (mode_1, mode_6) = (mode(1), mode(6));
    let mut line = vec![0; 20];
    assert_eq!(first_assured(mode_1, &line), Some(7));
    assert_eq!(first_assured(mode_1, &line[..7]), None);
    assert_eq!(first_assured(mode_6, &line), None);
    // Sought from the thirteenth line bit on.
    line[11] = 1;
    assert_eq!(first_assured(mode_6, &line), None);
    line[12] = 1;
    assert_eq!(first_assured(mode_6, &line), Some(13));
    assert_eq!(first_assured(mode_6, &line[..13]), None);
}

/// The stored sample of mode 6, and how often the guard inverts a bit in it.
#[test]
fn the_guard_inverts_bits_in_its_sample() {
    let folder = concat!(env!("CARGO_MANIFEST_DIR"), "/../samples");
    let store = std::fs::read(format!("{folder}/guard.vsym")).unwrap();
    let text = std::fs::read(format!("{folder}/guard.txt")).unwrap();
    assert_eq!(listing::list(&store), text);
    let track = Track::of(&store).unwrap();
    assert_eq!(track.mode(), 6);
    let (mut state, mut inverted) = (receiver::fresh(6, 0).unwrap(), 0);
    for event in track.events() {
        let (answer, next) = match event {
            Event::Point(point) => receive_point(state, point.re, point.im).unwrap(),
            Event::Lost(count) => receive_gap(state, count).unwrap(),
        };
        if let Answer::Bits { line, .. } = answer {
            let bits = (0..3).rev().map(|k| line >> k & 1);
            let register = state.register_and_count();
            inverted += inversions(scrambler(6), register, state.held, bits).0;
        }
        state = next;
    }
    assert_eq!(inverted, 5);
}
