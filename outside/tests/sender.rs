//! Sending, its refusals, and what receivers make of the points.

use outside::assurance::first_assured;
use outside::mode::{Line, Mode, MODES};
use outside::point::{turn_state, Decision, Point};
use outside::receiver::{fresh, receive_point, Answer};
use outside::refusal::Refusal;
use outside::rng::Rng;
use outside::sender::{open, send, Sender};
use outside::training::Training;
use outside::units::{BitCount, GuardCount};
use outside::{code, point};

const LENGTHS: [(u8, u8, u32); 12] = [
    (1, 0, 0),
    (1, 0, 1),
    (2, 0, 0),
    (2, 0, 1),
    (3, 0, 1280),
    (3, 1, 8192),
    (4, 0, 4000),
    (4, 1, 1280),
    (5, 0, 0),
    (5, 0, 1),
    (6, 0, 0),
    (6, 0, 1),
];

fn opened(mode: u8, role: u8, length: u32) -> (Sender, Vec<i16>) {
    let training = Training::of(Mode::find(mode).unwrap(), length).unwrap();
    let mut out = vec![0; 2 * training.intervals()];
    let state = open(mode, role, length, &mut out, 0).unwrap();
    (state, out)
}

/// Line and data bits of points, none where they are unsettled, without those
/// of the reference point.
fn received(mode: u8, role: u8, points: &[i16]) -> Vec<(u8, Option<u8>)> {
    let width = Mode::find(mode).unwrap().width;
    let mut state = fresh(mode, role).unwrap();
    let mut bits = Vec::new();
    for numbers in points.chunks(2) {
        let (answer, next) = receive_point(state, numbers[0], numbers[1]).unwrap();
        state = next;
        if let Answer::Bits {
            line,
            plain,
            settled,
            ..
        } = answer
        {
            bits.extend((0..width).rev().map(|k| {
                let data = (settled >> k & 1 == 1).then_some(plain >> k & 1);
                (line >> k & 1, data)
            }));
        }
    }
    bits
}

#[test]
fn data_come_back_after_training() {
    let mut rng = Rng::new(4);
    for (mode, role, length) in LENGTHS {
        let parameters = Mode::find(mode).unwrap();
        let (state, mut points) = opened(mode, role, length);
        let data = rng.bits(500 * parameters.width as usize);
        let mut out = vec![0; 1000];
        send(state, &data, &mut out, 0).unwrap();
        points.extend(out);
        let bits = received(mode, role, &points);
        // V.32 training has no differential code: R line bits of data are needed.
        let start = match parameters.line {
            Line::V27ter => 0,
            Line::V32 => 23,
        };
        let tail = &bits[bits.len() - data.len() + start..];
        let plain: Vec<u8> = tail.iter().map(|bit| bit.1.unwrap()).collect();
        assert_eq!(plain, data[start..], "mode {mode} role {role}");
    }
}

#[test]
fn data_points_alone_settle_after_r_line_bits() {
    let mut rng = Rng::new(5);
    for (mode, role, length) in LENGTHS {
        let parameters = Mode::find(mode).unwrap();
        let (width, unsettled) = (parameters.width as usize, parameters.register_length);
        let (state, _) = opened(mode, role, length);
        let data = rng.bits(100 * width);
        let mut out = vec![0; 200];
        send(state, &data, &mut out, 0).unwrap();
        let bits = received(mode, role, &out);
        let line: Vec<u8> = bits.iter().map(|bit| bit.0).collect();
        let assured = first_assured(parameters, &line).unwrap();
        for (k, &(_, plain)) in bits.iter().enumerate() {
            let what = format!("mode {mode} role {role} bit {k}");
            assert_eq!(plain.is_some(), k >= unsettled as usize, "{what}");
            assert!(k < assured || plain == Some(data[width + k]), "{what}");
        }
    }
}

#[test]
fn a_turned_line_gives_the_same_bits() {
    let mut rng = Rng::new(6);
    for (mode, role, length) in LENGTHS {
        let parameters = Mode::find(mode).unwrap();
        let (state, _) = opened(mode, role, length);
        let data = rng.bits(60 * parameters.width as usize);
        let mut out = vec![0; 120];
        send(state, &data, &mut out, 0).unwrap();
        let mut turned = Vec::new();
        for numbers in out.chunks(2) {
            let decided = point::decide(parameters, numbers[0], numbers[1]);
            let Decision::State { state, .. } = decided else {
                panic!("{numbers:?}");
            };
            let Point { re, im } = point::sent(parameters, turn_state(parameters, state));
            turned.extend([re, im]);
        }
        assert_ne!(turned, out);
        assert_eq!(received(mode, role, &turned), received(mode, role, &out));
    }
}

#[test]
fn one_call_or_many_write_the_same() {
    let mut rng = Rng::new(7);
    for (mode, role, length) in LENGTHS {
        let width = Mode::find(mode).unwrap().width as usize;
        let (first, _) = opened(mode, role, length);
        let data = rng.bits(90 * width);
        let mut whole = vec![7; 200];
        let last = send(first, &data, &mut whole, 13).unwrap();
        assert_eq!(whole[..13], [7; 13]);
        assert_eq!(whole[193..], [7; 7]);
        let (mut state, mut parts, mut offset) = (first, vec![7; 200], 13);
        for part in data.chunks(11 * width) {
            state = send(state, part, &mut parts, offset).unwrap();
            offset += 2 * part.len() / width;
        }
        assert_eq!((state, parts), (last, whole));
    }
}

#[test]
fn the_first_data_point_follows_the_training() {
    for (mode, role, length) in LENGTHS {
        let (parameters, scrambler) = Mode::find_with_role(mode, role).unwrap();
        let (state, points) = opened(mode, role, length);
        let last = &points[points.len() - 2..];
        let sent = point::sent(parameters, state.reference);
        assert_eq!(last, [sent.re, sent.im]);
        assert_eq!(state.held, BitCount(parameters.register_length));
        let (mut group, mut register) = (0, state.register_and_count());
        for _ in 0..parameters.width {
            let (line, after) = scrambler.scramble(register, 0);
            (group, register) = (2 * group + line, after);
        }
        let mut out = [0; 2];
        let data = vec![0; parameters.width as usize];
        let next = send(state, &data, &mut out, 0).unwrap();
        assert_eq!(next.register_and_count(), register);
        let reached = code::next_state(parameters, state.reference, group);
        assert_eq!(next.reference, reached);
        let sent = point::sent(parameters, reached);
        assert_eq!(out, [sent.re, sent.im]);
    }
}

#[test]
fn training_is_written_from_the_offset_on() {
    for (mode, role, length) in LENGTHS {
        let (state, points) = opened(mode, role, length);
        let mut out = vec![7; points.len() + 8];
        assert_eq!(open(mode, role, length, &mut out, 3), Ok(state));
        assert_eq!(out[..3], [7; 3]);
        assert_eq!(out[3..3 + points.len()], points);
        assert_eq!(out[3 + points.len()..], [7; 5]);
    }
}

#[test]
fn open_gives_the_lowest_number() {
    let mut out = [7; 159];
    let mut number = |mode, role, length, offset| {
        let result = open(mode, role, length, &mut out, offset);
        assert_eq!(out, [7; 159]);
        result.unwrap_err()
    };
    assert_eq!(number(0, 9, 9, 999), Refusal(1));
    assert_eq!(number(7, 9, 9, 999), Refusal(1));
    assert_eq!(number(1, 1, 9, 999), Refusal(2));
    assert_eq!(number(4, 2, 9, 999), Refusal(2));
    assert_eq!(number(6, 1, 9, 999), Refusal(2));
    assert_eq!(number(2, 0, 2, 999), Refusal(3));
    assert_eq!(number(5, 0, 1280, 999), Refusal(3));
    assert_eq!(number(3, 0, 1, 999), Refusal(3));
    assert_eq!(number(4, 1, 1279, 999), Refusal(3));
    assert_eq!(number(4, 1, 8193, 999), Refusal(3));
    assert_eq!(number(4, 1, 8192, 0), Refusal(7));
    assert_eq!(number(1, 0, 0, 0), Refusal(7));
    assert_eq!(number(1, 0, 0, 160), Refusal(7));
    assert_eq!(number(1, 0, 0, usize::MAX), Refusal(7));
    assert!(open(1, 0, 0, &mut [0; 161], 1).is_ok());
    assert!(open(1, 0, 0, &mut [0; 161], 2).is_err());
}

#[test]
fn send_gives_the_lowest_number() {
    let mut state = Sender {
        mode: 9,
        role: 3,
        reference: 3,
        register: 1 << 23,
        held: BitCount(22),
        count: GuardCount(0),
    };
    let mut out = [7; 4];
    let mut number = |state, input: &[u8], offset| {
        let result = send(state, input, &mut out, offset);
        assert_eq!(out, [7; 4]);
        result.unwrap_err()
    };
    assert_eq!(number(state, &[2; 5], 5), Refusal(1));
    state.mode = 3;
    assert_eq!(number(state, &[2; 5], 5), Refusal(2));
    state.role = 0;
    assert_eq!(number(state, &[2; 5], 5), Refusal(4));
    state.reference = 5;
    assert_eq!(number(state, &[2; 5], 5), Refusal(4));
    state.register = 1;
    assert_eq!(number(state, &[2; 5], 5), Refusal(4));
    state.held = BitCount(24);
    assert_eq!(number(state, &[2; 5], 5), Refusal(4));
    state.held = BitCount(23);
    assert_eq!(number(state, &[1, 1, 1, 1, 2], 5), Refusal(5));
    assert_eq!(number(state, &[1; 5], 5), Refusal(6));
    assert_eq!(number(state, &[1; 4], 5), Refusal(7));
    assert_eq!(number(state, &[1; 4], 1), Refusal(7));
    assert_eq!(number(state, &[], 5), Refusal(7));
    assert_eq!(send(state, &[], &mut [7; 4], 4), Ok(state));
    assert!(send(state, &[1; 4], &mut [7; 4], 0).is_ok());
}

#[test]
fn every_state_of_a_mode_is_sent() {
    let mut rng = Rng::new(8);
    for mode in &MODES {
        let state = Sender {
            mode: mode.number,
            role: 0,
            reference: mode.states[0],
            register: 1,
            held: BitCount(mode.register_length),
            count: GuardCount(0),
        };
        let mut out = vec![0; 2000];
        let data = rng.bits(1000 * mode.width as usize);
        send(state, &data, &mut out, 0).unwrap();
        for &state in mode.states {
            let sent = point::sent(mode, state);
            assert!(out.chunks(2).any(|numbers| numbers == [sent.re, sent.im]));
        }
    }
}
