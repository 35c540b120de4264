//! The eight bench points of document 01, in its order.

use outside::code;
use outside::mode::{Line, Mode, A, B, C, D};
use outside::point::{decide, Decision, V27TER_POINTS, V32_POINTS};
use outside::scrambler::Register;
use outside::sender;
use outside::training::{SEGMENT_4, SEGMENT_4_END, SEGMENT_4_REGISTER};
use outside::units::GuardCount;

fn mode(number: u8) -> &'static Mode {
    Mode::find(number).unwrap()
}

fn state(number: u8, re: i16, im: i16) -> u8 {
    match decide(mode(number), re, im) {
        Decision::State { state, .. } => state,
        other => panic!("{other:?}"),
    }
}

/// The states of a training, read from its points.
fn training(number: u8, role: u8, length: u32) -> Vec<u8> {
    let mut out = vec![i16::MIN; 2 * 9000];
    sender::open(number, role, length, &mut out, 0).unwrap();
    let points: &[_] = match mode(number).line {
        Line::V27ter => &V27TER_POINTS,
        Line::V32 => &V32_POINTS,
    };
    out.chunks(2)
        .take_while(|numbers| numbers[0] != i16::MIN)
        .map(|numbers| {
            let same = |point: &outside::point::Point| [point.re, point.im] == *numbers;
            points.iter().position(same).unwrap() as u8
        })
        .collect()
}

#[test]
fn point_1_mode_4_levels_and_axes() {
    assert_eq!(state(4, 2048, 2047), 0b1101);
    assert_eq!(state(4, 2047, 2048), 0b1110);
    assert_eq!(state(4, 0, 1), 0b1100);
    assert_eq!(state(4, 1, 0), 0b0100);
}

#[test]
fn point_2_mode_3_edges() {
    assert_eq!(state(3, 1, 2), C);
    assert_eq!(state(3, -2, 1), D);
}

#[test]
fn point_3_mode_1_edges() {
    assert_eq!(state(1, 1, 1), 0);
    assert_eq!(state(1, 1, -1), 6);
}

#[test]
fn point_4_mode_2_edge() {
    assert_eq!(state(2, 1000, 414), 0);
    assert_eq!(state(2, 1000, 415), 1);
}

#[test]
fn point_5_middle_training() {
    let lengths = [(0, 14, 58), (1, 50, 1074)];
    let trainings = [1, 2, 5, 6].map(|number| lengths.map(|length| (number, length)));
    for (number, (length, reversals, changes)) in trainings.into_iter().flatten() {
        let states = training(number, 0, length);
        assert_eq!(states.len(), reversals + changes + 8);
        let reversed = [4, 0].into_iter().cycle().take(reversals);
        assert!(states[..reversals].iter().copied().eq(reversed));
        let middle: Vec<u8> = states[reversals - 1..reversals + changes]
            .windows(2)
            .map(|pair| (8 + pair[1] - pair[0]) % 8)
            .collect();
        assert_eq!(middle[..7], [0, 4, 4, 4, 4, 4, 0]);
        assert_eq!(middle[changes - 4..], [4, 4, 0, 0]);
    }
}

#[test]
fn point_6_eight_points_after_it() {
    let tribits = [0b100, 0b110, 0b101, 0b010, 0b000, 0b000, 0b111, 0b111];
    let dibits = [0b10, 0b01, 0b10, 0b10, 0b10, 0b10, 0b00, 0b00];
    // The phase changes beside them in table 4.
    let tribit_changes = [270, 225, 315, 90, 45, 45, 180, 180];
    let dibit_changes = [270, 90, 270, 270, 270, 270, 0, 0];
    // The guard has nothing to invert here: fewer than 33 line bits are counted over.
    let modes = [(2, tribits, tribit_changes), (1, dibits, dibit_changes)];
    let guarded = modes.map(|(number, groups, changes)| (number + 4, groups, changes));
    for (number, groups, changes) in modes.into_iter().chain(guarded) {
        for length in [0, 1] {
            let states = training(number, 0, length);
            let pairs = states[states.len() - 9..].windows(2);
            for ((pair, group), change) in pairs.zip(groups).zip(changes) {
                assert_eq!(code::group(mode(number), pair[0], pair[1]), group);
                let turned = (8 + pair[1] - pair[0]) % 8;
                assert_eq!(45 * u16::from(turned), change);
            }
        }
    }
}

#[test]
fn point_7_third_segment_of_v32() {
    // All fifteen that 5.2.3 of V.32 prints, of which document 01 names the first.
    let calling = [C, C, C, C, C, C, C, C, C, A, A, A, C, C, C];
    let answering = [C, C, C, A, A, C, C, C, A, A, C, C, A, C, C];
    for number in [3, 4] {
        for (role, begin) in [(0, calling), (1, answering)] {
            let states = training(number, role, 1280);
            assert_eq!(states.len(), 256 + 16 + 1280);
            assert!(states[..256].chunks(2).all(|pair| pair == [A, B]));
            assert!(states[256..272].chunks(2).all(|pair| pair == [C, D]));
            assert_eq!(states[272..287], begin);
            assert!(states[272..528].iter().all(|s| [A, C].contains(s)));
            assert!([A, B, C, D].iter().all(|s| states[528..].contains(s)));
        }
    }
}

/// The whole third segment, from line bits kept in a list.
#[test]
fn third_segment_follows_the_dibits() {
    for (role, tap) in [(0, 18), (1, 5)] {
        let mut line = vec![0; 23];
        while line.len() < 23 + 2 * 8192 {
            let end = line.len();
            line.push(1 ^ line[end - tap] ^ line[end - 23]);
        }
        let states = training(4, role, 8192);
        for (interval, dibit) in line[23..].chunks(2).enumerate() {
            let expected = match (interval < 256, dibit) {
                (true, [0, _]) | (false, [0, 0]) => A,
                (true, _) | (false, [1, 1]) => C,
                (false, [0, _]) => B,
                (false, _) => D,
            };
            assert_eq!(states[272 + interval], expected, "interval {interval}");
        }
    }
}

#[test]
fn point_8_mode_4_code() {
    assert_eq!(code::next_state(mode(4), 0b1100, 0b0000), 0b1000);
}

/// Ones scrambled from the register before segment 4, without a guard.
fn segment_4_bits() -> impl Iterator<Item = u8> {
    let (_, scrambler) = Mode::find_with_role(1, 0).unwrap();
    let mut register = Register {
        bits: SEGMENT_4_REGISTER,
        count: GuardCount(0),
    };
    std::iter::from_fn(move || {
        let (line, after) = scrambler.scramble(register, 1);
        register = after;
        Some(line)
    })
}

#[test]
fn segment_4_table_is_every_third_bit_of_scrambled_ones() {
    let third = segment_4_bits().step_by(3);
    assert!(third.take(SEGMENT_4.len()).eq(SEGMENT_4));
}

#[test]
fn segment_4_of_either_length_ends_with_the_same_bits() {
    for changes in [58, 1074] {
        let last = segment_4_bits().take(3 * changes).skip(3 * changes - 12);
        let end = last.fold(0, |bits, bit| bits << 1 | u32::from(bit));
        assert_eq!(end, SEGMENT_4_END);
    }
}

#[test]
fn segment_4_bits_are_those_of_table_4() {
    let digits = segment_4_bits().map(|bit| char::from(b'0' + bit));
    let text: String = digits.take(3 * 58).collect();
    assert!(text.starts_with("011101101100100101001"));
    assert!(text.ends_with("110100010001"));
}
