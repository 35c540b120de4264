//! Receiver events, settled marks and refusals.

use outside::receiver::{fresh, receive_gap, receive_point, receive_points, Answer, Receiver};
use outside::refusal::Refusal;
use outside::units::{BitCount, GuardCount, SquaredUnits, UnitIntervals};

/// The answers to a sent point, which has the distance 0.
const REFERENCE: Answer = Answer::Reference {
    distance: SquaredUnits(0),
};

fn bits(line: u8, plain: u8, settled: u8) -> Answer {
    Answer::Bits {
        line,
        plain,
        settled,
        distance: SquaredUnits(0),
    }
}

fn point(state: &mut Receiver, re: i16, im: i16) -> Answer {
    let (answer, next) = receive_point(*state, re, im).unwrap();
    *state = next;
    answer
}

#[test]
fn the_example_track_of_document_01() {
    let mut state = fresh(1, 0).unwrap();
    assert_eq!(point(&mut state, 4096, 0), REFERENCE);
    assert_eq!(point(&mut state, 0, 4096), bits(0b01, 0, 0));
    assert_eq!(state.held, BitCount(2));
    let (answer, next) = receive_gap(state, 3).unwrap();
    assert_eq!(answer, Answer::Gap(UnitIntervals(3)));
    state = next;
    assert_eq!(state.place, UnitIntervals(5));
    assert_eq!(point(&mut state, -4096, 0), REFERENCE);
    assert_eq!(state.place, UnitIntervals(6));
}

#[test]
fn data_bits_settle_after_r_line_bits() {
    let mut state = fresh(1, 0).unwrap();
    point(&mut state, 4096, 0);
    // Changes of 90°: the line bits are 01 01 01 01 01.
    let circle = [(0, 4096), (-4096, 0), (0, -4096), (4096, 0), (0, 4096)];
    let answers = circle.map(|(re, im)| point(&mut state, re, im));
    let settled = answers.map(|answer| match answer {
        Answer::Bits { settled, .. } => settled,
        other => panic!("{other:?}"),
    });
    // Seven line bits come before the eighth, the second of the fourth point.
    assert_eq!(settled, [0b00, 0b00, 0b00, 0b01, 0b11]);
    // Line bits 0101010101: the eighth is 1, those 6 and 7 back are 1 and 0.
    assert_eq!(answers[3], bits(0b01, 0b00, 0b01));
    // The ninth is 0 with 0 and 1 back, the tenth 1 with 1 and 0.
    assert_eq!(answers[4], bits(0b01, 0b10, 0b11));
    assert_eq!((state.register, state.held), (0b1010101, BitCount(7)));
}

#[test]
fn the_origin_is_a_gap_of_one() {
    let mut state = fresh(4, 1).unwrap();
    point(&mut state, 1024, 1024);
    point(&mut state, 3072, 1024);
    assert_eq!(point(&mut state, 0, 0), Answer::Gap(UnitIntervals(1)));
    let forgotten = Receiver {
        place: UnitIntervals(3),
        ..fresh(4, 1).unwrap()
    };
    assert_eq!(state, forgotten);
    assert_eq!(point(&mut state, 1024, 1024), REFERENCE);
}

#[test]
fn handed_in_line_bits_count_as_come_before() {
    let state = Receiver {
        mode: 4,
        role: 1,
        reference: Some(0b1100),
        register: 0b10000,
        held: BitCount(22),
        count: GuardCount(0),
        place: UnitIntervals(7),
    };
    // Line bits 0101; the bits 5 back are 1, 0, 0, 0, those 23 back are 0.
    let (answer, next) = receive_point(state, 3072, 1024).unwrap();
    assert_eq!(answer, bits(0b0101, 0b0101, 0b0111));
    assert_eq!(next.register, 0b100000101);
    assert_eq!(next.held, BitCount(23));
    assert_eq!(next.reference, Some(0b1101));
    // The first bit alone meets the 1 that is 5 back.
    let settled = Receiver {
        held: BitCount(23),
        ..state
    };
    let (answer, _) = receive_point(settled, 3072, 1024).unwrap();
    assert_eq!(answer, bits(0b0101, 0b1101, 0b1111));
}

#[test]
fn the_two_roles_tap_18_and_5_back() {
    for (role, tap) in [(0, 18), (1, 5)] {
        for back in 1..=23 {
            let state = Receiver {
                mode: 3,
                role,
                reference: Some(0b0001),
                register: 1 << (back - 1),
                held: BitCount(23),
                count: GuardCount(0),
                place: UnitIntervals(0),
            };
            // The same state again: line bits 01.
            let (answer, _) = receive_point(state, -3072, -1024).unwrap();
            // Before the second bit everything is one further back.
            let meets = |distance| u8::from(distance == tap || distance == 23);
            let plain = 2 * meets(back) + (1 ^ meets(back + 1));
            assert_eq!(answer, bits(0b01, plain, 0b11), "role {role} back {back}");
        }
    }
}

fn refusals(state: Receiver, re: i16, im: i16, n: u32) -> (u8, u8) {
    let number = |result: Result<_, Refusal>| result.map_or_else(|refusal| refusal.0, |_| 0);
    let gap = receive_gap(state, n).map(|_| ());
    (
        number(receive_point(state, re, im).map(|_| ())),
        number(gap),
    )
}

#[test]
fn the_lowest_number_is_given() {
    let mut state = Receiver {
        mode: 7,
        role: 2,
        reference: Some(16),
        register: 0,
        held: BitCount(0),
        count: GuardCount(0),
        place: UnitIntervals(u32::MAX),
    };
    assert_eq!(refusals(state, 16385, 0, 0), (1, 1));
    state.mode = 0;
    assert_eq!(refusals(state, 16385, 0, 0), (1, 1));
    state.mode = 4;
    assert_eq!(refusals(state, 16385, 0, 0), (2, 2));
    state.role = 1;
    assert_eq!(refusals(state, 16385, 0, 0), (4, 4));
    state.reference = Some(15);
    assert_eq!(refusals(state, 16385, 0, 0), (8, 9));
    assert_eq!(refusals(state, 0, -16385, 0), (8, 9));
    assert_eq!(refusals(state, i16::MIN, 0, 0), (8, 9));
    assert_eq!(refusals(state, 16384, -16384, 1), (16, 16));
    assert_eq!(refusals(state, 0, 0, u32::MAX), (16, 16));
    state.place = UnitIntervals(u32::MAX - 1);
    assert_eq!(refusals(state, 16384, -16384, 1), (0, 0));
    assert_eq!(refusals(state, 0, 0, 2), (0, 16));
}

#[test]
fn state_fields_out_of_range_are_number_4() {
    let good = Receiver {
        mode: 1,
        role: 0,
        reference: Some(2),
        register: 0b11,
        held: BitCount(2),
        count: GuardCount(0),
        place: UnitIntervals(9),
    };
    assert_eq!(refusals(good, 1, 1, 1), (0, 0));
    let damages: [fn(&mut Receiver); 8] = [
        |s| s.reference = Some(1),
        |s| s.reference = Some(8),
        |s| s.reference = None,
        |s| s.register = 0b100,
        |s| s.held = BitCount(1),
        |s| s.held = BitCount(8),
        |s| s.held = BitCount(u32::MAX),
        |s| (s.reference, s.held) = (None, BitCount(0)),
    ];
    for damage in damages {
        let mut state = good;
        damage(&mut state);
        assert_eq!(refusals(state, 1, 1, 1), (4, 4), "{state:?}");
    }
}

#[test]
fn fresh_refuses_by_1_and_2() {
    for mode in 0..=255 {
        for role in 0..=255 {
            let expected = match (mode, role) {
                (1 | 2 | 5 | 6, 0) | (3 | 4, 0..=1) => None,
                (1..=6, _) => Some(Refusal(2)),
                _ => Some(Refusal(1)),
            };
            assert_eq!(fresh(mode, role).err(), expected);
        }
    }
}

#[test]
fn a_block_is_the_single_calls() {
    let start = fresh(1, 0).unwrap();
    let points = [4096, 0, 3, 4100, 0, 0, -4092, 3, 0, -4095];
    let (mut line, mut plain, mut distance) = ([9; 6], [9; 6], [9; 6]);
    let next = receive_points(start, &points, &mut line, &mut plain, &mut distance).unwrap();
    assert_eq!(line, [16, 0b01, 17, 16, 0b01, 9]);
    assert_eq!(plain, [0, 32, 0, 0, 32, 9]);
    assert_eq!(distance, [0, 25, 0, 3 * 3 + 4 * 4, 1, 9]);
    let mut state = start;
    for pair in points.chunks(2) {
        point(&mut state, pair[0], pair[1]);
    }
    assert_eq!(next, state);
}

#[test]
fn a_block_is_taken_whole_or_not_at_all() {
    let mut start = fresh(1, 0).unwrap();
    let (mut line, mut plain, mut distance) = ([9; 2], [9; 2], [9; 2]);
    let mut refused = |state, points: &[i16]| {
        let told = receive_points(state, points, &mut line, &mut plain, &mut distance);
        assert_eq!((line, plain, distance), ([9; 2], [9; 2], [9; 2]));
        told
    };
    assert_eq!(refused(start, &[1, 0, 0]), Err(Refusal(7)));
    assert_eq!(refused(start, &[1, 0, 0, 1, 1, 1]), Err(Refusal(7)));
    assert_eq!(refused(start, &[1, 0, 0, 16385]), Err(Refusal(8)));
    start.place = UnitIntervals(u32::MAX - 1);
    assert_eq!(refused(start, &[1, 0, 0, 1]), Err(Refusal(16)));
    assert_eq!(refused(start, &[1, 0, -16385, 1]), Err(Refusal(8)));
    start.mode = 7;
    assert_eq!(refused(start, &[]), Err(Refusal(1)));
}

#[test]
fn each_lent_part_alone_can_be_too_short() {
    let start = fresh(1, 0).unwrap();
    for short in 0..3 {
        let size = |part| if part == short { 1 } else { 2 };
        let (mut line, mut plain) = (vec![9; size(0)], vec![9; size(1)]);
        let mut distance = vec![9; size(2)];
        let told = receive_points(start, &[1, 0, 0, 1], &mut line, &mut plain, &mut distance);
        assert_eq!(told, Err(Refusal(7)));
        assert!(line.iter().chain(&plain).all(|&byte| byte == 9));
        assert!(distance.iter().all(|&number| number == 9));
    }
}

#[test]
fn answers_to_decided_points_have_a_distance() {
    let mut state = fresh(4, 0).unwrap();
    let distance = |answer| match answer {
        Answer::Reference { distance } | Answer::Bits { distance, .. } => Some(distance.0),
        Answer::Gap(_) => None,
    };
    // Sent at (1024, 1024), (3072, -1024) and (1024, 1024).
    assert_eq!(
        distance(point(&mut state, 1000, 1031)),
        Some(24 * 24 + 7 * 7)
    );
    assert_eq!(distance(point(&mut state, 3072, 0)), Some(1024 * 1024));
    assert_eq!(distance(point(&mut state, 0, 0)), None);
    let (answer, mut state) = receive_gap(state, 3).unwrap();
    assert_eq!(distance(answer), None);
    let again = point(&mut state, 1024, 1025);
    let one = SquaredUnits(1);
    assert_eq!(again, Answer::Reference { distance: one });
}
