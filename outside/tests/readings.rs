//! Readings in single precision: rounding, what the receiver makes of each kind,
//! and the place of number 18.

use outside::mode::{modes_and_roles, MODES};
use outside::point::Point;
use outside::reading::{coordinate, units, Levels, Reading};
use outside::receiver::{
    fresh, receive_gap, receive_level_points, receive_point, receive_points, receive_reading,
    Answer, Receiver,
};
use outside::refusal::{Refusal, ORDER};
use outside::rng::Rng;
use outside::tuned;
use outside::units::{BitCount, GuardCount, SquaredUnits, UnitIntervals};

/// So many units in levels; exact for whole numbers and halves up to 8388608.
fn level(units: f64) -> f32 {
    (units / 1024.0) as f32
}

/// A finite number's size: a whole number and the power of two that it is
/// multiplied by.
fn size_of(level: f32) -> (u128, i32) {
    let bits = level.to_bits() & 0x7fff_ffff;
    let digits = u128::from(bits & 0x007f_ffff);
    match bits >> 23 {
        0 => (digits, -149),
        exponent => (digits + 0x0080_0000, exponent as i32 - 150),
    }
}

/// Whether a number is the nearest to 1024 times a level, and the even one of
/// two, judged in whole numbers alone: twice the difference is at most one.
fn is_nearest(level: f32, number: i64) -> bool {
    let (digits, exponent) = size_of(level);
    let size = u128::from(number.unsigned_abs());
    let sign_kept = number == 0 || (number < 0) == level.is_sign_negative();
    if exponent + 10 >= 0 {
        let exact = digits << (exponent + 10).min(100);
        return sign_kept && size == exact.min(i64::MAX as u128);
    }
    // Beyond 2^-60 of a unit all that counts is that a size is less than half.
    let one = 1u128 << (-exponent - 10).min(60);
    let apart = 2 * (size * one).abs_diff(digits);
    sign_kept && (apart < one || (apart == one && size % 2 == 0))
}

/// A number, the one before it and the one after it.
fn around(level: f32) -> [f32; 3] {
    [level.next_down(), level, level.next_up()]
}

#[test]
fn whole_numbers_and_ties() {
    for n in 0..=17_000i64 {
        for sign in [1, -1] {
            let [below, whole, above] = around(level((sign * n) as f64)).map(units);
            assert_eq!([below, whole, above], [sign * n; 3]);
            let tie = level(sign as f64 * (n as f64 + 0.5));
            let even = n + n % 2;
            assert_eq!(units(tie), sign * even);
            let nearer = [tie.abs().next_down(), tie.abs().next_up()];
            assert_eq!(nearer.map(units), [n, n + 1]);
        }
    }
}

#[test]
fn never_more_than_half_a_unit_away() {
    for exponent in 0..255 {
        for digits in [
            0, 1, 2, 0x3f_ffff, 0x40_0000, 0x40_0001, 0x7f_fffe, 0x7f_ffff,
        ] {
            for sign in [0, 1 << 31] {
                let level = f32::from_bits(sign | exponent << 23 | digits);
                assert!(is_nearest(level, units(level)), "{level:e}");
            }
        }
    }
    let mut rng = Rng::new(1);
    for _ in 0..1_000_000 {
        let level = f32::from_bits(rng.next_u64() as u32);
        assert!(!level.is_finite() || is_nearest(level, units(level)));
        let level = ((rng.next_u64() >> 32) as f32 / 4_294_967_296.0 - 0.5) * 34.0;
        assert!(is_nearest(level, units(level)), "{level:e}");
    }
}

#[test]
fn great_and_small_numbers() {
    assert_eq!([0.0, -0.0].map(units), [0, 0]);
    assert_eq!([f32::MIN_POSITIVE, f32::from_bits(1)].map(units), [0, 0]);
    assert_eq!([f32::MAX, f32::MIN].map(units), [i64::MAX, -i64::MAX]);
    assert_eq!(units(8192.0), 8_388_608);
    assert_eq!(units(-1e9), -1_024_000_000_000);
}

#[test]
fn range_is_judged_after_rounding() {
    let tie = level(16384.5);
    assert_eq!(
        around(tie).map(coordinate),
        [Some(16384), Some(16384), None]
    );
    let tie = level(-16384.5);
    let rounded = around(tie).map(coordinate);
    assert_eq!(rounded, [None, Some(-16384), Some(-16384)]);
    // Numbers that an i16 does not hold, and those that would wrap into range.
    for far in [32768.0, 65536.0, 65537.0, 4294967296.0, 1e30] {
        assert_eq!([level(far), level(-far)].map(coordinate), [None; 2]);
    }
}

#[test]
fn a_turn_before_or_after_gives_the_same_point() {
    let mut rng = Rng::new(2);
    let check = |point: Levels| {
        let after = point
            .rounded()
            .map(|Point { re, im }| Point { re: -im, im: re });
        assert_eq!(point.turned().rounded(), after, "{point:?}");
    };
    for n in 0..=16_385 {
        for &re in &around(level(f64::from(n) + 0.5)) {
            check(Levels { re, im: -re });
            check(Levels { re, im: 3.25 });
            check(Levels { re: -7.0, im: re });
        }
    }
    for _ in 0..200_000 {
        let [re, im] = [(); 2].map(|()| f32::from_bits(rng.next_u64() as u32));
        check(Levels { re, im });
    }
}

fn point(re: f32, im: f32) -> Reading {
    Reading::Point(Levels { re, im })
}

fn squelch(power: f32) -> Reading {
    Reading::Squelch { power }
}

fn hole(intervals: u32) -> Reading {
    Reading::Hole { intervals }
}

/// A receiver with a reference and some line bits.
fn holding() -> Receiver {
    Receiver {
        mode: 4,
        role: 1,
        reference: Some(0b1100),
        register: 0b1011,
        held: BitCount(9),
        count: GuardCount(0),
        place: UnitIntervals(7),
    }
}

#[test]
fn a_squelch_is_a_gap_of_one_and_a_hole_one_of_its_count() {
    let (start, forgotten) = (holding(), fresh(4, 1).unwrap());
    let after = |place| Receiver {
        place: UnitIntervals(place),
        ..forgotten
    };
    for power in [0.0, -0.0, 1.0, -3.5, f32::MAX, f32::MIN, f32::from_bits(1)] {
        let told = receive_reading(start, squelch(power));
        assert_eq!(told, Ok((Answer::Gap(UnitIntervals(1)), after(8))));
    }
    for n in [1, 2, 4_000_000_000, u32::MAX - 7] {
        let told = receive_reading(start, hole(n));
        assert_eq!(told, Ok((Answer::Gap(UnitIntervals(n)), after(7 + n))));
        assert_eq!(told, receive_gap(start, n));
    }
    let told = receive_reading(start, hole(u32::MAX - 6));
    assert_eq!(told, Err(Refusal(16)));
    assert_eq!(receive_reading(start, hole(0)), Err(Refusal(9)));
}

#[test]
fn points_within_half_a_unit_of_both_axes_are_the_origin() {
    let half = level(0.5);
    let near = [0.0, -0.0, half, -half, half.next_down(), f32::from_bits(1)];
    let gap = Answer::Gap(UnitIntervals(1));
    for (mode, role) in modes_and_roles() {
        let start = fresh(mode.number, role).unwrap();
        for re in near {
            for im in near {
                let (answer, _) = receive_reading(start, point(re, im)).unwrap();
                assert_eq!(answer, gap);
            }
            let beside = receive_reading(start, point(re, half.next_up()));
            assert_eq!(beside, receive_point(start, 0, 1));
        }
    }
}

#[test]
fn a_point_is_taken_as_its_units() {
    let start = holding();
    // Sent at (3072, 1024); 3075.4 and 1020.5 are 3075 and 1020.
    let (answer, next) = receive_reading(start, point(level(3075.4), level(1020.5))).unwrap();
    let Answer::Bits { distance, .. } = answer else {
        panic!("{answer:?}");
    };
    assert_eq!(distance, SquaredUnits(3 * 3 + 4 * 4));
    assert_eq!(Ok((answer, next)), receive_point(start, 3075, 1020));
}

fn refused(state: Receiver, reading: Reading) -> u8 {
    receive_reading(state, reading).map_or_else(|refusal| refusal.0, |_| 0)
}

#[test]
fn number_18_goes_after_the_state_and_before_8_and_16() {
    let (nan, infinite) = (f32::NAN, f32::NEG_INFINITY);
    let mut state = Receiver {
        mode: 0,
        role: 2,
        reference: Some(16),
        place: UnitIntervals(u32::MAX),
        ..holding()
    };
    let wrong = [
        point(nan, 17.0),
        point(-1e9, infinite),
        point(infinite, nan),
        squelch(nan),
        squelch(infinite),
    ];
    let numbers = |state| wrong.map(|reading| refused(state, reading));
    assert_eq!(numbers(state), [1; 5]);
    state.mode = 4;
    assert_eq!(numbers(state), [2; 5]);
    state.role = 1;
    assert_eq!(numbers(state), [4; 5]);
    state.reference = Some(15);
    assert_eq!(numbers(state), [18; 5]);
    assert_eq!(refused(state, point(17.0, 0.0)), 8);
    assert_eq!(refused(state, point(16.0, -16.0)), 16);
    assert_eq!(refused(state, squelch(0.0)), 16);
    assert_eq!(refused(state, hole(1)), 16);
    assert_eq!(refused(state, hole(0)), 9);
}

#[test]
fn all_numbers_have_their_place() {
    assert_eq!(ORDER[7..10], [7, 18, 8]);
    let mut sorted = ORDER;
    sorted.sort();
    // 10 is not used any more.
    assert!(sorted
        .iter()
        .copied()
        .eq((1..=19).filter(|&number| number != 10)));
}

/// What a block call leaves: the next state or its number, and the lent parts.
type Told = (Result<Receiver, Refusal>, Vec<u8>, Vec<u8>, Vec<u32>);

/// A block in levels, plainly and tuned, into so many lent places.
fn block(state: Receiver, levels: &[f32], lent: [usize; 3]) -> Told {
    let told = [receive_level_points, tuned::receive_level_points].map(|receive| {
        let (mut line, mut plain) = (vec![9; lent[0]], vec![9; lent[1]]);
        let mut distance = vec![9; lent[2]];
        let next = receive(state, levels, &mut line, &mut plain, &mut distance);
        (next, line, plain, distance)
    });
    assert_eq!(told[0], told[1]);
    let [told, _] = told;
    told
}

/// The same points in units, into one place more than points.
fn block_in_units(state: Receiver, points: &[i16]) -> Told {
    let lent = points.len() / 2 + 1;
    let (mut line, mut plain, mut distance) = (vec![9; lent], vec![9; lent], vec![9; lent]);
    let next = receive_points(state, points, &mut line, &mut plain, &mut distance);
    (next, line, plain, distance)
}

#[test]
fn a_block_is_that_of_its_units() {
    let mut rng = Rng::new(3);
    for (mode, role) in modes_and_roles() {
        let mut state = fresh(mode.number, role).unwrap();
        for size in (0..30).chain([127, 128, 129, 256, 257, 1000]) {
            let most = [1.0, 6_000.0, 16_384.5][size % 3];
            let mut level = || level((rng.below(1 << 24) as f64 / 8_388_608.0 - 1.0) * most);
            let levels: Vec<f32> = (0..2 * size).map(|_| level()).collect();
            let points: Vec<i16> = levels.iter().map(|&level| units(level) as i16).collect();
            let told = block(state, &levels, [size + 1; 3]);
            assert_eq!(told, block_in_units(state, &points));
            state = told.0.unwrap();
        }
    }
}

#[test]
fn every_tie_in_a_block() {
    let levels: Vec<f32> = (-16_385..=16_384)
        .flat_map(|n| around(level(f64::from(n) + 0.5)))
        .filter(|&level| coordinate(level).is_some())
        .flat_map(|tie| [tie, 1.0, -2.0, tie])
        .collect();
    let points: Vec<i16> = levels.iter().map(|&level| units(level) as i16).collect();
    for mode in &MODES {
        let start = fresh(mode.number, 0).unwrap();
        let told = block(start, &levels, [levels.len() / 2 + 1; 3]);
        assert_eq!(told, block_in_units(start, &points));
    }
}

#[test]
fn a_block_is_taken_whole_or_not_at_all() {
    let mut state = fresh(2, 0).unwrap();
    let refused = |state, levels: &[f32], lent: [usize; 3]| {
        let (told, line, plain, distance) = block(state, levels, lent);
        assert!(line.iter().chain(&plain).all(|&byte| byte == 9));
        assert!(distance.iter().all(|&number| number == 9));
        told.unwrap_err().0
    };
    let nan = f32::NAN;
    // Number 18 of any point goes before number 8 of any.
    assert_eq!(refused(state, &[17.0, 0.0, 1.0, nan], [2; 3]), 18);
    assert_eq!(refused(state, &[nan, 0.0, 1.0, -17.0], [2; 3]), 18);
    assert_eq!(refused(state, &[1.0, -17.0, 1.0, 1.0], [2; 3]), 8);
    // And after number 7.
    assert_eq!(refused(state, &[1.0, 0.0, nan], [2; 3]), 7);
    for lent in [[1, 2, 2], [2, 1, 2], [2, 2, 1]] {
        assert_eq!(refused(state, &[1.0, nan, 17.0, 1.0], lent), 7);
    }
    state.place = UnitIntervals(u32::MAX - 1);
    assert_eq!(refused(state, &[1.0, 0.0, 0.0, 1.0], [2; 3]), 16);
    assert_eq!(refused(state, &[1.0, 0.0, nan, 1.0], [2; 3]), 18);
    assert_eq!(refused(state, &[1.0, 0.0, 17.0, 1.0], [2; 3]), 8);
    state.held = BitCount(1);
    assert_eq!(refused(state, &[nan], [0; 3]), 4);
}
