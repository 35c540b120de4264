//! Turns, decided points and the differential code.

use outside::code;
use outside::mode::{Line, Mode, MODES};
use outside::point::{decide, sectors, sent, turn_state, Decision, Point};
use outside::rng::Rng;
use outside::units::SquaredUnits;

/// The decided state of a point and its distance, unless it is the origin.
fn decided(mode: &Mode, re: i16, im: i16) -> Option<(u8, i64)> {
    match decide(mode, re, im) {
        Decision::State { state, distance } => Some((state, i64::from(distance.0))),
        _ => None,
    }
}

fn squared_distance(sent: Point, re: i16, im: i16) -> i64 {
    let apart = |x: i16, y: i16| i64::from(x) - i64::from(y);
    apart(re, sent.re).pow(2) + apart(im, sent.im).pow(2)
}

#[test]
fn a_sent_point_is_decided_as_its_state() {
    for mode in &MODES {
        for &state in mode.states {
            let Point { re, im } = sent(mode, state);
            let distance = SquaredUnits(0);
            assert_eq!(decide(mode, re, im), Decision::State { state, distance });
        }
    }
}

#[test]
fn turned_states_are_states_and_make_full_turns() {
    for mode in &MODES {
        for &state in mode.states {
            let mut turned = state;
            for _ in 0..360 / mode.step {
                turned = turn_state(mode, turned);
                assert!(mode.has_state(turned));
            }
            assert_eq!(turned, state);
            assert_ne!(turn_state(mode, state), state);
        }
    }
}

#[test]
fn a_turn_by_90_degrees_turns_the_decided_state() {
    let edges = [-2048, -2047, -3, -2, -1, 0, 1, 2, 3, 414, 1000, 2047, 2048];
    for mode in &MODES {
        let quarter = |state| match mode.line {
            Line::V27ter => (state + 2) % 8,
            Line::V32 => turn_state(mode, state),
        };
        for re in edges {
            for im in edges {
                let expected = match decide(mode, re, im) {
                    Decision::State { state, distance } => Decision::State {
                        state: quarter(state),
                        distance,
                    },
                    other => other,
                };
                assert_eq!(decide(mode, -im, re), expected);
            }
        }
    }
}

#[test]
fn only_the_origin_is_no_state() {
    let mut rng = Rng::new(1);
    for mode in &MODES {
        assert_eq!(decide(mode, 0, 0), Decision::Origin);
        for _ in 0..100_000 {
            let number = rng.next_u64();
            let (re, im) = (number as i16, (number >> 16) as i16);
            if let Some((state, _)) = decided(mode, re, im) {
                assert!(mode.has_state(state));
            } else {
                assert_eq!((re, im), (0, 0));
            }
        }
    }
}

/// Away from the edges, floating point angles decide alike.
#[test]
fn phase_decisions_agree_with_angles() {
    let mut rng = Rng::new(2);
    for mode in MODES.iter().filter(|mode| mode.number != 4) {
        for _ in 0..100_000 {
            let (re, im) = (rng.next_u64() as i16, rng.next_u64() as i16);
            let angle = f64::from(im).atan2(f64::from(re)).to_degrees();
            let within = f64::from(mode.step) / 2.0 - 0.001;
            let near = mode.states.iter().copied().find(|&state| {
                let Point { re, im } = sent(mode, state);
                let direction = f64::from(im).atan2(f64::from(re)).to_degrees();
                let apart = (angle - direction).rem_euclid(360.0);
                apart.min(360.0 - apart) < within
            });
            if near.is_some() {
                let decided = decided(mode, re, im).map(|(state, _)| state);
                assert_eq!(decided, near);
            }
        }
    }
}

/// The sectors that a point falls into.
fn sectors_of(re: i16, im: i16) -> Vec<u8> {
    let inside = sectors(re, im);
    (0..8).filter(|&k| inside[usize::from(k)]).collect()
}

/// (re + im)² and 2·re² are one apart: nearer to 22.5° no point comes. The last
/// of them within range is (13860, 5741).
#[test]
fn points_next_to_an_edge_fall_into_one_sector() {
    let (mut re, mut im, mut sector) = (1, 0, 0);
    while re <= 16384 {
        assert_eq!((re + im) * (re + im) - 2 * re * re, 2 * sector - 1);
        let (x, y, state) = (re as i16, im as i16, sector as u8);
        assert_eq!(sectors_of(x, y), [state]);
        assert_eq!(decided(&MODES[1], x, y).unwrap().0, state);
        // On the other side of 45°.
        assert_eq!(sectors_of(y, x), [2 - state]);
        (re, im, sector) = (2 * re + im, re, 1 - sector);
    }
    assert_eq!((re, im), (33461, 13860));
}

#[test]
fn the_origin_falls_into_no_sector() {
    assert_eq!(sectors_of(0, 0), []);
}

/// Also out of range.
#[test]
fn mode_2_decides_by_the_only_sector() {
    let mut rng = Rng::new(5);
    for _ in 0..1_000_000 {
        let number = rng.next_u64();
        let (re, im) = (number as i16, (number >> 16) as i16);
        let states = decided(&MODES[1], re, im).map(|(state, _)| state);
        assert_eq!(sectors_of(re, im), Vec::from_iter(states));
    }
}

#[test]
fn level_decisions_are_the_nearest_point() {
    let mut rng = Rng::new(3);
    let mode = &MODES[3];
    for _ in 0..100_000 {
        let (re, im) = (rng.between(-5000, 5000), rng.between(-5000, 5000));
        // Off the edges between levels there is one nearest point.
        if [re, im].iter().any(|v| v % 2048 == 0) {
            continue;
        }
        let (re, im) = (re as i16, im as i16);
        let distance = |state: u8| squared_distance(sent(mode, state), re, im);
        let nearest = (0..16).min_by_key(|&state| distance(state)).unwrap();
        assert_eq!(decided(mode, re, im), Some((nearest, distance(nearest))));
    }
}

#[test]
fn the_distance_is_that_to_the_decided_sent_point() {
    let mut rng = Rng::new(4);
    for mode in &MODES {
        for _ in 0..100_000 {
            let number = rng.next_u64();
            let (re, im) = (number as i16, (number >> 16) as i16);
            if let Some((state, distance)) = decided(mode, re, im) {
                assert_eq!(distance, squared_distance(sent(mode, state), re, im));
            }
        }
    }
}

/// Mode 2's edges are directions, and odd states are sent a little nearer the
/// origin: about it their points are nearer.
#[test]
fn the_decided_sent_point_need_not_be_the_nearest() {
    let mode = &MODES[1];
    assert_eq!(decided(mode, 1, 0), Some((0, 16_769_025)));
    assert_eq!(squared_distance(sent(mode, 1), 1, 0), 16_767_841);
}

#[test]
fn distances_of_points_in_range_and_beyond() {
    assert_eq!(decided(&MODES[0], 16384, 16384), Some((0, 419_430_400)));
    // 13312 from level 3 in either coordinate.
    let both = 2 * 13312 * 13312;
    assert_eq!(decided(&MODES[3], 16384, -16384), Some((0b0111, both)));
    // The furthest of any pair of numbers: 28672² + 32768².
    let most = 28672 * 28672 + 32768 * 32768;
    assert_eq!(decided(&MODES[0], i16::MIN, i16::MIN), Some((4, most)));
}

/// Over a grid and all along the border of the range.
#[test]
fn no_point_in_range_is_further_than_419430400() {
    let grid = || (-16384..=16384).step_by(128);
    let inside = grid().flat_map(|re| grid().map(move |im| (re, im)));
    let border = (-16384..=16384).flat_map(|x| [(16384, x), (-16384, x), (x, 16384), (x, -16384)]);
    for (re, im) in inside.chain(border) {
        for mode in &MODES {
            let distance = decided(mode, re, im).map_or(0, |(_, distance)| distance);
            assert!(distance <= 419_430_400, "{re} {im}");
        }
    }
}

#[test]
fn the_code_and_its_inverse_agree() {
    for mode in &MODES {
        for &reference in mode.states {
            let mut reached = Vec::new();
            for group in 0..1 << mode.width {
                let state = code::next_state(mode, reference, group);
                assert_eq!(code::group(mode, reference, state), group);
                reached.push(state);
            }
            reached.sort();
            assert_eq!(reached, mode.states);
        }
    }
}

/// points, states, decisions and code of the two modes with the guard are
/// those of the modes without.
#[test]
fn modes_5_and_6_are_modes_1_and_2_but_for_the_guard() {
    let mut rng = Rng::new(6);
    for (guarded, mode) in [(&MODES[4], &MODES[0]), (&MODES[5], &MODES[1])] {
        assert_eq!(guarded.unguarded, mode.number);
        assert_eq!((guarded.guard, mode.guard), (true, false));
        assert_eq!((guarded.register_length, mode.register_length), (12, 7));
        let kept = |mode: &Mode| {
            (
                mode.width,
                mode.step,
                mode.near_taps,
                mode.far_tap,
                mode.states,
            )
        };
        assert_eq!(kept(guarded), kept(mode));
        for _ in 0..10_000 {
            let number = rng.next_u64();
            let (re, im) = (number as i16, (number >> 16) as i16);
            assert_eq!(decide(guarded, re, im), decide(mode, re, im));
        }
        for &reference in mode.states {
            assert_eq!(sent(guarded, reference), sent(mode, reference));
            assert_eq!(turn_state(guarded, reference), turn_state(mode, reference));
            for group in 0..1 << mode.width {
                let state = code::next_state(mode, reference, group);
                assert_eq!(code::next_state(guarded, reference, group), state);
                assert_eq!(code::group(guarded, reference, state), group);
            }
        }
    }
}

#[test]
fn turning_both_states_keeps_the_group() {
    for mode in &MODES {
        for &reference in mode.states {
            for &state in mode.states {
                let turned = (turn_state(mode, reference), turn_state(mode, state));
                let group = code::group(mode, reference, state);
                assert_eq!(code::group(mode, turned.0, turned.1), group);
            }
        }
    }
}

#[test]
fn phase_changes_are_those_of_document_01() {
    let mode_1 = [("00", 0), ("01", 90), ("11", 180), ("10", 270)];
    let mode_2 = [
        ("001", 0),
        ("000", 45),
        ("010", 90),
        ("011", 135),
        ("111", 180),
        ("110", 225),
        ("100", 270),
        ("101", 315),
    ];
    let of_v27ter = MODES.iter().filter(|mode| mode.line == Line::V27ter);
    for mode in of_v27ter {
        let changes = [&mode_1[..], &mode_2[..]][mode.width as usize - 2];
        for &(bits, change) in changes {
            let group = u8::from_str_radix(bits, 2).unwrap();
            for &reference in mode.states {
                let turned = (45 * i32::from(reference) + change) % 360;
                let state = code::next_state(mode, reference, group);
                assert_eq!(45 * i32::from(state), turned);
            }
        }
    }
}

#[test]
fn quadrants_turn_as_document_01_says() {
    let ring = [0b00, 0b01, 0b11, 0b10];
    let quarters = [1, 0, 2, 3];
    for &(dibit, before, after) in &code::QUADRANT_CODE {
        let place = |quadrant| ring.iter().position(|&q| q == quadrant).unwrap();
        let turned = (place(before) + quarters[usize::from(dibit)]) % 4;
        assert_eq!(place(after), turned);
        let (from, to) = (4 * before + 0b01, 4 * after + 0b01);
        assert_eq!(code::next_state(&MODES[2], from, dibit), to);
    }
}

/// the turn from Q1 Q2 added to the place of Y1 Y2 in the ring.
#[test]
fn table_1_is_a_turn_added_to_a_place() {
    let ring = [0b00, 0b01, 0b11, 0b10];
    let turns = [1, 0, 2, 3];
    let place = |y: u8| ring.iter().position(|&other| other == y).unwrap();
    for (dibit, before, after) in code::QUADRANT_CODE {
        let turned = (turns[usize::from(dibit)] + place(before)) % 4;
        assert_eq!(ring[turned], after);
    }
}
