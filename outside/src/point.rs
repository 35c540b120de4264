//! Sent points, turns, and deciding a received point (document 01, "Modes,
//! states, turns" and "Deciding a point"; document 02, R-1).

use crate::mode::{Line, Mode, C};
use crate::units::SquaredUnits;

/// A received or sent point, 1024 to one level.
#[derive(Clone, Copy, PartialEq, Eq, Hash, Debug)]
pub struct Point {
    pub re: i16,
    pub im: i16,
}

/// The greatest size of a coordinate.
pub const LARGEST_COORDINATE: i16 = 16384;

impl Point {
    /// Whether both coordinates lie from −16384 to 16384.
    pub fn in_range(self) -> bool {
        let range = -LARGEST_COORDINATE..=LARGEST_COORDINATE;
        range.contains(&self.re) && range.contains(&self.im)
    }
}

/// Sent points of V.27 ter, state s at 45° times s.
pub const V27TER_POINTS: [Point; 8] = [
    at(4096, 0),
    at(2896, 2896),
    at(0, 4096),
    at(-2896, 2896),
    at(-4096, 0),
    at(-2896, -2896),
    at(0, -4096),
    at(2896, -2896),
];

/// Sent points of V.32 by state Y1 Y2 Q3 Q4 (V.32, table 3, uncoded).
pub const V32_POINTS: [Point; 16] = [
    levels(-1, -1),
    levels(-3, -1),
    levels(-1, -3),
    levels(-3, -3),
    levels(1, -1),
    levels(1, -3),
    levels(3, -1),
    levels(3, -3),
    levels(-1, 1),
    levels(-1, 3),
    levels(-3, 1),
    levels(-3, 3),
    levels(1, 1),
    levels(3, 1),
    levels(1, 3),
    levels(3, 3),
];

const fn at(re: i16, im: i16) -> Point {
    Point { re, im }
}

/// The point at a pair of levels.
const fn levels(re: i16, im: i16) -> Point {
    at(1024 * re, 1024 * im)
}

/// Each V.32 state turned by 0, 1, 2 and 3 times 90°.
const V32_TURNED: [[u8; 16]; 4] = v32_turned();

/// A turn by 90° takes a state to the one sent at its turned point.
const fn v32_turned() -> [[u8; 16]; 4] {
    let mut turned = [[0; 16]; 4];
    let mut from = 0;
    while from < 16 {
        let Point { mut re, mut im } = V32_POINTS[from];
        let mut quarters = 0;
        while quarters < 4 {
            turned[quarters][from] = v32_sent_at(re, im);
            (re, im) = (-im, re);
            quarters += 1;
        }
        from += 1;
    }
    turned
}

/// The V.32 state sent at a point of the constellation.
const fn v32_sent_at(re: i16, im: i16) -> u8 {
    let mut state = 0;
    while V32_POINTS[state].re != re || V32_POINTS[state].im != im {
        state += 1;
    }
    state as u8
}

/// The point at which a state is sent.
pub fn sent(mode: &Mode, state: u8) -> Point {
    match mode.line {
        Line::V27ter => V27TER_POINTS[usize::from(state % 8)],
        Line::V32 => V32_POINTS[usize::from(state % 16)],
    }
}

/// The squared distance from a received point to the point at which a state is
/// sent. It fits any pair of numbers, in range or not: no coordinate of a sent
/// point is greater than 4096, so that none is more than 36864 apart.
pub fn distance(mode: &Mode, state: u8, received: Point) -> SquaredUnits {
    let sent = sent(mode, state);
    let squared = |x: i16, y: i16| (i64::from(x) - i64::from(y)).pow(2);
    let sum = squared(received.re, sent.re) + squared(received.im, sent.im);
    SquaredUnits(sum as u32)
}

/// The state after one step of the mode.
pub fn turn_state(mode: &Mode, state: u8) -> u8 {
    match mode.line {
        Line::V27ter => (state % 8 + (mode.step / 45) as u8) % 8,
        Line::V32 => turn_state_by_quarters(mode, state, 1),
    }
}

/// The state after a number of turns of 90°.
fn turn_state_by_quarters(mode: &Mode, state: u8, quarters: usize) -> u8 {
    match mode.line {
        Line::V27ter => (state % 8 + 2 * (quarters % 4) as u8) % 8,
        Line::V32 => V32_TURNED[quarters % 4][usize::from(state % 16)],
    }
}

/// What a point is decided to be.
#[derive(Clone, Copy, PartialEq, Eq, Debug)]
pub enum Decision {
    /// The origin: a gap of one interval.
    Origin,
    /// A state, and how far the point lies from its sent point. In mode 2 that
    /// is not always the nearest one: its edges are directions, and odd states
    /// are sent a little nearer the origin.
    State { state: u8, distance: SquaredUnits },
}

/// Decides any pair of numbers, in range or not.
///
/// The rules are given for one region of the plane; its turns by 90° make up
/// the rest. So the point is turned back into that region, and the state found
/// there is turned forth as often.
// In line, so that state and distance are not joined into one word to be handed
// back and taken apart again.
#[inline(always)]
pub fn decide(mode: &Mode, re: i16, im: i16) -> Decision {
    if re == 0 && im == 0 {
        return Decision::Origin;
    }
    let received = Point { re, im };
    let (re, im) = (i64::from(re), i64::from(im));
    // Just one of the four turns is in the first region. Testing all of them
    // takes no branch that depends on the point.
    let in_first = |re, im| usize::from(in_first_region(mode, re, im));
    let quarters = in_first(im, -re) + 2 * in_first(-re, -im) + 3 * in_first(-im, re);
    let (re, im) = [(re, im), (im, -re), (-re, -im), (-im, re)][quarters % 4];
    let state = state_in_first_region(mode, re, im);
    let state = turn_state_by_quarters(mode, state, quarters);
    let distance = distance(mode, state, received);
    Decision::State { state, distance }
}

/// Whether a point is in the region that the mode's rule is given for.
fn in_first_region(mode: &Mode, re: i64, im: i64) -> bool {
    match (mode.line, mode.width) {
        // More than −45° and at most +45° from the direction of state 0.
        (Line::V27ter, 2) => (-re < im) & (im <= re),
        (Line::V27ter, _) => (im >= 0) & (re > 0),
        // More than −45° and at most +45° from the direction of C.
        (Line::V32, 2) => {
            let (p, q) = (3 * re + im, 3 * im - re);
            (-p < q) & (q <= p)
        }
        // Quadrant I.
        (Line::V32, _) => (re >= 0) & (im > 0),
    }
}

/// The state of a point in the first region.
fn state_in_first_region(mode: &Mode, re: i64, im: i64) -> u8 {
    match (mode.line, mode.width) {
        (Line::V27ter, 2) => 0,
        (Line::V27ter, _) => eighth(re, im),
        (Line::V32, 2) => C,
        // Level 3 from 2048 on: 1100 (1, 1), 1101 (3, 1), 1110 (1, 3), 1111 (3, 3).
        (Line::V32, _) => 0b1100 + 2 * u8::from(im >= 2048) + u8::from(re >= 2048),
    }
}

/// The mode 2 state within 22.5° of a point with re > 0 and im ≥ 0.
fn eighth(re: i64, im: i64) -> u8 {
    let square = (re + im) * (re + im);
    if square < 2 * re * re {
        0
    } else if square < 2 * im * im {
        2
    } else {
        1
    }
}

/// The directions of the eight mode 2 states, 0° to 315°.
const DIRECTIONS: [(i64, i64); 8] = [
    (1, 0),
    (1, 1),
    (0, 1),
    (-1, 1),
    (-1, 0),
    (-1, -1),
    (0, -1),
    (1, -1),
];

/// Whether a point lies in the sector of each mode 2 state (document 02, R-5):
/// less than 22.5° from the state's direction, to either side. Deciding does not
/// use this; it is what deciding is held against.
pub fn sectors(re: i16, im: i16) -> [bool; 8] {
    let (re, im) = (i64::from(re), i64::from(im));
    DIRECTIONS.map(|(x, y)| {
        let along = x * re + y * im;
        let across = (x * im - y * re).abs();
        // The tangent of 22.5° is the root of 2, less 1.
        let both = along + across;
        (along > 0) & (both * both < 2 * along * along)
    })
}
