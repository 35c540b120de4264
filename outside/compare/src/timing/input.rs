//! What the rows are given.

use outside::code;
use outside::mode::Mode;
use outside::patterns;
use outside::point::{self, Point};
use outside::reading::Levels;
use outside::rng::Rng;
use outside::sender::Sender;

use crate::bits::number_of;
use crate::{floats, points};

const ORIGIN: Point = Point { re: 0, im: 0 };
/// One point in so many is at the origin where there are any.
const ORIGINS: u64 = 64;
/// The greatest noise of a sent point's coordinate.
const NOISE: i64 = 300;
/// Line bits that the guard counts over if they repeat: it fires at every 34th.
const PATTERN: [u8; 8] = [1, 0, 0, 1, 1, 1, 0, 0];

/// Random points of a mode, none of them the origin: near decision edges, near
/// sent points, and anywhere in range.
pub fn random(mode: &Mode, count: usize) -> Vec<Point> {
    let mut rng = Rng::new(u64::from(mode.number));
    let any = std::iter::from_fn(|| Some(points::in_range(&mut rng, mode)));
    any.filter(|&point| point != ORIGIN).take(count).collect()
}

/// Sent points with noise, as on a line.
pub fn noisy(mode: &Mode, count: usize) -> Vec<Point> {
    let mut rng = Rng::new(u64::from(mode.number));
    let mut one = |_| {
        let sent = point::sent(mode, rng.pick(mode.states));
        let mut moved = |x: i16| x + rng.between(-NOISE, NOISE) as i16;
        Point {
            re: moved(sent.re),
            im: moved(sent.im),
        }
    };
    (0..count).map(&mut one).collect()
}

/// Random points, one in 64 at the origin.
pub fn with_origins(mode: &Mode, count: usize) -> Vec<Point> {
    let mut rng = Rng::new(9);
    let mut points = random(mode, count);
    for point in &mut points {
        if rng.below(ORIGINS) == 0 {
            *point = ORIGIN;
        }
    }
    points
}

fn repeated(bits: usize) -> Vec<u8> {
    PATTERN.into_iter().cycle().take(bits).collect()
}

/// Sent points of a line that repeats.
pub fn repeating(mode: &Mode, count: usize) -> Vec<Point> {
    let width = mode.width as usize;
    let mut state = mode.states[0];
    let line = repeated(count * width);
    let points = line.chunks(width).map(|bits| {
        state = code::next_state(mode, state, number_of(bits));
        point::sent(mode, state)
    });
    points.collect()
}

/// Data for which a sender's line repeats.
pub fn repeating_data(start: &Sender, bits: usize) -> Vec<u8> {
    patterns::data_for(start, &repeated(bits))
}

/// Points in levels that are rounded to these, with random digits to the last.
pub fn in_levels(points: &[Point]) -> Vec<Levels> {
    let mut rng = Rng::new(11);
    let mut one = |point: &Point| {
        let [re, im] = [point.re, point.im].map(|units| floats::rounding_to(&mut rng, units));
        Levels { re, im }
    };
    points.iter().map(&mut one).collect()
}
