//! Random points: near decision edges, near sent points, and anywhere in range.

use outside::mode::Mode;
use outside::point::{self, Point};
use outside::reading::Levels;
use outside::rng::Rng;

/// The least size of a coordinate on an edge of mode 4.
const LEVEL_EDGE: i64 = 2048;

/// Points at which a mode's decision changes, so far along each of its edges; the
/// others are their turns.
pub fn edges(mode: &Mode, along: i64) -> Vec<(i64, i64)> {
    // tan 22.5° is 0.41421356.
    let less = along * 41_421_356 / 100_000_000;
    match mode.unguarded {
        1 => vec![(along, along)],
        2 => vec![(along, less), (less, along)],
        3 => vec![(along, 2 * along)],
        _ => vec![(along, 0), (LEVEL_EDGE, along), (along, LEVEL_EDGE)],
    }
}

/// A point turned by so many times 90°.
pub fn turned((re, im): (i64, i64), quarters: u64) -> (i64, i64) {
    (0..quarters).fold((re, im), |(re, im), _| (-im, re))
}

fn near((re, im): (i64, i64), rng: &mut Rng, noise: i64) -> Point {
    let mut moved = |x: i64| (x + rng.between(-noise, noise)).clamp(-16384, 16384) as i16;
    Point {
        re: moved(re),
        im: moved(im),
    }
}

/// A point in range.
pub fn in_range(rng: &mut Rng, mode: &Mode) -> Point {
    match rng.below(4) {
        0 => {
            let quarters = rng.below(4);
            let edges = edges(mode, rng.between(0, 8190));
            near(turned(rng.pick(&edges), quarters), rng, 2)
        }
        1 => {
            let sent = point::sent(mode, rng.pick(mode.states));
            near((i64::from(sent.re), i64::from(sent.im)), rng, 900)
        }
        2 => near((0, 0), rng, 1),
        _ => near((0, 0), rng, 16384),
    }
}

/// A point with a coordinate out of range.
pub fn out_of_range(rng: &mut Rng) -> Point {
    let far = match rng.below(4) {
        0 => 16385,
        1 => -16385,
        2 => i16::MIN,
        _ => rng.between(16385, 32767) as i16,
    };
    let other = rng.between(-32768, 32767) as i16;
    if rng.below(2) == 0 {
        Point { re: far, im: other }
    } else {
        Point { re: other, im: far }
    }
}

/// The numbers of some points, re and im in turn.
pub fn flat(points: &[Point]) -> Vec<i16> {
    points
        .iter()
        .flat_map(|point| [point.re, point.im])
        .collect()
}

/// The coordinates of some points in levels, re and im in turn.
pub fn flat_levels(points: &[Levels]) -> Vec<f32> {
    points
        .iter()
        .flat_map(|point| [point.re, point.im])
        .collect()
}
