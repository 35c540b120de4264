//! Readings in single precision (document 02, R-3).

use crate::point::{Point, LARGEST_COORDINATE};
use crate::refusal::{need, Refusal};

/// What the demodulator hands over.
#[derive(Clone, Copy, PartialEq, Debug)]
pub enum Reading {
    /// A point.
    Point(Levels),
    /// A squelched interval and its power: a gap of one interval.
    Squelch { power: f32 },
    /// A hole and its count of intervals: a gap of that count.
    Hole { intervals: u32 },
}

/// A point's coordinates in levels.
#[derive(Clone, Copy, PartialEq, Debug)]
pub struct Levels {
    pub re: f32,
    pub im: f32,
}

impl Levels {
    /// The point turned by 90°.
    pub fn turned(self) -> Levels {
        Levels {
            re: -self.im,
            im: self.re,
        }
    }

    /// The point in units. Refuses by 18 and 8.
    pub fn rounded(self) -> Result<Point, Refusal> {
        let Levels { re, im } = self;
        need(re.is_finite() && im.is_finite(), Refusal::NOT_FINITE)?;
        match (coordinate(re), coordinate(im)) {
            (Some(re), Some(im)) => Ok(Point { re, im }),
            _ => Err(Refusal::COORDINATE),
        }
    }
}

/// Units in one level.
const UNITS: f64 = 1024.0;

/// The whole number nearest 1024 times a finite coordinate in levels, ties to
/// even. A size that an i64 does not hold becomes the greatest that it holds.
///
/// Nothing here is rounded by the way: f64 holds every f32 and 1024 times it,
/// and what a size has behind its whole part has no digit that the size has not.
pub fn units(level: f32) -> i64 {
    let size = UNITS * f64::from(level).abs();
    let whole = size as i64;
    let rest = size - whole as f64;
    let up = (rest > 0.5) | ((rest == 0.5) & (whole % 2 == 1));
    let nearest = whole.saturating_add(i64::from(up));
    if level < 0.0 {
        -nearest
    } else {
        nearest
    }
}

/// The units of a finite coordinate, if they are in range.
pub fn coordinate(level: f32) -> Option<i16> {
    let units = i16::try_from(units(level)).ok()?;
    let range = -LARGEST_COORDINATE..=LARGEST_COORDINATE;
    range.contains(&units).then_some(units)
}
