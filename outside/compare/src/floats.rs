//! Coordinates in levels: those that show how a number is rounded and refused,
//! and random ones.

use outside::point::LARGEST_COORDINATE;
use outside::reading;
use outside::rng::Rng;

const SIGN: u32 = 1 << 31;
/// The bits of the digits behind the first, and of an exponent of all ones,
/// which infinities and NaNs have.
const DIGITS: u32 = (1 << 23) - 1;
const NOT_FINITE: u32 = 255 << 23;
/// The last n of the ties n + 1/2, and of the whole numbers: one beyond range.
const LAST: i32 = LARGEST_COORDINATE as i32 + 1;

/// So many units in levels, exact for whole numbers and halves up to 2^23.
pub fn of_units(units: f64) -> f32 {
    (units / 1024.0) as f32
}

/// A number, the one before it and the one after it.
fn around(level: f32) -> [f32; 3] {
    [level.next_down(), level, level.next_up()]
}

fn both_signs(levels: impl Iterator<Item = f32>) -> Vec<f32> {
    levels.flat_map(|level| [level, -level]).collect()
}

/// Every exponent, those of subnormals, infinities and NaNs too, with digits at
/// both ends, about the middle and random, of both signs.
pub fn of_every_exponent(rng: &mut Rng) -> Vec<f32> {
    let middle = 1 << 22;
    let edges = [0, 1, 2, middle - 1, middle, middle + 1, DIGITS - 1, DIGITS];
    let mut levels = Vec::new();
    for exponent in 0..=255u32 {
        let random = [(); 8].map(|()| rng.next_u64() as u32 & DIGITS);
        let digits = edges.into_iter().chain(random);
        levels.extend(digits.map(|digits| f32::from_bits(exponent << 23 | digits)));
    }
    both_signs(levels.into_iter())
}

/// Infinities, and NaNs with each digit alone, quiet or not, and with random
/// digits, of both signs.
pub fn not_finite(rng: &mut Rng) -> Vec<f32> {
    let alone = (0..23).map(|bit| 1 << bit);
    let quiet = (0..22).map(|bit| 1 << 22 | 1 << bit);
    let random = (0..200).map(|_| rng.next_u64() as u32 & DIGITS);
    let digits = [0, DIGITS].into_iter().chain(alone).chain(quiet);
    both_signs(
        digits
            .chain(random)
            .map(|bits| f32::from_bits(NOT_FINITE | bits)),
    )
}

/// Subnormals with each digit alone and random ones, of both signs, and zeros.
pub fn subnormal(rng: &mut Rng) -> Vec<f32> {
    let alone = (0..23).map(|bit| 1 << bit);
    let random = (0..200).map(|_| rng.next_u64() as u32 & DIGITS);
    let digits = [0, DIGITS].into_iter().chain(alone).chain(random);
    both_signs(digits.map(f32::from_bits))
}

/// Each tie in range and one beyond, with the numbers beside it, of both signs.
pub fn ties() -> Vec<f32> {
    let ties = (0..=LAST).map(|n| of_units(f64::from(n) + 0.5));
    both_signs(ties.flat_map(around))
}

/// Each whole number of units, likewise.
pub fn wholes() -> Vec<f32> {
    let wholes = (0..=LAST).map(|n| of_units(f64::from(n)));
    both_signs(wholes.flat_map(around))
}

/// Numbers at which the outcome changes, to be met in pairs: about the origin,
/// about level edges and sent points, at the ends of the range, beyond it where
/// fewer bits would wrap into range, and what is not finite.
pub fn edges() -> Vec<f32> {
    let units = [
        0.0, 0.5, 1.0, 1.5, 414.5, 1024.0, 2047.5, 2048.0, 4096.0, 16383.5, 16384.0, 16384.5,
    ];
    let beyond = [
        16385.0,
        32767.5,
        65536.0,
        65537.0,
        4294967296.0,
        2f64.powi(64),
    ];
    let beyond = beyond.map(of_units).into_iter();
    let most = [
        f32::MAX,
        f32::INFINITY,
        f32::NAN,
        f32::from_bits(NOT_FINITE | 1),
    ];
    let about = units.into_iter().flat_map(|units| around(of_units(units)));
    both_signs(about.chain(beyond).chain(most))
}

/// Any bits.
pub fn random(rng: &mut Rng) -> f32 {
    f32::from_bits(rng.next_u64() as u32)
}

/// A float that rounds to a number of units, with random digits to the last.
pub fn rounding_to(rng: &mut Rng, units: i16) -> f32 {
    // A little less than half a unit in steps of 2^-20, so that rounding to a
    // float reaches no tie.
    let off = rng.between(-511_000, 511_000) as f64 / 1_048_576.0;
    of_units(f64::from(units) + off)
}

/// A number of units anywhere in range, or near the origin, with any size down
/// to the smallest, or about a tie.
pub fn in_range(rng: &mut Rng) -> f32 {
    let largest = i64::from(LARGEST_COORDINATE);
    match rng.below(5) {
        0 => {
            let units = rng.between(-largest, largest) as i16;
            rounding_to(rng, units)
        }
        1 => of_units(rng.between(-3_000_000, 3_000_000) as f64 / 1_000_000.0),
        2 => {
            // Below 2^4 in size.
            let exponent = rng.below(131) as u32;
            let bits = rng.next_u64() as u32;
            f32::from_bits(bits & (SIGN | DIGITS) | exponent << 23)
        }
        3 => {
            let tie = of_units(rng.between(-largest, largest - 1) as f64 + 0.5);
            rng.pick(&around(tie))
        }
        _ => {
            let most = 16384.5 / 16_777_216.0;
            of_units(rng.between(-16_777_216, 16_777_216) as f64 * most)
        }
    }
}

/// A finite number that rounds beyond 16384: the next one, one that fewer bits
/// would wrap into range, or any.
pub fn out_of_range(rng: &mut Rng) -> f32 {
    let size = match rng.below(5) {
        0 => of_units(16384.5).next_up(),
        1 => of_units(rng.between(16385, 32768) as f64),
        2 => {
            let wrapped = 2f64.powi(rng.between(16, 40) as i32);
            of_units(wrapped + rng.between(-16384, 16384) as f64)
        }
        3 => f32::MAX,
        _ => f32::from_bits((rng.between(132, 254) as u32) << 23 | rng.next_u64() as u32 & DIGITS),
    };
    if rng.below(2) == 0 {
        size
    } else {
        -size
    }
}

/// An infinity or a NaN.
pub fn random_not_finite(rng: &mut Rng) -> f32 {
    let digits = match rng.below(3) {
        0 => 0,
        1 => 1 << rng.below(23),
        _ => rng.next_u64() as u32 & DIGITS,
    };
    let sign = rng.next_u64() as u32 & SIGN;
    f32::from_bits(sign | NOT_FINITE | digits)
}

/// The units of a finite number, those that an i16 does not hold cut off at its
/// ends, which are out of range too; none for one that is not finite.
pub fn units(level: f32) -> Option<i16> {
    let held = |units: i64| units.clamp(i16::MIN.into(), i16::MAX.into()) as i16;
    level.is_finite().then(|| held(reading::units(level)))
}
