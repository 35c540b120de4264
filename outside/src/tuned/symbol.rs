//! Symbols: decided points in a form that coding takes without a table.
//!
//! A symbol has in its lowest bits how often the first state is turned, by 90°,
//! in mode 2 by 45°; in mode 4 its bits 2 and 3 are Q4 and Q3. Nothing here
//! branches on a point, so that a loop over points takes several at once.

use crate::mode::{Line, Mode, A, B, C, D, MODES};
use crate::point::{Point, V27TER_POINTS, V32_POINTS};

/// The parameters of a mode.
pub const fn mode(number: u8) -> &'static Mode {
    &MODES[number as usize - 1]
}

/// The mode without a guard whose symbols a mode has.
const fn unguarded(number: u8) -> u8 {
    mode(number).unguarded
}

/// The bit that marks a point at the origin, which has no symbol.
pub const ORIGIN: u8 = 0x80;

/// Mode 4: quadrants I to IV, with 00 for Q3 Q4.
const QUADRANTS: [u8; 4] = [0b1100, 0b1000, 0b0000, 0b0100];
/// Mode 4: the least size of a coordinate at level 3.
const LEVEL_3: u16 = 2048;

/// The symbol of a point in range, or the mark of the origin.
#[inline(always)]
pub fn decide<const MODE: u8>(re: i16, im: i16) -> u8 {
    let origin = u16::from((re | im) == 0) << 7;
    let symbol = match unguarded(MODE) {
        1 => quarter(re.saturating_add(im), im.saturating_sub(re)),
        2 => eighth(re, im),
        // With p and q of document 01, these are half of p + q and of q − p.
        3 => {
            let (re_2, im_2) = (re.saturating_add(re), im.saturating_add(im));
            quarter(re.saturating_add(im_2), im.saturating_sub(re_2))
        }
        _ => {
            let turns = quarter(im, -re);
            let (a, b) = (level(re), level(im));
            // An odd number of turns exchanges the two coordinates.
            let exchanged = (a ^ b) & turns & 1;
            turns | (a ^ exchanged) << 2 | (b ^ exchanged) << 3
        }
    };
    (symbol | origin) as u8
}

/// How often u > 0, v ≤ 0 is turned by 90° to hold (u, v): then come u ≥ 0,
/// v > 0, and u < 0, v ≥ 0, and u ≤ 0, v < 0. Just the signs of u and v count,
/// so that sums may have been cut off at the ends of their range.
#[inline(always)]
fn quarter(u: i16, v: i16) -> u16 {
    let second_half = u16::from((u < 0) | ((u == 0) & (v < 0)));
    let middle = u16::from((v > 0) | ((v == 0) & (u < 0)));
    2 * second_half + (second_half ^ middle)
}

/// How often the sector of 0° is turned by 45° to hold a point. The point's
/// square has twice its angle: its quarter is the sector, up to a half turn.
#[inline(always)]
fn eighth(re: i16, im: i16) -> u16 {
    let (x, y) = (i32::from(re), i32::from(im));
    let (square_re, square_im) = (x * x - y * y, 2 * x * y);
    let second_half = u16::from(square_re + square_im < 0);
    let middle = u16::from(square_im > square_re);
    let turns = 2 * second_half + (second_half ^ middle);
    let side = mask(second_half == 0);
    let half_turn = u16::from((re & side | im & !side) < 0);
    turns + 4 * half_turn
}

/// Whether a coordinate is at level 3.
#[inline(always)]
fn level(coordinate: i16) -> u16 {
    u16::from(coordinate.unsigned_abs() >= LEVEL_3)
}

/// How far a point in range lies from the sent point of its symbol, in each of
/// the two coordinates: up to turns and signs, which the squares do not show, so
/// that no sent point is looked up. Nothing at the origin.
#[inline(always)]
pub fn apart<const MODE: u8>(re: i16, im: i16, symbol: u8) -> (i16, i16) {
    let (a, b) = (re.wrapping_abs(), im.wrapping_abs());
    let (greater, lesser) = (a.max(b), a.min(b));
    let (odd, half) = (mask(symbol & 1 != 0), mask(symbol & 2 != 0));
    let (x, y) = match unguarded(MODE) {
        1 => (greater - 4096, lesser),
        // Odd states are sent at (2896, 2896), up to signs.
        2 => (greater - 4096 + (odd & 1200), lesser - (odd & 2896)),
        // From C's point, or from A's where the state has a half turn more.
        3 => {
            let (x, y) = if odd == 0 { (re, im) } else { (im, -re) };
            (x - 3072 + (half & 6144), y - 1024 + (half & 2048))
        }
        _ => (off_level(a), off_level(b)),
    };
    let kept = mask((re | im) != 0);
    (x & kept, y & kept)
}

/// All ones or none.
#[inline(always)]
fn mask(all: bool) -> i16 {
    -i16::from(all)
}

/// How far a coordinate of this size lies from its level.
#[inline(always)]
fn off_level(size: i16) -> i16 {
    size - 1024 - (mask(size >= LEVEL_3 as i16) & 2048)
}

/// The squared distance of a point that is so far from another.
#[inline(always)]
pub fn squared((x, y): (i16, i16)) -> u32 {
    (i32::from(x) * i32::from(x) + i32::from(y) * i32::from(y)) as u32
}

/// The bits of a symbol that are its turns, of which a full turn has 4 or 8.
pub const fn turns_mask<const MODE: u8>() -> u8 {
    (360 / mode(MODE).step - 1) as u8
}

/// The line bits of a symbol after another. Both differential codes count the
/// turns between them in Gray code; all but mode 1's invert the last bit.
#[inline(always)]
pub const fn group<const MODE: u8>(before: u8, symbol: u8) -> u8 {
    let turns = symbol.wrapping_sub(before) & turns_mask::<MODE>();
    let gray = turns ^ (turns >> 1);
    match unguarded(MODE) {
        1 => gray,
        2 | 3 => gray ^ 1,
        _ => 4 * (gray ^ 1) + (symbol >> 2 & 3),
    }
}

/// The state that a symbol stands for.
pub const fn state<const MODE: u8>(symbol: u8) -> u8 {
    match unguarded(MODE) {
        1 => 2 * symbol,
        2 => symbol,
        3 => [C, D, A, B][(symbol % 4) as usize],
        _ => QUADRANTS[(symbol % 4) as usize] + (symbol >> 2 & 3),
    }
}

/// The point at which a symbol is sent.
pub const fn sent<const MODE: u8>(symbol: u8) -> Point {
    let state = state::<MODE>(symbol) as usize;
    match mode(MODE).line {
        Line::V27ter => V27TER_POINTS[state % 8],
        Line::V32 => V32_POINTS[state],
    }
}

/// The symbol of a state of the mode.
pub fn of_state<const MODE: u8>(state: u8) -> u8 {
    match unguarded(MODE) {
        1 => state / 2,
        2 => state,
        // The quadrants of C, D, A and B are I to IV too.
        _ => {
            let turns = [2, 3, 1, 0][usize::from(state >> 2 & 3)];
            let levels = if MODE == 3 { 0 } else { state & 3 };
            turns | levels << 2
        }
    }
}
