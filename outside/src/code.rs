//! The differential code, both ways (document 01, "Differential code").
//!
//! A group is a number of w bits, the first bit in time highest.

use crate::mode::{Line, Mode};

/// V.27 ter, table 2: dibit and phase change in degrees.
pub const DIBIT_CHANGES: [(u8, u16); 4] = [(0b00, 0), (0b01, 90), (0b11, 180), (0b10, 270)];

/// V.27 ter, table 1: tribit and phase change in degrees.
pub const TRIBIT_CHANGES: [(u8, u16); 8] = [
    (0b001, 0),
    (0b000, 45),
    (0b010, 90),
    (0b011, 135),
    (0b111, 180),
    (0b110, 225),
    (0b100, 270),
    (0b101, 315),
];

/// V.32, table 1: Q1 Q2, Y1 Y2 before, Y1 Y2 after.
pub const QUADRANT_CODE: [(u8, u8, u8); 16] = [
    (0b00, 0b00, 0b01),
    (0b00, 0b01, 0b11),
    (0b00, 0b10, 0b00),
    (0b00, 0b11, 0b10),
    (0b01, 0b00, 0b00),
    (0b01, 0b01, 0b01),
    (0b01, 0b10, 0b10),
    (0b01, 0b11, 0b11),
    (0b10, 0b00, 0b11),
    (0b10, 0b01, 0b10),
    (0b10, 0b10, 0b01),
    (0b10, 0b11, 0b00),
    (0b11, 0b00, 0b10),
    (0b11, 0b01, 0b00),
    (0b11, 0b10, 0b11),
    (0b11, 0b11, 0b01),
];

// The tables above, indexed by what a lookup starts from. A change is counted
// in steps of 45°, as V.27 ter states are.
const CHANGE_OF_DIBIT: [u8; 8] = change_of_group(&DIBIT_CHANGES);
const CHANGE_OF_TRIBIT: [u8; 8] = change_of_group(&TRIBIT_CHANGES);
const DIBIT_OF_CHANGE: [u8; 8] = group_of_change(&DIBIT_CHANGES);
const TRIBIT_OF_CHANGE: [u8; 8] = group_of_change(&TRIBIT_CHANGES);
/// Y1 Y2 after, at 4 times Q1 Q2 plus Y1 Y2 before.
const QUADRANT_AFTER: [u8; 16] = quadrant_code(false);
/// Q1 Q2, at 4 times Y1 Y2 before plus Y1 Y2 after.
const QUADRANT_DIBIT: [u8; 16] = quadrant_code(true);

const fn change_of_group(rows: &[(u8, u16)]) -> [u8; 8] {
    let mut changes = [0; 8];
    let mut k = 0;
    while k < rows.len() {
        changes[rows[k].0 as usize] = (rows[k].1 / 45) as u8;
        k += 1;
    }
    changes
}

const fn group_of_change(rows: &[(u8, u16)]) -> [u8; 8] {
    let mut groups = [0; 8];
    let mut k = 0;
    while k < rows.len() {
        groups[(rows[k].1 / 45) as usize] = rows[k].0;
        k += 1;
    }
    groups
}

const fn quadrant_code(receiving: bool) -> [u8; 16] {
    let mut found = [0; 16];
    let mut k = 0;
    while k < QUADRANT_CODE.len() {
        let (dibit, before, after) = QUADRANT_CODE[k];
        if receiving {
            found[(4 * before + after) as usize] = dibit;
        } else {
            found[(4 * dibit + before) as usize] = after;
        }
        k += 1;
    }
    found
}

/// The state that a group gives after a reference state.
pub fn next_state(mode: &Mode, reference: u8, group: u8) -> u8 {
    match (mode.line, mode.width) {
        (Line::V27ter, 2) => (reference % 8 + CHANGE_OF_DIBIT[usize::from(group % 4)]) % 8,
        (Line::V27ter, _) => (reference % 8 + CHANGE_OF_TRIBIT[usize::from(group % 8)]) % 8,
        // States of mode 3 all have 01 for Q3 Q4 (V.32, figure 1).
        (Line::V32, 2) => 4 * quadrant_after(reference, group % 4) + 0b01,
        (Line::V32, _) => 4 * quadrant_after(reference, group / 4 % 4) + group % 4,
    }
}

/// The group that gives a state after a reference state.
pub fn group(mode: &Mode, reference: u8, state: u8) -> u8 {
    let change = usize::from((8 + state % 8 - reference % 8) % 8);
    match (mode.line, mode.width) {
        (Line::V27ter, 2) => DIBIT_OF_CHANGE[change],
        (Line::V27ter, _) => TRIBIT_OF_CHANGE[change],
        (Line::V32, 2) => quadrant_dibit(reference, state),
        (Line::V32, _) => 4 * quadrant_dibit(reference, state) + state % 4,
    }
}

fn quadrant_after(reference: u8, dibit: u8) -> u8 {
    QUADRANT_AFTER[usize::from(4 * dibit + reference / 4 % 4)]
}

fn quadrant_dibit(reference: u8, state: u8) -> u8 {
    QUADRANT_DIBIT[usize::from(4 * (reference / 4 % 4) + state / 4 % 4)]
}
