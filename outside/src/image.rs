//! Table 1 of V.32 in the bytes of a compiled file (R-4: it goes from the sender
//! and the receiver, whose image is short of constant space).
//!
//! The table is looked for whole and in parts, by rows and by columns, both ways
//! of the code, and in every width that a value may have.

use crate::code::QUADRANT_CODE;
use crate::object::{pieces, sections, Piece};

/// Bytes that a value may have.
const WIDTHS: [usize; 4] = [1, 2, 4, 8];
/// How many values side by side are a part of the table, where each has bytes of
/// its own; four are met by chance, but not as multiples in single bytes. Where
/// several share a byte only the whole table is told from chance.
const PART: usize = 5;
const PART_OF_MULTIPLES: usize = 4;
/// Bytes of a constant of a vector's size.
const CONSTANT: usize = 16;

/// A list of the table's values, and what it lists.
pub struct Rows {
    pub name: String,
    pub values: [u8; 16],
}

/// What stands in a file, and at which of the file's bytes.
#[derive(Debug, PartialEq)]
pub struct Found {
    pub what: String,
    pub at: usize,
}

/// The sixteen values in an order: a row's index is 4 times the first number of
/// the two that are given, plus the second.
fn ordered(index: impl Fn(u8, u8, u8) -> (u8, u8), value: impl Fn(u8, u8, u8) -> u8) -> [u8; 16] {
    let mut values = [0; 16];
    for (dibit, before, after) in QUADRANT_CODE {
        let (first, second) = index(dibit, before, after);
        values[usize::from(4 * first + second)] = value(dibit, before, after);
    }
    values
}

/// The table as sender and receiver may look it up: the values, four times each,
/// as they stand in a state or a group of four bits, and mode 3's states.
pub fn tables() -> Vec<Rows> {
    let orders = [
        (
            "after by dibit, before",
            ordered(|q, y, _| (q, y), |_, _, z| z),
        ),
        (
            "after by before, dibit",
            ordered(|q, y, _| (y, q), |_, _, z| z),
        ),
        (
            "dibit by before, after",
            ordered(|_, y, z| (y, z), |q, _, _| q),
        ),
        (
            "dibit by after, before",
            ordered(|_, y, z| (z, y), |q, _, _| q),
        ),
    ];
    let scales = [("", 1, 0), (", times 4", 4, 0), (", times 4 plus 1", 4, 1)];
    let mut tables = Vec::new();
    for (order, values) in orders {
        for (scale, factor, more) in scales {
            tables.push(Rows {
                name: format!("{order}{scale}"),
                values: values.map(|value| factor * value + more),
            });
        }
    }
    tables
}

/// Values of some bytes each, the lowest byte first.
fn wide(values: &[u8], width: usize) -> Vec<u8> {
    let mut bytes = Vec::new();
    for &value in values {
        bytes.push(value);
        bytes.resize(bytes.len() + width - 1, 0);
    }
    bytes
}

/// Values of some bits each as one number, the first value lowest.
fn packed(values: impl Iterator<Item = u8>, bits: u32) -> u64 {
    values.enumerate().fold(0, |sum, (k, value)| {
        sum | u64::from(value) << (bits * k as u32)
    })
}

/// The forms in which a table may stand: each with its name and its bytes.
pub fn forms(rows: &Rows) -> Vec<(String, Vec<u8>)> {
    let mut forms = Vec::new();
    let multiples = rows.values.iter().any(|&value| value > 3);
    for width in WIDTHS {
        let least = match width {
            1 if multiples => PART_OF_MULTIPLES,
            _ => PART,
        };
        for part in rows.values.windows(least) {
            forms.push((format!("{} in {width} bytes", rows.name), wide(part, width)));
        }
    }
    for bits in [2, 4] {
        if rows.values.iter().any(|&value| value >> bits != 0) {
            continue;
        }
        let values = || rows.values.into_iter();
        for number in [packed(values(), bits), packed(values().rev(), bits)] {
            let bytes = number.to_le_bytes()[..2 * bits as usize].to_vec();
            let name = format!("{} in {bits} bits", rows.name);
            forms.push((name.clone(), bytes.iter().rev().copied().collect()));
            forms.push((name, bytes));
        }
    }
    forms
}

/// Where in the file some bytes first stand in a piece.
fn place(piece: &Piece, bytes: &[u8]) -> Option<usize> {
    let mut windows = piece.bytes.windows(bytes.len());
    Some(piece.at + windows.position(|window| window == bytes)?)
}

/// Everything of the table that stands in a file, in one piece of it: what is beside
/// it in the file alone is not in the image. A form that is longer than a constant of
/// a vector's size would be several, and is looked for in the whole section.
pub fn search(file: &[u8]) -> Vec<Found> {
    let (pieces, sections) = (pieces(file), sections(file));
    let mut found = Vec::new();
    for rows in tables() {
        for (what, bytes) in forms(&rows) {
            let within = if bytes.len() > CONSTANT {
                &sections
            } else {
                &pieces
            };
            if let Some(at) = within.iter().find_map(|piece| place(piece, &bytes)) {
                found.push(Found { what, at });
            }
        }
    }
    found
}
