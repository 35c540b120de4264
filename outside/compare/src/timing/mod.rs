//! Times of the proved library, of the plain implementation and of the tuned
//! one: what a run does (`once`), and the tables of several runs (`table`).

pub mod table;

mod growing;
mod input;
mod measure;
mod receiving;
mod sending;
mod storing;
mod v41;

use measure::{measure, Side, Work};
use table::Table;

use crate::signal::Signal;

/// A row of the table of calls: its name, what times it, and whether it is
/// timed with each role; a store's other rows and settled bits do not depend on
/// the role.
type Row = (&'static str, fn(&str, Signal), bool);

const ROWS: [Row; 22] = [
    ("noise: plain against itself", receiving::noise, true),
    ("receive, single", receiving::single, true),
    (
        "receive, single, Rust in the same bytes",
        receiving::single_in_bytes,
        true,
    ),
    (
        "receive, single, origins and gaps",
        receiving::single_with_gaps,
        true,
    ),
    ("receive, bulk, random points", receiving::bulk, true),
    (
        "receive, bulk, noisy sent points",
        receiving::bulk_noisy,
        true,
    ),
    (
        "receive, bulk, noisy sent points, blocks of 1",
        receiving::bulk_by_one,
        true,
    ),
    (
        "receive, bulk, noisy sent points, blocks of 7",
        receiving::bulk_by_seven,
        true,
    ),
    (
        "receive, bulk, origins and gaps",
        receiving::bulk_with_gaps,
        true,
    ),
    (
        "receive, bulk, repeated line, guard firing",
        receiving::bulk_repeating,
        true,
    ),
    (
        "receive, bulk, noisy sent points, tuned in passes",
        receiving::bulk_in_passes,
        true,
    ),
    ("receive, single, levels", receiving::single_levels, true),
    (
        "receive, bulk, levels, noisy sent points",
        receiving::bulk_levels,
        true,
    ),
    ("send, 20,000 points", sending::send, true),
    (
        "send, 20,000 points, repeated line, guard firing",
        sending::send_repeating,
        true,
    ),
    ("open, longest training", sending::open, true),
    ("append, single, full chain", storing::append_single, false),
    ("append, bulk, 2,048 records", storing::append_bulk, false),
    ("read, 2,048 records", storing::read, false),
    ("list, 2,048 records", storing::list, true),
    ("sums, 2,048 records", storing::sums, false),
    ("settled bits, 4,000 points", v41::settled_bits, false),
];

/// A row of the table of points in levels and in whole numbers.
type LevelsRow = (&'static str, fn(&str, Signal));

const LEVELS_ROWS: [LevelsRow; 3] = [
    (
        "receive, single, levels and whole",
        receiving::single_levels_and_whole,
    ),
    (
        "receive, bulk, levels and whole, noisy sent points",
        receiving::noisy_levels_and_whole,
    ),
    (
        "receive, bulk, levels and whole, random points",
        receiving::random_levels_and_whole,
    ),
];

/// One run: prints the medians of every row whose name contains the word.
pub fn once(word: &str) {
    for (name, row, each_role) in ROWS {
        if name.contains(word) {
            let timed = Signal::all().filter(|signal| each_role || signal.role == 0);
            timed.for_each(|signal| row(name, signal));
        }
    }
    for (name, row) in LEVELS_ROWS.iter().filter(|(name, _)| name.contains(word)) {
        Signal::with_role_0().for_each(|signal| row(name, signal));
    }
    v41::rows(word);
    growing::rows(word);
}

/// Measures a row of the table of calls, with `units` points to a call, and
/// prints it.
fn call_row(name: &str, signal: Signal, units: usize, work: Work) {
    let times = measure(work).map(|time| time.map(|ns| ns / units as f64));
    let [proved, plain, tuned] = times;
    let ratio = |other: Option<f64>| Some(proved? / other?);
    Table::Calls.print_once(
        &[
            name,
            &signal.mode.number.to_string(),
            &signal.role.to_string(),
        ],
        &[proved, plain, tuned, ratio(plain), ratio(tuned)],
    );
}

/// Measures a row of the table of levels: the library's call of points in levels
/// and its call of the same points in whole numbers.
fn levels_row(name: &str, signal: Signal, units: usize, [levels, whole]: [Side; 2]) {
    let times = measure(Work {
        proved: levels,
        plain: Some(whole),
        tuned: None,
    });
    let [levels, whole, _] = times.map(|time| time.map(|ns| ns / units as f64));
    let ratio = || Some(levels? / whole?);
    Table::Levels.print_once(
        &[name, &signal.mode.number.to_string()],
        &[levels, whole, ratio()],
    );
}
