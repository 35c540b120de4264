//! How time grows with the points of a block and the records of a store, and
//! what the smallest calls take.

use outside::store::{FEWEST_RECORDS, MOST_RECORDS};

use super::input;
use super::measure::{measure, Work};
use super::receiving::Blocks;
use super::sending::{self, Data};
use super::storing::{self, Filled};
use super::table::{with_thousands, Table};
use crate::points;
use crate::signal::Signal;

/// The most points of a block.
const MOST_POINTS: usize = 10_000_000;
/// The mode of the stores.
const STORE_MODE: u8 = 4;

/// The call of a row of stores.
type StoreCall = fn(&Filled) -> Work<'_>;

const STORE_CALLS: [(&str, StoreCall); 5] = [
    ("append, bulk, store made anew", Filled::bulk_append),
    ("append, single, nearly full store", Filled::single_append),
    ("read, nearly full store", Filled::reading),
    ("list, nearly full store", Filled::listing),
    ("sums, nearly full store", Filled::sums),
];

/// Times the smallest call of a kind.
type SmallestCall = fn(Signal) -> [Option<f64>; 3];

const SMALLEST_CALLS: [(&str, SmallestCall); 9] = [
    ("receive, bulk, 0 points", |signal| {
        measure(Blocks::<i16>::of_one(signal, &[]).work())
    }),
    ("receive, bulk, levels, 0 points", |signal| {
        measure(Blocks::<f32>::of_one(signal, &[]).work())
    }),
    ("send, 0 points", |signal| {
        measure(Data::of(signal, 0).work())
    }),
    ("open, shortest training", |signal| {
        measure(sending::opening(signal, sending::shortest(signal)))
    }),
    ("make, 2 records", |signal| measure(storing::making(signal))),
    ("append, 1 point, empty store of 2 records", |signal| {
        measure(Filled::empty(signal).single_append())
    }),
    ("read, empty store of 2 records", |signal| {
        measure(Filled::empty(signal).reading())
    }),
    ("list, empty store of 2 records", |signal| {
        measure(Filled::empty(signal).listing())
    }),
    ("sums, empty store of 2 records", |signal| {
        measure(Filled::empty(signal).sums())
    }),
];

/// The rows whose name contains the word.
pub fn rows(word: &str) {
    if "receive, bulk, growing blocks".contains(word) {
        Signal::with_role_0().for_each(growing_blocks);
    }
    let of_stores = |signal: &Signal| signal.mode.number == STORE_MODE;
    for (name, call) in STORE_CALLS.iter().filter(|(name, _)| name.contains(word)) {
        let signals = Signal::with_role_0().filter(of_stores);
        signals.for_each(|signal| growing_stores(name, signal, *call));
    }
    for (name, call) in SMALLEST_CALLS
        .iter()
        .filter(|(name, _)| name.contains(word))
    {
        for signal in Signal::with_role_0() {
            let names = [*name, &signal.mode.number.to_string()];
            Table::Smallest.print_once(&names, &call(signal));
        }
    }
}

/// Points, each block ten times the one before.
fn growing_blocks(signal: Signal) {
    let numbers = points::flat(&input::noisy(signal.mode, MOST_POINTS));
    let sizes = std::iter::successors(Some(1), |size| Some(10 * size));
    for size in sizes.take_while(|&size| size <= MOST_POINTS) {
        let blocks = Blocks::of_one(signal, &numbers[..2 * size]);
        let times = measure(Work {
            plain: None,
            ..blocks.work()
        });
        let names = [signal.mode.number.to_string(), with_thousands(size as u64)];
        print_growth(Table::Blocks, names, times, size);
    }
}

/// Records, each store twice the one before.
fn growing_stores(name: &str, signal: Signal, call: StoreCall) {
    let sizes = std::iter::successors(Some(FEWEST_RECORDS), |records| Some(2 * records));
    for records in sizes.take_while(|&records| records <= MOST_RECORDS) {
        let times = measure(call(&Filled::of(signal, records)));
        let names = [name.to_string(), with_thousands(records as u64)];
        print_growth(Table::Stores, names, times, records);
    }
}

/// A call's time and that of each of its units, proved and tuned.
fn print_growth(table: Table, names: [String; 2], times: [Option<f64>; 3], units: usize) {
    let [proved, _, tuned] = times;
    let each = |time: Option<f64>| time.map(|ns| ns / units as f64);
    let names = names.each_ref().map(String::as_str);
    table.print_once(&names, &[proved, each(proved), tuned, each(tuned)]);
}
