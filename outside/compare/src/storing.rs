//! Making stores and appending to them, byte by byte, and reading them.

use kerambiu::raw as ours;
use outside::mode::MODES;
use outside::point::Point;
use outside::refusal::{self, Refusal};
use outside::rng::Rng;
use outside::store::{self, RECORD, RECORD_POINTS};
use outside::tuned;

use crate::faults::one_or_two;
use crate::tally::Tally;
use crate::{points, stores};

const SEED: u64 = 3;

/// A call on a store.
enum Call {
    Make(u8, u8),
    Point(Point),
    Lost(u32),
    /// The numbers of points.
    Points(Vec<i16>),
}

fn random_point(rng: &mut Rng) -> Point {
    if rng.below(12) == 0 {
        return points::out_of_range(rng);
    }
    let (mode, _) = rng.mode_and_role();
    points::in_range(rng, mode)
}

fn random_call(rng: &mut Rng) -> Call {
    match rng.below(8) {
        0 => Call::Make(rng.below(MODES.len() as u64 + 2) as u8, rng.below(3) as u8),
        1..=3 => Call::Point(random_point(rng)),
        4 | 5 => {
            let n = rng.next_u64() as u32 >> rng.below(32);
            Call::Lost(if rng.below(10) == 0 { 0 } else { n })
        }
        _ => {
            let count = rng.below(30);
            let points: Vec<Point> = (0..count).map(|_| random_point(rng)).collect();
            Call::Points(points::flat(&points))
        }
    }
}

/// Runs a call on both sides; gives its number and the store after it.
fn run(tally: &mut Tally, before: &[u8], call: &Call) -> (u8, Vec<u8>) {
    let (mut bytes, mut right_bytes) = (before.to_vec(), before.to_vec());
    let (number, right) = match call {
        Call::Make(mode, role) => (
            ours::make(&mut bytes, *mode, *role),
            store::make(&mut right_bytes, *mode, *role),
        ),
        Call::Point(point) => (
            ours::append_point(&mut bytes, point.re, point.im),
            store::append_point(&mut right_bytes, point.re, point.im),
        ),
        Call::Lost(n) => (
            ours::append_lost(&mut bytes, *n),
            store::append_lost(&mut right_bytes, *n),
        ),
        Call::Points(numbers) => (
            ours::append_points(&mut bytes, numbers),
            store::append_points(&mut right_bytes, numbers),
        ),
    };
    let right = refusal::number(right);
    tally.count(number);
    let kept = number == 0 || bytes == before;
    tally.check(number == right && bytes == right_bytes && kept, || {
        format!("store of {} bytes: {number}, outside {right}", before.len())
    });
    run_tuned(tally, before, call, right, &right_bytes);
    if let Call::Points(numbers) = call {
        run_singly(tally, before, numbers, (number, &bytes));
    }
    (number, bytes)
}

/// Holds the tuned append against what the plain one gave.
fn run_tuned(tally: &mut Tally, before: &[u8], call: &Call, right: u8, right_bytes: &[u8]) {
    let numbers = match call {
        Call::Point(point) => vec![point.re, point.im],
        Call::Points(numbers) => numbers.clone(),
        Call::Make(..) | Call::Lost(_) => return,
    };
    let mut bytes = before.to_vec();
    let told = tuned::append_points(&mut bytes, &numbers);
    let number = refusal::number(told);
    tally.check(number == right && bytes == right_bytes, || {
        format!(
            "store of {} bytes: tuned {number}, plain {right}",
            before.len()
        )
    });
}

/// Points at once against single appends, one after the other: accepted exactly
/// when the count of numbers is even, the store is accepted and no single append
/// is refused; then the bytes are those after them.
fn run_singly(tally: &mut Tally, before: &[u8], numbers: &[i16], at_once: (u8, &[u8])) {
    let mut bytes = before.to_vec();
    let mut pairs = numbers.chunks(2);
    let taken = numbers.len().is_multiple_of(2)
        && store::read(before).is_ok()
        && pairs.all(|pair| ours::append_point(&mut bytes, pair[0], pair[1]) == 0);
    let (number, left) = at_once;
    let same = (number == 0) == taken && left == if taken { &bytes } else { before };
    tally.check(same, || {
        let count = numbers.len();
        format!("{count} numbers at once: {number}, singly accepted: {taken}")
    });
}

/// Reads a store into lent numbers, at times too few or from an offset past
/// their end, with or without a lent count.
fn run_read(tally: &mut Tally, rng: &mut Rng, store: &[u8]) {
    let events = store::read(store).map_or(0, |events| events.len());
    let offset = rng.below(4) as usize;
    let room = match rng.below(8) {
        0 => rng.below(3 * events as u64 + 5) as usize,
        _ => offset + 3 * events + rng.below(3) as usize,
    };
    let mut out: Vec<i64> = (0..room).map(|_| rng.next_u64() as i64).collect();
    let mut count = vec![7; if rng.below(16) == 0 { 0 } else { 2 }];
    let (mut right_out, mut right_count) = (out.clone(), count.clone());
    let right = if count.is_empty() {
        7
    } else {
        match store::read_into(store, &mut right_out, offset) {
            Err(Refusal(number)) => number,
            Ok(events) => {
                right_count[0] = events;
                0
            }
        }
    };
    let number = ours::read(store, &mut out, offset, &mut count);
    tally.count(number);
    let same = number == right && out == right_out && count == right_count;
    tally.check(same, || {
        format!("read {} bytes: {number}, outside {right}", store.len())
    });
}

/// A list of calls on a sound store, each on what the one before left.
fn run_list(tally: &mut Tally, rng: &mut Rng) {
    let mut store = stores::sound(rng);
    for _ in 0..rng.between(1, 8) {
        let call = random_call(rng);
        store = run(tally, &store, &call).1;
        run_read(tally, rng, &store);
    }
}

/// A store with one or two faults of 11 to 15, in either order.
fn run_damaged(tally: &mut Tally, rng: &mut Rng) {
    let mut store = stores::with_chain(rng);
    let faults = one_or_two(rng, &stores::DAMAGES);
    for &fault in &faults {
        stores::damage(rng, &mut store, fault);
    }
    let point = points::in_range(rng, &MODES[0]);
    let call = match rng.below(4) {
        0 => Call::Point(point),
        1 => Call::Lost(1),
        2 => Call::Points(Vec::new()),
        _ => Call::Points(points::flat(&[point; 3])),
    };
    let (number, _) = run(tally, &store, &call);
    tally.expect_lowest(&faults, number);
    run(tally, &store, &random_call(rng));
    run_read(tally, rng, &store);
}

/// A store near its end, and a count of points that 16 or 17 refuses there, or
/// both or none of them. A lost count stands before some points, and keeps the
/// total near the greatest.
fn near_end(rng: &mut Rng, long: bool, full: bool) -> (Vec<u8>, usize) {
    let records = rng.between(3, 6) as usize;
    let held = rng.below(7) as usize;
    let places = RECORD_POINTS * (records - 2) - held;
    let left = if long { rng.below(places as u64) } else { 1000 } as usize;
    let count = match (long, full) {
        (_, true) => places + 1 + rng.below(9) as usize,
        (true, false) => rng.between(left as i64 + 1, places as i64) as usize,
        (false, false) => rng.between(1, places as i64) as usize,
    };
    let mut store = vec![0xee; RECORD * records];
    let (mode, role) = rng.mode_and_role();
    store::make(&mut store, mode.number, role).expect("made");
    let lost = u32::MAX - (held + left) as u32;
    store::append_lost(&mut store, lost).expect("room");
    store::append_points(&mut store, &vec![5; 2 * held]).expect("room");
    (store, count)
}

/// Points to append with some faults, among 7, 8 and either one of 11 to 15 or
/// any of 16 and 17.
fn run_append(tally: &mut Tally, rng: &mut Rng, faults: &[u8]) {
    let has = |number: u8| faults.contains(&number);
    let (mut store, count) = near_end(rng, has(16), has(17));
    let mode = rng.mode_and_role().0;
    let mut list: Vec<Point> = (0..count).map(|_| points::in_range(rng, mode)).collect();
    if has(8) {
        list[rng.below(count as u64) as usize] = points::out_of_range(rng);
    }
    let mut numbers = points::flat(&list);
    if has(7) {
        numbers.push(rng.next_u64() as i16);
    }
    for fault in (11..=15).filter(|&fault| has(fault)) {
        stores::damage(rng, &mut store, fault);
        let none = Call::Points(Vec::new());
        let (number, _) = run(tally, &store, &none);
        tally.expect_lowest(&[fault], number);
    }
    let (number, _) = run(tally, &store, &Call::Points(numbers));
    tally.expect_lowest(faults, number);
}

/// Each number of an append of points alone, and every two that can apply at
/// once but for two of a store's own.
fn run_appends(tally: &mut Tally, rng: &mut Rng) {
    run_append(tally, rng, &[]);
    for first in [7, 8, 11, 12, 13, 14, 15, 16, 17] {
        run_append(tally, rng, &[first]);
        let beside = match first {
            7 | 8 => first + 1..=17,
            16 => 17..=17,
            _ => continue,
        };
        // 9 is of a lost count, and 10 is not used any more.
        for second in beside.filter(|number| ![9, 10].contains(number)) {
            run_append(tally, rng, &[second, first]);
        }
    }
}

/// Compares `count` stores; whether there was no difference.
pub fn compare(count: u64) -> bool {
    let mut tally = Tally::default();
    let mut rng = Rng::new(SEED);
    for k in 0..count {
        match k % 4 {
            0 => run_list(&mut tally, &mut rng),
            _ => run_damaged(&mut tally, &mut rng),
        }
        if k % 100 == 0 {
            run_appends(&mut tally, &mut rng);
        }
    }
    println!("store: {count} stores, seed {SEED}");
    tally.report("store", &[0, 1, 2, 7, 8, 9, 11, 12, 13, 14, 15, 16, 17])
}
