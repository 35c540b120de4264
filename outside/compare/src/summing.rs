//! Sums of stores: sound ones, damaged ones and those at the limits.

use kerambiu::raw as ours;
use outside::limits;
use outside::refusal;
use outside::rng::Rng;
use outside::sums;
use outside::tuned;

use crate::faults::one_or_two;
use crate::stores::{self, DAMAGES};
use crate::tally::Tally;

const SEED: u64 = 6;
/// The numbers that a call writes.
const SUMS: usize = 3;
/// Stores between two rounds of faults.
const ROUND: u64 = 100;

/// Sums a store on all sides, with so many numbers lent that hold anything;
/// gives the number. Those beyond the sums, and all where a call is refused,
/// stay as they were.
fn run(tally: &mut Tally, rng: &mut Rng, store: &[u8], lent: usize) -> u8 {
    let mut out: Vec<u64> = (0..lent).map(|_| rng.next_u64()).collect();
    let mut right_out = out.clone();
    let right = sums::sums_into(store, &mut right_out);
    let right = refusal::number(right);
    let number = ours::sums(store, &mut out);
    tally.count(number);
    tally.check(number == right && out == right_out, || {
        let size = store.len();
        format!("sums of {size} bytes: {number} {out:?}, outside {right} {right_out:?}")
    });
    tally.check(tuned::sums(store) == sums::sums(store), || {
        format!("sums of {} bytes: tuned", store.len())
    });
    number
}

/// Enough lent numbers, some of them more than the sums.
fn enough(rng: &mut Rng) -> usize {
    SUMS + rng.below(4) as usize
}

/// A store with some damages, the highest first, each of which shows as it is
/// done; then the same store with too few numbers.
fn run_faults(tally: &mut Tally, rng: &mut Rng, damages: &[u8]) {
    let mut store = stores::with_chain(rng);
    let mut faults = Vec::new();
    for &damage in damages {
        stores::damage(rng, &mut store, damage);
        faults.push(damage);
        let lent = enough(rng);
        let number = run(tally, rng, &store, lent);
        tally.expect_lowest(&faults, number);
    }
    faults.push(7);
    for lent in 0..SUMS {
        let number = run(tally, rng, &store, lent);
        tally.expect_lowest(&faults, number);
    }
}

/// Number 7 and each of a store's alone, and every two of them.
fn run_all_faults(tally: &mut Tally, rng: &mut Rng) {
    run_faults(tally, rng, &[]);
    for (k, &damage) in DAMAGES.iter().enumerate() {
        run_faults(tally, rng, &[damage]);
        for &lower in &DAMAGES[..k] {
            run_faults(tally, rng, &[damage, lower]);
        }
    }
}

/// A sound store, at times damaged in one way or two, and at times with too few
/// numbers lent.
fn run_random(tally: &mut Tally, rng: &mut Rng) {
    let mut store = stores::sound(rng);
    if rng.below(4) == 0 {
        for &fault in &one_or_two(rng, &DAMAGES) {
            stores::damage(rng, &mut store, fault);
        }
    }
    let lent = match rng.below(8) {
        0 => rng.below(SUMS as u64) as usize,
        _ => enough(rng),
    };
    run(tally, rng, &store, lent);
}

/// Compares the sums of `count` stores and more; whether there was no
/// difference.
pub fn compare(count: u64) -> bool {
    let mut tally = Tally::default();
    let mut rng = Rng::new(SEED);
    for k in 0..count {
        run_random(&mut tally, &mut rng);
        if k % ROUND == 0 {
            run_all_faults(&mut tally, &mut rng);
        }
    }
    let empty = [0, 1, 31, 32, 33, 64, 65_536, 65_537, 70_000].map(|size| vec![0; size]);
    let limits = limits::stores().map(|(_, store)| store);
    for store in empty.iter().chain(&limits) {
        for lent in 0..SUMS + 3 {
            run(&mut tally, &mut rng, store, lent);
        }
    }
    println!("sums: {count} random stores, seed {SEED}");
    tally.expect_each_two(&[7, 11, 12, 13, 14, 15]);
    tally.report("sums", &[0, 7, 11, 12, 13, 14, 15])
}
