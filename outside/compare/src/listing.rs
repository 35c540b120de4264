//! Listings, byte by byte: of sound stores, damaged ones and those at the limits.

use kerambiu::raw as ours;
use outside::limits;
use outside::listing;
use outside::rng::Rng;
use outside::tuned;

use crate::faults::one_or_two;
use crate::stores;
use crate::tally::Tally;

/// Bytes beyond the text, to show what a call leaves.
const UNWRITTEN: u8 = 0xa5;
const SEED: u64 = 5;

/// What the library's sums make of a listing's last line.
fn last_line(store: &[u8]) -> String {
    let mut sums = [0; 3];
    let number = ours::sums(store, &mut sums);
    let [points, lost, gaps] = sums;
    match number {
        0 => format!("sum points {points} lost {lost} gaps {gaps}\n"),
        _ => format!("refused {number}\n"),
    }
}

/// Lists a store on all sides.
pub fn run(tally: &mut Tally, store: &[u8], out: &mut [u8], tuned_out: &mut [u8]) {
    out.fill(UNWRITTEN);
    let right = listing::list(store);
    let mut count = [0];
    let number = ours::list(store, out, &mut count);
    tally.count(number);
    let (text, rest) = out.split_at(count[0].min(out.len()));
    let left = rest.iter().all(|&byte| byte == UNWRITTEN);
    tally.check(number == 0 && text == right && left, || {
        format!(
            "listing of {} bytes: {number}, {} bytes of text",
            store.len(),
            count[0]
        )
    });
    let last = text.split_inclusive(|&byte| byte == b'\n').next_back();
    tally.check(last == Some(last_line(store).as_bytes()), || {
        format!("listing of {} bytes: last line", store.len())
    });
    let length = tuned::list(store, tuned_out).unwrap_or(0);
    tally.check(tuned_out[..length] == right, || {
        format!("listing of {} bytes: tuned", store.len())
    });
}

/// Too few lent bytes, or no lent count: number 7, and nothing is written.
fn run_short(tally: &mut Tally, rng: &mut Rng, out: &mut [u8]) {
    let store = stores::sound(rng);
    out.fill(UNWRITTEN);
    let mut count = [9];
    let most = out.len() - 1;
    let few = ours::list(&store, &mut out[..most], &mut count);
    let uncounted = ours::list(&store, out, &mut []);
    tally.count(few);
    tally.count(uncounted);
    let kept = count == [9] && out.iter().all(|&byte| byte == UNWRITTEN);
    tally.check(few == 7 && uncounted == 7 && kept, || {
        format!("too few lent: {few}, {uncounted}")
    });
}

/// Compares `count` listings; whether there was no difference.
pub fn compare(count: u64) -> bool {
    let mut tally = Tally::default();
    let mut rng = Rng::new(SEED);
    let mut out = vec![0; ours::LISTING_BYTES];
    let mut tuned_out = vec![0; tuned::LISTING_ROOM];
    for k in 0..count {
        let mut store = stores::sound(&mut rng);
        if k % 4 == 0 {
            for &fault in &one_or_two(&mut rng, &stores::DAMAGES) {
                stores::damage(&mut rng, &mut store, fault);
            }
        }
        run(&mut tally, &store, &mut out, &mut tuned_out);
    }
    for size in [0, 1, 31, 32, 33, 64, 65_536, 65_537, 70_000] {
        run(&mut tally, &vec![0; size], &mut out, &mut tuned_out);
    }
    for (_, store) in limits::stores() {
        run(&mut tally, &store, &mut out, &mut tuned_out);
    }
    run_short(&mut tally, &mut rng, &mut out);
    println!("listing: {count} random stores, seed {SEED}");
    tally.report("listing", &[0, 7])
}
