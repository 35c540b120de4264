//! Stores: made, taken from bytes, appended to, read, listed and summed up.

use kerambiu::raw as ours;
use kerambiu::{list, Event, Store};
use outside::rng::Rng;

use super::{outcome, random_numbers, typed};
use crate::points;
use crate::stores::{self, DAMAGES};
use crate::tally::Tally;

/// Calls in a round on one store.
const CALLS: u64 = 6;

fn run_make(tally: &mut Tally, rng: &mut Rng) {
    let numbers = random_numbers(rng);
    let records = rng.pick(&[0, 1, 2, 3, 40, 2048, 2049]);
    let mut bytes = vec![0xa5; 32 * records];
    let number = ours::make(&mut bytes, numbers.0, numbers.1);
    let made = typed(numbers).and_then(|(mode, role)| Store::make(records, mode, role));
    if let Some(store) = outcome(tally, "make", number, made) {
        let shown = (store.mode().number(), store.role().number());
        tally.check(store.bytes() == bytes && shown == numbers, || {
            format!("make {records} records {numbers:?}")
        });
    }
}

/// A sound store, at times damaged.
fn run_from_bytes(tally: &mut Tally, rng: &mut Rng) -> Option<Store> {
    let mut bytes = stores::with_chain(rng);
    if rng.below(4) == 0 {
        let damage = rng.pick(&DAMAGES);
        stores::damage(rng, &mut bytes, damage);
    }
    let mut count = [0];
    let number = ours::read(&bytes, &mut vec![0; 3 * 7 * 2048], 0, &mut count);
    check_listing(tally, &bytes, &list(&bytes));
    let store = outcome(tally, "store", number, Store::from_bytes(bytes.clone()))?;
    tally.check(store.bytes() == bytes, || "bytes of a store".into());
    Some(store)
}

fn check_listing(tally: &mut Tally, bytes: &[u8], text: &str) {
    let mut out = vec![0; ours::LISTING_BYTES];
    let mut count = [0];
    let number = ours::list(bytes, &mut out, &mut count);
    tally.check(number == 0 && text.as_bytes() == &out[..count[0]], || {
        format!("listing of {} bytes", bytes.len())
    });
}

/// Appends a point, points or lost intervals, which are at times refused.
fn run_append(tally: &mut Tally, rng: &mut Rng, store: &mut Store) {
    let mut bytes = store.bytes().to_vec();
    let far = points::out_of_range(rng);
    let near = (rng.between(-9, 9) as i16, rng.between(-16384, 16384) as i16);
    let (re, im) = rng.pick(&[near, near, near, (far.re, far.im)]);
    let most = rng.pick(&[1, 8, 40]);
    let numbers = [re, im].repeat(rng.below(most) as usize);
    let odd = numbers.len().saturating_sub(1);
    let numbers = &numbers[..rng.pick(&[numbers.len(), numbers.len(), numbers.len(), odd])];
    let lost = rng.pick(&[0, 1, 3, u32::MAX]);
    let (number, typed) = match rng.below(3) {
        0 => (
            ours::append_point(&mut bytes, re, im),
            store.append_point(re, im),
        ),
        1 => (
            ours::append_points(&mut bytes, numbers),
            store.append_points(numbers),
        ),
        _ => (ours::append_lost(&mut bytes, lost), store.append_lost(lost)),
    };
    outcome(tally, "append", number, typed);
    tally.check(store.bytes() == bytes, || "store after an append".into());
}

fn event_numbers(event: &Event) -> [i64; 3] {
    match *event {
        Event::Point { re, im } => [1, re.into(), im.into()],
        Event::Lost { intervals } => [2, intervals.into(), 0],
    }
}

/// Events, listing and sums of a sound store.
fn check_contents(tally: &mut Tally, store: &Store) {
    let mut out = vec![0; 3 * 7 * 2048];
    let mut count = [0];
    let read = ours::read(store.bytes(), &mut out, 0, &mut count);
    let events: Vec<i64> = store.read().iter().flat_map(event_numbers).collect();
    tally.check(read == 0 && events == out[..3 * count[0]], || {
        format!("{} numbers of {} events", events.len(), count[0])
    });
    check_listing(tally, store.bytes(), &store.list());
    let mut sums = [0; 3];
    let summed = ours::sums(store.bytes(), &mut sums);
    let own = store.sums();
    let same = [own.points, own.lost, own.gaps] == sums;
    tally.check(summed == 0 && same, || format!("{own:?}, thin {sums:?}"));
}

/// A store made, one taken from bytes, and calls on that.
pub fn run(tally: &mut Tally, rng: &mut Rng) {
    run_make(tally, rng);
    if let Some(mut store) = run_from_bytes(tally, rng) {
        for _ in 0..CALLS {
            run_append(tally, rng, &mut store);
        }
        check_contents(tally, &store);
    }
}
