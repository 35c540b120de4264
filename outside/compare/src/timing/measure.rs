//! Measuring: the sides in turn, and their medians.

use std::time::Instant;

/// Does the work of one call or list of calls; what came out is added to the
/// bytes if there are some.
pub type Side<'a> = Box<dyn FnMut(Option<&mut Vec<u8>>) + 'a>;

/// The same work by the proved library, the plain implementation and the tuned
/// one.
pub struct Work<'a> {
    pub proved: Side<'a>,
    pub plain: Option<Side<'a>>,
    pub tuned: Option<Side<'a>>,
}

/// Turns of each side after the first, which warms up: odd numbers.
const TURNS: usize = 51;
const LONG_TURNS: usize = 5;
/// A turn lasts this long at least: short work is done several times.
const SHORTEST_TURN: f64 = 200_000.0;
/// Work that lasts longer has fewer turns.
const LONG_WORK: f64 = 20_000_000.0;

/// Nanoseconds of work done so many times.
fn time(side: &mut Side, times: usize) -> f64 {
    let start = Instant::now();
    for _ in 0..times {
        side(None);
    }
    start.elapsed().as_nanos() as f64 / times as f64
}

fn median(times: &mut [f64]) -> f64 {
    times.sort_by(f64::total_cmp);
    times[times.len() / 2]
}

/// What came out of a side.
fn outcome(side: &mut Side) -> Vec<u8> {
    let mut bytes = Vec::new();
    side(Some(&mut bytes));
    bytes
}

/// The median nanoseconds of each side, in alternating turns. All sides must
/// give the same bytes.
pub fn measure(work: Work) -> [Option<f64>; 3] {
    let mut sides = [Some(work.proved), work.plain, work.tuned];
    let mut present: Vec<&mut Side> = sides.iter_mut().flatten().collect();
    let right = outcome(present[0]);
    for side in &mut present[1..] {
        assert!(outcome(side) == right, "the sides differ");
    }
    let long = time(present[0], 1);
    let repeats = (SHORTEST_TURN / long.max(1.0)).ceil() as usize;
    let turns = if long < LONG_WORK { TURNS } else { LONG_TURNS };
    let mut times = vec![Vec::new(); present.len()];
    for turn in 0..=turns {
        for (side, times) in present.iter_mut().zip(&mut times) {
            let taken = time(side, repeats);
            if turn > 0 {
                times.push(taken);
            }
        }
    }
    let mut medians = times.iter_mut().map(|times| median(times));
    sides.map(|side| side.and_then(|_| medians.next()))
}
