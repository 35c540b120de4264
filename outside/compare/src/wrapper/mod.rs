//! The typed calls of the package `kerambiu` against its thin ones: the same answers,
//! the same refusals, and a value that is as it was where a call is refused.

mod bits;
mod receiver;
mod sender;
mod store;

use kerambiu::{Mode, Refusal, Role};
use outside::rng::Rng;

use crate::faults;
use crate::tally::Tally;

const SEED: u64 = 41;
/// What the calls reach: accepted ones, and every refusal.
const NUMBERS: [u8; 19] = [
    0, 1, 2, 3, 4, 19, 5, 6, 7, 18, 8, 9, 11, 12, 13, 14, 15, 16, 17,
];

/// Counts a call by the number of the thin one and holds the typed one's refusal
/// against it; gives what an accepted call gave.
fn outcome<T>(tally: &mut Tally, call: &str, number: u8, typed: Result<T, Refusal>) -> Option<T> {
    tally.count(number);
    let own = typed.as_ref().err().map_or(0, |refusal| refusal.number());
    tally.check(own == number, || {
        format!("{call}: typed {own}, thin {number}")
    });
    if let Err(refusal) = &typed {
        let begin = format!("refused {number}: ");
        let printed = refusal.to_string();
        let known = Refusal::all().any(|other| other == *refusal);
        tally.check(known && printed.starts_with(&begin), || {
            format!("{call}: it prints {printed}")
        });
    }
    typed.ok()
}

/// A mode and a role by their numbers, of which one is at times none.
fn random_numbers(rng: &mut Rng) -> (u8, u8) {
    let (mode, role) = rng.mode_and_role();
    match rng.below(8) {
        0 => (faults::no_mode(rng), role),
        1 => (mode.number, faults::no_role(rng, mode)),
        _ => (mode.number, role),
    }
}

/// The typed mode and role of two numbers.
fn typed((mode, role): (u8, u8)) -> Result<(Mode, Role), Refusal> {
    Ok((Mode::try_from(mode)?, Role::try_from(role)?))
}

/// Compares so many rounds of each kind of call; whether there was no difference.
pub fn compare(rounds: u64) -> bool {
    let mut tally = Tally::default();
    let mut rng = Rng::new(SEED);
    for _ in 0..rounds {
        receiver::run(&mut tally, &mut rng);
        sender::run(&mut tally, &mut rng);
        store::run(&mut tally, &mut rng);
        bits::run(&mut tally, &mut rng);
    }
    println!("wrapper: {rounds} rounds, seed {SEED}");
    tally.report("wrapper", &NUMBERS)
}
