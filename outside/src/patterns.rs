//! Line bits that repeat, which the guard is against (document 02, R-6), and the
//! data that they are sent from: for tests, samples and comparison programs.

use crate::mode::Mode;
use crate::rng::Rng;
use crate::scrambler::{Register, Scrambler};
use crate::sender::Sender;
use crate::units::{BitCount, GuardCount};

/// Periods that divide 8, 9 or 12: no line bit of such a pattern differs from all
/// three that the guard compares it with.
pub const PERIODS: [usize; 8] = [1, 2, 3, 4, 6, 8, 9, 12];

/// So many bits of a random pattern with one of these periods.
pub fn repeated(rng: &mut Rng, count: usize) -> Vec<u8> {
    let period = rng.pick(&PERIODS);
    let pattern = rng.bits(period);
    pattern.into_iter().cycle().take(count).collect()
}

/// The data bits for which a sender sends these line bits, whatever its guard
/// inverts.
pub fn data_for(state: &Sender, line: &[u8]) -> Vec<u8> {
    let (_, scrambler) = Mode::find_with_role(state.mode, state.role).expect("a mode and its role");
    let mut register = state.register_and_count();
    let bits = line.iter().map(|&bit| {
        let told = scrambler.descramble(register, scrambler.full(), bit);
        register = told.register;
        told.data.expect("settled")
    });
    bits.collect()
}

/// The data bits for which a sender would send these line bits if it had no guard.
pub fn data_without_guard(state: &Sender, line: &[u8]) -> Vec<u8> {
    let mode = Mode::find(state.mode).expect("a mode");
    let unguarded = Mode::find(mode.unguarded).expect("a mode");
    let scrambler = Scrambler::of(unguarded, state.role).expect("a role of the mode");
    let without = Sender {
        mode: unguarded.number,
        register: scrambler.kept(state.register),
        held: scrambler.full(),
        count: GuardCount(0),
        ..*state
    };
    data_for(&without, line)
}

/// How often the guard inverts a bit as some line bits come, and what is kept
/// after them.
pub fn inversions(
    scrambler: Scrambler,
    mut register: Register,
    mut held: BitCount,
    line: impl Iterator<Item = u8>,
) -> (u64, Register) {
    let mut inverted = 0;
    for bit in line {
        inverted += u64::from(scrambler.inverts(register.count));
        let told = scrambler.descramble(register, held, bit);
        (register, held) = (told.register, told.held);
    }
    (inverted, register)
}
