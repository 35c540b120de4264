//! A small deterministic generator for tests and comparison programs
//! (splitmix64): the same seed gives the same numbers everywhere.

use crate::mode::{Mode, MODES};

/// The generator's state.
#[derive(Clone, Debug)]
pub struct Rng {
    state: u64,
}

impl Rng {
    pub fn new(seed: u64) -> Rng {
        Rng { state: seed }
    }

    /// The next 64 bits.
    pub fn next_u64(&mut self) -> u64 {
        self.state = self.state.wrapping_add(0x9e37_79b9_7f4a_7c15);
        let mut z = self.state;
        z = (z ^ (z >> 30)).wrapping_mul(0xbf58_476d_1ce4_e5b9);
        z = (z ^ (z >> 27)).wrapping_mul(0x94d0_49bb_1331_11eb);
        z ^ (z >> 31)
    }

    /// A number below the bound; 0 for a bound of 0.
    pub fn below(&mut self, bound: u64) -> u64 {
        ((u128::from(self.next_u64()) * u128::from(bound)) >> 64) as u64
    }

    /// A number from the first to the last, both included.
    pub fn between(&mut self, first: i64, last: i64) -> i64 {
        let count = last.wrapping_sub(first) as u64;
        first.wrapping_add(self.below(count.saturating_add(1)) as i64)
    }

    /// One of some values, of which there must be one.
    pub fn pick<T: Copy>(&mut self, all: &[T]) -> T {
        all[self.below(all.len() as u64) as usize]
    }

    /// A mode and one of its roles.
    pub fn mode_and_role(&mut self) -> (&'static Mode, u8) {
        let mode = &MODES[self.below(MODES.len() as u64) as usize];
        (mode, self.below(mode.near_taps.len() as u64) as u8)
    }

    /// Data bits, one in a byte.
    pub fn bits(&mut self, count: usize) -> Vec<u8> {
        (0..count).map(|_| (self.next_u64() >> 63) as u8).collect()
    }
}
