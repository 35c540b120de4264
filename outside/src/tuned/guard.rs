//! The guard's count, moved on by several line bits in one step.

use crate::scrambler::{GUARD_LIMIT, GUARD_TAPS};
use crate::units::GuardCount;

const LIMIT: u32 = GUARD_LIMIT.0 as u32;

/// The guard between steps.
#[derive(Clone, Copy)]
pub struct Guard {
    count: u32,
}

impl Guard {
    pub fn of(count: GuardCount) -> Guard {
        Guard {
            count: count.0.into(),
        }
    }

    pub fn count(self) -> GuardCount {
        GuardCount(self.count as u8)
    }

    /// Forgets what came before a gap.
    #[inline(always)]
    pub fn clear(&mut self) {
        self.count = 0;
    }

    /// Takes so many line bits, of which a bit of `differing` is 1 where one
    /// differs from all three that it is compared with; gives those to invert.
    #[inline(always)]
    pub fn take(&mut self, differing: u32, bits: u32) -> u32 {
        if self.count + bits > LIMIT {
            return self.take_singly(differing, bits);
        }
        // No bit meets the limit. Those behind the last that differs are counted.
        self.count = match differing {
            0 => self.count + bits,
            _ => differing.trailing_zeros(),
        };
        0
    }

    /// The same, one bit after the other.
    #[cold]
    fn take_singly(&mut self, differing: u32, bits: u32) -> u32 {
        let mut inverted = 0;
        for bit in (0..bits).rev() {
            let limit = self.count == LIMIT;
            inverted |= u32::from(limit) << bit;
            self.count = match limit || differing >> bit & 1 == 1 {
                true => 0,
                false => self.count + 1,
            };
        }
        inverted
    }
}

/// The line bits that differ from all three they are compared with, of the newest
/// ones in a register that holds those before them too.
#[inline(always)]
pub fn differing(register: u32) -> u32 {
    let [one, two, three] = GUARD_TAPS.map(|tap| register ^ register >> tap);
    one & two & three
}
