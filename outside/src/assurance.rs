//! From where on users are assured of data bits: that those of two receivers are
//! settled and equal, and are the sender's (document 01, "Lists of calls"; document
//! 02, R-6).

use crate::mode::Mode;
use crate::scrambler::GUARD_TAPS;

/// The first of some line bits whose data bit is assured, if any is. The line bits
/// are those of consecutive points, from the second point on, since the first
/// has none that all receivers agree on.
///
/// Where there is a guard, counts that began apart are both zero after a line bit
/// that differs from all three, and it is sought once R line bits are the same.
pub fn first_assured(mode: &Mode, line: &[u8]) -> Option<usize> {
    let settled = mode.register_length as usize;
    if !mode.guard {
        return (settled < line.len()).then_some(settled);
    }
    let differs = |&at: &usize| {
        let back = GUARD_TAPS.map(|tap| line[at - tap as usize]);
        back.iter().all(|&bit| bit != line[at])
    };
    let zeroed = (settled..line.len()).find(differs)?;
    (zeroed + 1 < line.len()).then_some(zeroed + 1)
}
