//! Refusal numbers (document 01, "Refusals, by whose doing"; document 02, R-3 and
//!

/// The number of a refused call.
#[derive(Clone, Copy, PartialEq, Eq, Hash, Debug)]
pub struct Refusal(pub u8);

/// All numbers, those that go before others first. A number that a request adds
/// stands where the request puts it: 18 after 7 and before 8, 19 before 5. Number
/// 10 is not used any more, and none comes into its place.
pub const ORDER: [u8; 18] = [
    1, 2, 3, 4, 19, 5, 6, 7, 18, 8, 9, 11, 12, 13, 14, 15, 16, 17,
];

impl Refusal {
    /// Mode not 1 to 6.
    pub const MODE: Refusal = Refusal(1);
    /// Role not one of the mode's.
    pub const ROLE: Refusal = Refusal(2);
    /// Training length that the mode does not have.
    pub const TRAINING_LENGTH: Refusal = Refusal(3);
    /// A handed-in state with another field outside its range.
    pub const STATE_FIELD: Refusal = Refusal(4);
    /// Bits that are not as many as a V.41 block has, or 16 fewer.
    pub const BLOCK_SIZE: Refusal = Refusal(19);
    /// A data byte above 1.
    pub const DATA_BYTE: Refusal = Refusal(5);
    /// Data bits not a multiple of w.
    pub const BIT_COUNT: Refusal = Refusal(6);
    /// Lent numbers too few from the offset, or an offset past their end.
    pub const LENT_NUMBERS: Refusal = Refusal(7);
    /// A NaN or infinite coordinate or power.
    pub const NOT_FINITE: Refusal = Refusal(18);
    /// Coordinate out of range.
    pub const COORDINATE: Refusal = Refusal(8);
    /// A gap, or a lost count to append, of 0.
    pub const EMPTY_GAP: Refusal = Refusal(9);
    /// Store size not 32 times an N from 2 to 2048.
    pub const STORE_SIZE: Refusal = Refusal(11);
    /// Record 0's four bytes, mode, role or a byte due to be zero.
    pub const RECORD_0: Refusal = Refusal(12);
    /// An index of N or more, or met twice.
    pub const INDEX: Refusal = Refusal(13);
    /// A chain record that breaks its layout or holds a point out of range.
    pub const RECORD: Refusal = Refusal(14);
    /// Total not the chain's sum.
    pub const TOTAL: Refusal = Refusal(15);
    /// Place or total above 4294967295.
    pub const TOO_LONG: Refusal = Refusal(16);
    /// A new record is needed and the greatest index is N − 1.
    pub const STORE_FULL: Refusal = Refusal(17);
}

/// The number of an outcome, 0 where nothing is refused.
pub fn number<T>(outcome: Result<T, Refusal>) -> u8 {
    outcome.err().map_or(0, |Refusal(number)| number)
}

/// Refuses unless the condition is met. A call lists its needs in the order of
/// numbers, so that of those that apply the first is given.
pub fn need(met: bool, refusal: Refusal) -> Result<(), Refusal> {
    if met {
        Ok(())
    } else {
        Err(refusal)
    }
}
