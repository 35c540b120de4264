//! Refusals: a number and a sentence.

use std::error::Error;
use std::fmt;

/// Why a call was refused. It prints as `refused 8: ` and a sentence.
#[derive(Clone, Copy, PartialEq, Eq, Hash, Debug)]
pub struct Refusal(u8);

/// The numbers in use and the sentences of `include/kerambiu.h`.
const SENTENCES: [(Refusal, &str); 18] = [
    (Refusal::MODE, "mode is not 1 to 6"),
    (Refusal::ROLE, "role is not one that the mode has"),
    (
        Refusal::TRAINING_LENGTH,
        "training length is not 0 or 1, in modes 3 and 4 not 1280 to 8192",
    ),
    (Refusal::STATE, "a field of the state is outside its range"),
    (Refusal::BIT, "a byte among the bits is above 1"),
    (
        Refusal::BIT_COUNT,
        "count of data bits is not a multiple of the bits in a point",
    ),
    (
        Refusal::LENT,
        "lent bytes or numbers are too few, odd or unequal in count, or an offset is past them",
    ),
    (
        Refusal::COORDINATE,
        "a coordinate is outside -16384 to 16384",
    ),
    (Refusal::NO_INTERVALS, "a gap, a hole or a lost count is 0"),
    (
        Refusal::STORE_SIZE,
        "size of the store is not 32 times a number from 2 to 2048",
    ),
    (
        Refusal::STORE_HEAD,
        "mark, mode, role or a zero byte in the first record of the store is wrong",
    ),
    (
        Refusal::STORE_INDEX,
        "an index in the store is past its records or is met twice",
    ),
    (
        Refusal::STORE_RECORD,
        "a record of the store breaks its layout or holds a point out of range",
    ),
    (
        Refusal::STORE_TOTAL,
        "total of the store is not the sum of its records",
    ),
    (
        Refusal::INTERVALS,
        "place or total would be above 4294967295",
    ),
    (Refusal::STORE_FULL, "the store has no record left"),
    (
        Refusal::NOT_FINITE,
        "a coordinate or a power is NaN or infinite",
    ),
    (
        Refusal::BLOCK_SIZE,
        "count of bits is not that of a V.41 block, or 16 fewer to make one",
    ),
];

impl Refusal {
    pub const MODE: Refusal = Refusal(1);
    pub const ROLE: Refusal = Refusal(2);
    pub const TRAINING_LENGTH: Refusal = Refusal(3);
    pub const STATE: Refusal = Refusal(4);
    pub const BIT: Refusal = Refusal(5);
    pub const BIT_COUNT: Refusal = Refusal(6);
    pub const LENT: Refusal = Refusal(7);
    pub const COORDINATE: Refusal = Refusal(8);
    pub const NO_INTERVALS: Refusal = Refusal(9);
    pub const STORE_SIZE: Refusal = Refusal(11);
    pub const STORE_HEAD: Refusal = Refusal(12);
    pub const STORE_INDEX: Refusal = Refusal(13);
    pub const STORE_RECORD: Refusal = Refusal(14);
    pub const STORE_TOTAL: Refusal = Refusal(15);
    pub const INTERVALS: Refusal = Refusal(16);
    pub const STORE_FULL: Refusal = Refusal(17);
    pub const NOT_FINITE: Refusal = Refusal(18);
    pub const BLOCK_SIZE: Refusal = Refusal(19);

    /// All refusals, the lowest number first.
    pub fn all() -> impl Iterator<Item = Refusal> {
        SENTENCES.iter().map(|&(refusal, _)| refusal)
    }

    /// The number, as the C functions return it.
    pub fn number(self) -> u8 {
        self.0
    }

    /// The sentence, without a full stop.
    pub fn sentence(self) -> &'static str {
        let own = SENTENCES.iter().find(|&&(refusal, _)| refusal == self);
        own.map_or("no such refusal", |&(_, sentence)| sentence)
    }
}

impl fmt::Display for Refusal {
    fn fmt(&self, f: &mut fmt::Formatter<'_>) -> fmt::Result {
        write!(f, "refused {}: {}", self.0, self.sentence())
    }
}

impl Error for Refusal {}

/// The outcome of a call that gave this number.
pub(crate) fn outcome(number: u8) -> Result<(), Refusal> {
    match number {
        0 => Ok(()),
        number => Err(Refusal(number)),
    }
}
