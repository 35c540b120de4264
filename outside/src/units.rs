//! Kinds of number that are never taken for each other (document 01,
//! "Receiver": a place in unit intervals is never taken for a count of bits).

/// A number of unit intervals: a place on the track, or the length of a gap.
#[derive(Clone, Copy, PartialEq, Eq, PartialOrd, Ord, Hash, Debug)]
pub struct UnitIntervals(pub u32);

impl UnitIntervals {
    /// The sum, unless it is above 4294967295.
    pub fn plus(self, other: UnitIntervals) -> Option<UnitIntervals> {
        self.0.checked_add(other.0).map(UnitIntervals)
    }
}

/// A number of line bits. It is wider than any register, so that a handed-in
/// state can hold a count out of range.
#[derive(Clone, Copy, PartialEq, Eq, PartialOrd, Ord, Hash, Debug)]
pub struct BitCount(pub u32);

/// A squared distance between two points, in units of which 1024 are one level
/// (document 02, R-1). It is no count of intervals or of bits.
#[derive(Clone, Copy, PartialEq, Eq, PartialOrd, Ord, Hash, Debug)]
pub struct SquaredUnits(pub u32);

/// The guard's count over line bits (document 02, R-6). It is no count of held
/// ones, and wider than its range, so that a handed-in state can be out of it.
#[derive(Clone, Copy, PartialEq, Eq, PartialOrd, Ord, Hash, Debug)]
pub struct GuardCount(pub u8);
