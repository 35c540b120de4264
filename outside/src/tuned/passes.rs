//! Blocks of points, received in passes over a stretch of them: symbols, line
//! bits, data bits, distances. The descrambler has no feedback, so no pass waits
//! for the point before, and the compiler has each take several points at once;
//! origin points, unsettled bits and what the guard inverts are put in afterwards.

use super::guard::Guard;
use super::symbol::{self, ORIGIN};
use crate::receiver::{Receiver, GAP_BYTE, REFERENCE_BYTE};
use crate::scrambler::GUARD_TAPS;
use crate::units::{BitCount, UnitIntervals};

/// The points that a pass goes over.
const STRETCH: usize = 128;
/// The groups of line bits kept from before: they hold 23 line bits.
const BACK: usize = 12;

/// Takes points that are not refused, a stretch at a time. Distances are found
/// only if there is a place for them.
pub fn receive<const MODE: u8, const NEAR: u32>(
    state: Receiver,
    points: &[i16],
    line: &mut [u8],
    plain: &mut [u8],
    distance: Option<&mut [u32]>,
) -> Receiver {
    let mut passes = Passes::<MODE, NEAR>::of(&state);
    let bytes = line.chunks_mut(STRETCH).zip(plain.chunks_mut(STRETCH));
    let mut distances = distance.unwrap_or_default().chunks_mut(STRETCH);
    for (points, (line, plain)) in points.chunks(2 * STRETCH).zip(bytes) {
        let coordinates = Coordinates::of(points);
        passes.take(&coordinates, line, plain);
        if let Some(distance) = distances.next() {
            coordinates.measure::<MODE>(&passes.symbols[1..], distance);
        }
    }
    let intervals = (points.len() / 2) as u32;
    Receiver {
        reference: passes.reference(),
        register: passes.register(),
        held: BitCount(passes.held as u32),
        count: passes.guard.count(),
        place: UnitIntervals(state.place.0 + intervals),
        ..state
    }
}

/// The state between stretches, and what the passes hand on.
struct Passes<const MODE: u8, const NEAR: u32> {
    /// The reference's symbol, then those of the stretch.
    symbols: [u8; 1 + STRETCH],
    /// The last groups before the stretch, then those of the stretch.
    groups: [u8; BACK + STRETCH],
    has_reference: bool,
    /// Line bits since the last gap, at most R.
    held: usize,
    guard: Guard,
}

impl<const MODE: u8, const NEAR: u32> Passes<MODE, NEAR> {
    const W: usize = symbol::mode(MODE).width as usize;
    const R: usize = symbol::mode(MODE).register_length as usize;
    const FAR: usize = symbol::mode(MODE).far_tap as usize;
    const GUARD: bool = symbol::mode(MODE).guard;
    const ALL: u8 = (1 << Self::W) - 1;

    fn of(state: &Receiver) -> Self {
        let mut passes = Passes {
            symbols: [0; 1 + STRETCH],
            groups: [0; BACK + STRETCH],
            has_reference: state.reference.is_some(),
            held: state.held.0 as usize,
            guard: Guard::of(state.count),
        };
        passes.symbols[0] = symbol::of_state::<MODE>(state.reference.unwrap_or(0));
        for (back, group) in passes.groups[..BACK].iter_mut().rev().enumerate() {
            *group = (u64::from(state.register) >> (Self::W * back)) as u8 & Self::ALL;
        }
        passes
    }

    fn take(&mut self, points: &Coordinates, line: &mut [u8], plain: &mut [u8]) {
        let count = line.len();
        points.decide::<MODE>(&mut self.symbols[1..=count]);
        let symbols = self.symbols.iter().zip(&self.symbols[1..=count]);
        for (group, (&before, &symbol)) in self.groups[BACK..].iter_mut().zip(symbols) {
            *group = symbol::group::<MODE>(before, symbol);
        }
        line.copy_from_slice(&self.groups[BACK..BACK + count]);
        self.descramble(plain);
        let marks = self.symbols[1..=count].iter().fold(0, |all, one| all | one);
        if marks >= ORIGIN || !self.has_reference || self.held < Self::R {
            self.mark(line, plain);
        }
        if Self::GUARD {
            self.invert(line, plain);
        }
        self.symbols[0] = self.symbols[count];
        self.groups.copy_within(count..count + BACK, 0);
    }

    /// The groups that stand so many before those of the stretch.
    #[inline(always)]
    fn back(&self, groups: usize, count: usize) -> &[u8] {
        &self.groups[BACK - groups..BACK - groups + count]
    }

    /// For each group of the stretch the line bits `tap` back, all of them in its
    /// lowest bits.
    #[inline(always)]
    fn tapped(&self, tap: usize, count: usize) -> impl Iterator<Item = u8> + '_ {
        let later = self.back(tap / Self::W, count).iter();
        let earlier = self.back(tap.div_ceil(Self::W), count);
        later.zip(earlier).map(move |pair| Self::joined(pair, tap))
    }

    /// Data bits of the stretch: each line bit and those at the two taps.
    fn descramble(&self, plain: &mut [u8]) {
        let count = plain.len();
        let near = self.tapped(NEAR as usize, count);
        let taps = near.zip(self.tapped(Self::FAR, count));
        for ((plain, line), (near, far)) in plain.iter_mut().zip(self.back(0, count)).zip(taps) {
            *plain = (line ^ near ^ far) & Self::ALL;
        }
    }

    /// The line bits of the stretch that differ from all three that the guard
    /// compares them with.
    fn differing(&self, count: usize) -> [u8; STRETCH] {
        let mut differing = [0; STRETCH];
        let [one, two, three] = GUARD_TAPS.map(|tap| self.tapped(tap as usize, count));
        let taps = one.zip(two).zip(three);
        let groups = self.back(0, count).iter().zip(taps);
        for (differing, (line, ((one, two), three))) in differing.iter_mut().zip(groups) {
            *differing = (line ^ one) & (line ^ two) & (line ^ three) & Self::ALL;
        }
        differing
    }

    /// Puts in what the guard inverts, from the bytes as they are marked: a group
    /// after the other, since each count follows from the one before.
    fn invert(&mut self, line: &[u8], plain: &mut [u8]) {
        let differing = self.differing(line.len());
        for ((line, plain), differing) in line.iter().zip(plain).zip(differing) {
            if *line >= REFERENCE_BYTE {
                self.guard.clear();
                continue;
            }
            let unsettled = u32::from(*plain >> 4);
            let settled = Self::ALL >> unsettled;
            let bits = Self::W as u32 - unsettled;
            *plain ^= self.guard.take(u32::from(differing & settled), bits) as u8;
        }
    }

    /// The line bits `tap` back from a group's: the end of the earlier group
    /// and the start of the later one, which are one group if w divides `tap`.
    #[inline(always)]
    fn joined((later, earlier): (&u8, &u8), tap: usize) -> u8 {
        match tap % Self::W {
            0 => *later,
            rest => earlier << (Self::W - rest) | later >> rest,
        }
    }

    /// Puts in the bytes of origin points and what follows from them. What the
    /// passes made of a settled bit does not depend on line bits before a gap.
    fn mark(&mut self, line: &mut [u8], plain: &mut [u8]) {
        let mut at = 0;
        loop {
            let end = at + until_origin(&self.symbols[1 + at..1 + line.len()]);
            self.mark_run(&mut line[at..end], &mut plain[at..end]);
            if end == line.len() {
                return;
            }
            (line[end], plain[end]) = (GAP_BYTE, 0);
            (self.has_reference, self.held) = (false, 0);
            at = end + 1;
        }
    }

    /// Marks the reference and the unsettled bits of points without a gap.
    fn mark_run(&mut self, line: &mut [u8], plain: &mut [u8]) {
        let mut plain = plain.iter_mut();
        if !self.has_reference {
            let (Some(line), Some(plain)) = (line.first_mut(), plain.next()) else {
                return;
            };
            (*line, *plain) = (REFERENCE_BYTE, 0);
            self.has_reference = true;
        }
        for plain in plain {
            if self.held == Self::R {
                return;
            }
            let unsettled = Self::W.min(Self::R - self.held);
            *plain = (*plain & (Self::ALL >> unsettled)) + 16 * unsettled as u8;
            self.held = Self::R.min(self.held + Self::W);
        }
    }

    fn reference(&self) -> Option<u8> {
        self.has_reference
            .then(|| symbol::state::<MODE>(self.symbols[0]))
    }

    /// The held line bits, newest lowest.
    fn register(&self) -> u32 {
        let bits = self.groups[..BACK]
            .iter()
            .fold(0, |bits, &group| bits << Self::W | u64::from(group));
        (bits & ((1 << self.held) - 1)) as u32
    }
}

/// The coordinates of a stretch, each kind by itself.
struct Coordinates {
    re: [i16; STRETCH],
    im: [i16; STRETCH],
}

impl Coordinates {
    const ZEROS: Coordinates = Coordinates {
        re: [0; STRETCH],
        im: [0; STRETCH],
    };

    fn of(points: &[i16]) -> Coordinates {
        let mut split = Coordinates::ZEROS;
        let each = split.re.iter_mut().zip(&mut split.im);
        for (point, (re, im)) in points.chunks_exact(2).zip(each) {
            (*re, *im) = (point[0], point[1]);
        }
        split
    }

    fn decide<const MODE: u8>(&self, symbols: &mut [u8]) {
        for ((symbol, &re), &im) in symbols.iter_mut().zip(&self.re).zip(&self.im) {
            *symbol = symbol::decide::<MODE>(re, im);
        }
    }

    /// Distances from the sent points of symbols. The squares have a loop of
    /// their own: in the first one all numbers are of 16 bits, and twice as many
    /// are taken at once.
    fn measure<const MODE: u8>(&self, symbols: &[u8], distances: &mut [u32]) {
        let mut apart = Coordinates::ZEROS;
        let coordinates = self.re.iter().zip(&self.im).zip(symbols);
        let each = apart.re.iter_mut().zip(&mut apart.im);
        for ((x, y), ((&re, &im), &symbol)) in each.zip(coordinates) {
            (*x, *y) = symbol::apart::<MODE>(re, im, symbol);
        }
        for ((distance, &x), &y) in distances.iter_mut().zip(&apart.re).zip(&apart.im) {
            *distance = symbol::squared((x, y));
        }
    }
}

/// How many symbols stand before the first mark of an origin.
fn until_origin(symbols: &[u8]) -> usize {
    let marked = |symbol: &u8| *symbol >= ORIGIN;
    symbols.iter().position(marked).unwrap_or(symbols.len())
}
