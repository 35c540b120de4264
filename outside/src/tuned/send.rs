//! Data bits to points: as many line bits in one step as the nearer tap is
//! back, since none of these depends on another of them.

use super::guard::{self, Guard};
use super::symbol;
use crate::refusal::{need, Refusal};
use crate::sender::{self, Sender};

/// What `sender::send` does: refuses by 1, 2, 4, 5, 6 and 7.
pub fn send(
    state: Sender,
    input: &[u8],
    out: &mut [i16],
    offset: usize,
) -> Result<Sender, Refusal> {
    let (mode, _) = sender::checked(&state)?;
    let width = mode.width as usize;
    let all = input.iter().fold(0, |all, bit| all | bit);
    need(all <= 1, Refusal::DATA_BYTE)?;
    need(input.len().is_multiple_of(width), Refusal::BIT_COUNT)?;
    let lent = out.get_mut(offset..).ok_or(Refusal::LENT_NUMBERS)?;
    let points = input.len() / width;
    need(lent.len() / 2 >= points, Refusal::LENT_NUMBERS)?;
    let lent = &mut lent[..2 * points];
    Ok(match (state.mode, state.role) {
        (1, _) => Steps::<1, 6>::of(&state).send(state, input, lent),
        (2, _) => Steps::<2, 6>::of(&state).send(state, input, lent),
        (3, 0) => Steps::<3, 18>::of(&state).send(state, input, lent),
        (3, _) => Steps::<3, 5>::of(&state).send(state, input, lent),
        (4, 0) => Steps::<4, 18>::of(&state).send(state, input, lent),
        (4, _) => Steps::<4, 5>::of(&state).send(state, input, lent),
        (5, _) => Steps::<5, 6>::of(&state).send(state, input, lent),
        (_, _) => Steps::<6, 6>::of(&state).send(state, input, lent),
    })
}

/// The state between steps.
struct Steps<const MODE: u8, const NEAR: usize> {
    /// The last line bits, R of them at least, newest lowest.
    register: u32,
    guard: Guard,
    /// The turns of the last symbol.
    turns: u8,
}

impl<const MODE: u8, const NEAR: usize> Steps<MODE, NEAR> {
    const W: usize = symbol::mode(MODE).width as usize;
    const R: usize = symbol::mode(MODE).register_length as usize;
    const FAR: usize = symbol::mode(MODE).far_tap as usize;
    const GUARD: bool = symbol::mode(MODE).guard;
    /// The line bits of a step: whole groups.
    const STEP: usize = NEAR - NEAR % Self::W;
    /// The turns that a group stands for; in mode 4 its Q1 Q2.
    const TURNS: [u8; 8] = turns_of_groups::<MODE>();
    const SENT: [[i16; 2]; 16] = sent_points::<MODE>();

    fn of(state: &Sender) -> Self {
        Steps {
            register: state.register,
            guard: Guard::of(state.count),
            turns: symbol::of_state::<MODE>(state.reference),
        }
    }

    fn send(mut self, state: Sender, input: &[u8], out: &mut [i16]) -> Sender {
        let mut bits = input.chunks_exact(Self::STEP);
        let mut numbers = out.chunks_exact_mut(2 * Self::STEP / Self::W);
        let mut symbol = self.turns;
        for (bits, numbers) in bits.by_ref().zip(numbers.by_ref()) {
            symbol = self.step(bits, numbers);
        }
        if !bits.remainder().is_empty() {
            symbol = self.step(bits.remainder(), numbers.into_remainder());
        }
        Sender {
            reference: symbol::state::<MODE>(symbol),
            register: self.register & ((1 << Self::R) - 1),
            count: self.guard.count(),
            ..state
        }
    }

    /// Sends some groups' data bits; gives the last symbol.
    #[inline(always)]
    fn step(&mut self, bits: &[u8], numbers: &mut [i16]) -> u8 {
        let count = bits.len();
        let data = bits.iter().fold(0, |data, &bit| data << 1 | u32::from(bit));
        let tapped = self.register >> (NEAR - count) ^ self.register >> (Self::FAR - count);
        let mut line = (data ^ tapped) & ((1 << count) - 1);
        if Self::GUARD {
            line ^= self.inverted(line, count as u32);
        }
        self.register = self.register << count | line;
        let mut symbol = 0;
        for (k, point) in numbers.chunks_exact_mut(2).enumerate() {
            let group = (line >> (count - Self::W * (k + 1))) as u8;
            symbol = self.next_symbol(group);
            point.copy_from_slice(&Self::SENT[usize::from(symbol)]);
        }
        symbol
    }

    /// The bits of a step that the guard inverts. It compares with line bits before
    /// the step alone, and an inverted one is not compared.
    #[inline(always)]
    fn inverted(&mut self, line: u32, count: u32) -> u32 {
        let differing = guard::differing(self.register << count | line);
        self.guard.take(differing & ((1 << count) - 1), count)
    }

    /// The symbol of a group, whose lowest bits alone count.
    #[inline(always)]
    fn next_symbol(&mut self, group: u8) -> u8 {
        let (dibits, levels) = if MODE == 4 {
            (group >> 2 & 3, group & 3)
        } else {
            (group & ((1 << Self::W) - 1), 0)
        };
        let turns = self.turns.wrapping_add(Self::TURNS[usize::from(dibits)]);
        self.turns = turns & symbol::turns_mask::<MODE>();
        self.turns | levels << 2
    }
}

/// The inverse of the differential code from the first state.
const fn turns_of_groups<const MODE: u8>() -> [u8; 8] {
    let mut found = [0; 8];
    let mut turns = 0;
    while turns <= symbol::turns_mask::<MODE>() {
        let group = symbol::group::<MODE>(0, turns);
        found[(if MODE == 4 { group >> 2 } else { group }) as usize] = turns;
        turns += 1;
    }
    found
}

/// The sent points by their symbols.
const fn sent_points<const MODE: u8>() -> [[i16; 2]; 16] {
    let mut points = [[0; 2]; 16];
    let mut symbol = 0;
    while symbol < 16 {
        let sent = symbol::sent::<MODE>(symbol);
        points[symbol as usize] = [sent.re, sent.im];
        symbol += 1;
    }
    points
}
