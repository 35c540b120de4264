//! Opening and sending: training sequences, data in lists of calls, and the
//! refusals 1 to 7.

use kerambiu::raw as ours;
use outside::mode::{modes_and_roles, Line, Mode};
use outside::rng::Rng;
use outside::sender::{self, Sender};
use outside::training::Training;
use outside::tuned;
use outside::units::BitCount;

use crate::layout::{self, STATE};
use crate::tally::Tally;
use crate::{faults, guard};

/// A lent number before a call, to show what a call leaves.
const UNWRITTEN: i16 = 0x5a5a;
const SEED: u64 = 2;

/// What opening is given.
struct Opening {
    mode: u8,
    role: u8,
    length: u32,
    lent: usize,
    offset: usize,
    state_size: usize,
}

/// Opens on both sides; gives the number.
fn run_open(tally: &mut Tally, call: &Opening) -> u8 {
    let mut out = vec![UNWRITTEN; call.lent];
    let (mut right_out, mut state) = (out.clone(), vec![0x33; call.state_size]);
    let mut right_state = state.clone();
    let number = ours::open(
        &mut state,
        call.mode,
        call.role,
        call.length,
        &mut out,
        call.offset,
    );
    tally.count(number);
    // Without the bytes of a state nothing is written.
    let mut scratch = right_out.clone();
    let right = match sender::open(call.mode, call.role, call.length, &mut scratch, call.offset) {
        Err(refusal) => refusal.0,
        Ok(_) if call.state_size < STATE => 7,
        Ok(opened) => {
            right_state[..STATE].copy_from_slice(&layout::sender_bytes(&opened));
            right_out = scratch;
            0
        }
    };
    let same = number == right && state == right_state && out == right_out;
    tally.check(same, || {
        format!(
            "open {} {} {}: {number}, outside {right}",
            call.mode, call.role, call.length
        )
    });
    number
}

/// The number, the state and the lent numbers after a call.
pub struct Sent {
    pub number: u8,
    pub state: Vec<u8>,
    pub out: Vec<i16>,
}

/// What the outside implementation makes of a call. Of a state of too few bytes
/// nothing is judged: number 7, unless a data byte gives the lower 5.
fn expected(tally: &mut Tally, state: &[u8], input: &[u8], lent: usize, offset: usize) -> Sent {
    let mut right = Sent {
        number: 0,
        state: state.to_vec(),
        out: vec![UNWRITTEN; lent],
    };
    let Some(bytes) = right.state.first_chunk_mut::<STATE>() else {
        let wrong = input.iter().any(|&byte| byte > 1);
        right.number = if wrong { 5 } else { 7 };
        return right;
    };
    let mut tuned_out = right.out.clone();
    let start = layout::sender_of(bytes);
    let told = sender::send(start, input, &mut right.out, offset);
    match told {
        Err(refusal) => right.number = refusal.0,
        Ok(next) => *bytes = layout::sender_bytes(&next),
    }
    let tuned = tuned::send(start, input, &mut tuned_out, offset);
    tally.check(tuned == told && tuned_out == right.out, || {
        format!("send {start:?} {input:?} {lent} {offset}: tuned {tuned:?}, plain {told:?}")
    });
    right
}

/// Sends on both sides, into so many lent numbers.
pub fn run_send(tally: &mut Tally, state: &[u8], input: &[u8], lent: usize, offset: usize) -> Sent {
    let (mut after, mut out) = (state.to_vec(), vec![UNWRITTEN; lent]);
    let number = ours::send(&mut after, input, &mut out, offset);
    tally.count(number);
    let right = expected(tally, state, input, lent, offset);
    let same = number == right.number && after == right.state && out == right.out;
    tally.check(same, || {
        let right = right.number;
        format!("send {state:?} {input:?} {lent} {offset}: {number}, outside {right}")
    });
    Sent {
        number,
        state: after,
        out,
    }
}

/// The points of a training, none where the mode has no such length.
pub fn intervals(mode: &Mode, length: u32) -> usize {
    Training::of(mode, length).map_or(0, |training| training.intervals())
}

/// The least and the greatest training length of a mode.
pub fn lengths(mode: &Mode) -> (u32, u32) {
    match mode.line {
        Line::V27ter => (0, 1),
        Line::V32 => (1280, 8192),
    }
}

/// Every training sequence, at some offset, with numbers left before and behind.
fn run_trainings(tally: &mut Tally, rng: &mut Rng) {
    for (mode, role) in modes_and_roles() {
        let (least, most) = lengths(mode);
        for length in least..=most {
            let offset = rng.below(9) as usize;
            let behind = rng.below(9) as usize;
            let call = Opening {
                mode: mode.number,
                role,
                length,
                lent: offset + 2 * intervals(mode, length) + behind,
                offset,
                state_size: STATE + rng.below(3) as usize,
            };
            run_open(tally, &call);
        }
    }
}

/// A state that numbers 1, 2 and 4 let pass.
pub fn sound_state(rng: &mut Rng, mode: &Mode, role: u8) -> [u8; STATE] {
    layout::sender_bytes(&Sender {
        mode: mode.number,
        role,
        reference: rng.pick(mode.states),
        register: rng.below(1 << mode.register_length) as u32,
        held: BitCount(mode.register_length),
        count: guard::random_count(rng, mode),
    })
}

/// A list of sending calls of random data, refused ones among them.
fn run_data(tally: &mut Tally, rng: &mut Rng) {
    let (mode, role) = rng.mode_and_role();
    let mut state = sound_state(rng, mode, role).to_vec();
    // Bytes behind a state are left.
    state.extend(rng.bits(3));
    for _ in 0..rng.between(1, 12) {
        let points = rng.below(40) as usize;
        let input = rng.bits(points * mode.width as usize);
        let offset = rng.below(7) as usize;
        let lent = offset + 2 * points + rng.below(5) as usize;
        state = run_send(tally, &state, &input, lent, offset).state;
    }
}

/// Breaks another field of a state than mode and role.
fn break_field(rng: &mut Rng, mode: &Mode, state: &mut [u8; STATE]) {
    match rng.below(6) {
        0 => state[2] = faults::no_state(rng, mode),
        1 => state[8] = rng.below(u64::from(mode.register_length)) as u8,
        2 => state[8] = rng.between(i64::from(mode.register_length) + 1, 255) as u8,
        3 => state[4..8].copy_from_slice(
            &(1u32 << rng.between(i64::from(mode.register_length), 31)).to_le_bytes(),
        ),
        4 => state[9] = faults::no_count(rng, mode),
        _ => {
            let zero = rng.pick(&[3, 10, 11, 12, 13, 14, 15]);
            state[zero] = rng.between(1, 255) as u8;
        }
    }
}

/// A sending call.
struct Sending {
    state: [u8; STATE],
    input: Vec<u8>,
    lent: usize,
    offset: usize,
}

impl Sending {
    /// A call of a few points that the state alone can refuse.
    fn of(rng: &mut Rng, mode: &Mode, state: [u8; STATE]) -> Sending {
        let points = 1 + rng.below(9) as usize;
        let offset = rng.below(7) as usize;
        Sending {
            state,
            input: rng.bits(mode.width as usize * points),
            lent: offset + 2 * points,
            offset,
        }
    }

    /// Puts in the fault of one of the numbers 1, 2, 4, 5, 6 and 7.
    fn put_fault(&mut self, rng: &mut Rng, mode: &Mode, fault: u8) {
        match fault {
            1 => self.state[0] = faults::no_mode(rng),
            2 => self.state[1] = faults::no_role(rng, mode),
            4 => break_field(rng, mode, &mut self.state),
            5 => {
                let at = rng.below(self.input.len() as u64) as usize;
                self.input[at] = rng.between(2, 255) as u8;
            }
            6 => self.input.push(0),
            _ => self.lent -= 1 + rng.below(self.lent as u64) as usize,
        }
    }

    /// The lowest number of the faults that are in the call comes.
    fn run(&self, tally: &mut Tally, faults: &[u8]) {
        let sent = run_send(tally, &self.state, &self.input, self.lent, self.offset);
        tally.expect_lowest(faults, sent.number);
    }
}

/// A sending call with one or two of the faults.
fn run_send_faults(tally: &mut Tally, rng: &mut Rng) {
    let (mode, role) = rng.mode_and_role();
    let state = sound_state(rng, mode, role);
    let mut call = Sending::of(rng, mode, state);
    let faults = faults::one_or_two(rng, &[1, 2, 4, 5, 6, 7]);
    for &fault in &faults {
        call.put_fault(rng, mode, fault);
    }
    call.run(tally, &faults);
}

/// Held line bits and count about their limits, in every combination: alone, and
/// beside each other fault of a sending call.
fn run_limits(tally: &mut Tally, rng: &mut Rng) {
    for (mode, role) in modes_and_roles() {
        for receiver in faults::states_about_limits(mode, role) {
            let Some(reference) = receiver.reference else {
                continue;
            };
            let state = Sender {
                mode: mode.number,
                role,
                reference,
                register: receiver.register,
                held: receiver.held,
                count: receiver.count,
            };
            for other in [0, 1, 2, 5, 6, 7] {
                let mut call = Sending::of(rng, mode, layout::sender_bytes(&state));
                let mut faults = faults::of_sender(mode, &state);
                if other > 0 {
                    call.put_fault(rng, mode, other);
                    faults.push(other);
                }
                call.run(tally, &faults);
            }
        }
    }
}

/// A state of too few bytes, with and without a data byte above 1: bits that are
/// a multiple of w or not, and lent numbers that are enough or not.
fn run_short_state(tally: &mut Tally, rng: &mut Rng, state: &[u8]) {
    for count in 0..=8 {
        for (lent, offset) in [(0, 0), (0, 1), (9, 1), (9, 10)] {
            let mut input = rng.bits(count);
            let sent = run_send(tally, state, &input, lent, offset);
            tally.expect_lowest(&[7], sent.number);
            if count > 0 {
                let at = rng.below(count as u64) as usize;
                input[at] = rng.between(2, 255) as u8;
                let sent = run_send(tally, state, &input, lent, offset);
                tally.expect_lowest(&[7, 5], sent.number);
            }
        }
    }
}

/// The first bytes of a state, and bytes that no state begins with.
fn run_short_states(tally: &mut Tally, rng: &mut Rng) {
    for size in 0..STATE {
        for (mode, role) in modes_and_roles() {
            let state = sound_state(rng, mode, role);
            run_short_state(tally, rng, &state[..size]);
        }
        run_short_state(tally, rng, &[255; STATE][..size]);
    }
}

/// An opening with one or two of the faults 1, 2, 3 and 7 (numbers or bytes too few).
fn run_open_faults(tally: &mut Tally, rng: &mut Rng) {
    let (mode, role) = rng.mode_and_role();
    let (least, most) = lengths(mode);
    let mut call = Opening {
        mode: mode.number,
        role,
        length: rng.between(i64::from(least), i64::from(most)) as u32,
        lent: 0,
        offset: rng.below(5) as usize,
        state_size: STATE,
    };
    call.lent = call.offset + 2 * intervals(mode, call.length);
    let faults = faults::one_or_two(rng, &[1, 2, 3, 7]);
    for &fault in &faults {
        match fault {
            1 => call.mode = faults::no_mode(rng),
            2 => call.role = faults::no_role(rng, mode),
            3 if mode.line == Line::V27ter => call.length = rng.between(2, 9000) as u32,
            3 => {
                let beyond = [rng.below(1280) as u32, rng.between(8193, 1 << 31) as u32];
                call.length = rng.pick(&beyond);
            }
            _ => match rng.below(3) {
                0 => call.lent -= 1 + rng.below(call.lent as u64) as usize,
                1 => call.offset = call.lent + 1 + rng.below(9) as usize,
                _ => call.state_size = rng.below(STATE as u64) as usize,
            },
        }
    }
    let number = run_open(tally, &call);
    tally.expect_lowest(&faults, number);
}

/// Compares openings and `calls` sending calls; whether there was no difference.
pub fn compare(calls: u64) -> bool {
    let mut tally = Tally::default();
    let mut rng = Rng::new(SEED);
    run_trainings(&mut tally, &mut rng);
    println!(
        "sender: all {} training sequences; data, seed {SEED}",
        tally.calls()
    );
    run_short_states(&mut tally, &mut rng);
    run_limits(&mut tally, &mut rng);
    let others = tally.calls();
    while tally.calls() < others + calls {
        run_data(&mut tally, &mut rng);
        run_send_faults(&mut tally, &mut rng);
        if rng.below(8) == 0 {
            run_open_faults(&mut tally, &mut rng);
        }
    }
    for numbers in [&[1, 2, 4, 5, 6, 7][..], &[1, 2, 3, 7]] {
        tally.expect_each_two(numbers);
    }
    tally.report("sender", &[0, 1, 2, 3, 4, 5, 6, 7])
}
