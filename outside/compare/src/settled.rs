//! Settled data bits in runs: of what the library's receiver wrote, with points at
//! the origin and gaps among blocks of any size, joined and held against single
//! answers; of any bytes; and each fault of a call alone and beside every other.

use kerambiu::raw as ours;
use outside::mode::Mode;
use outside::receiver::{self, Answer, Receiver};
use outside::refusal;
use outside::rng::Rng;
use outside::sender;
use outside::settled::{self, Run};

use crate::layout::{self, ANSWER, STATE};
use crate::signal::Signal;
use crate::tally::Tally;
use crate::{faults, sending};

const SEED: u64 = 10;
/// The numbers of a run.
const NUMBERS: usize = 3;
/// The most data points of a signal.
const MOST_POINTS: i64 = 1_000;
/// Blocks of any bytes for each signal.
const ANY_BYTES: u64 = 40;

/// What a call is given: a mode, the bytes of a block, and lent parts.
struct Call<'a> {
    mode: u8,
    line: &'a [u8],
    plain: &'a [u8],
    lent_bits: usize,
    lent_numbers: usize,
}

/// A call's number, and the lent parts after it.
#[derive(Clone, PartialEq, Debug)]
struct Told {
    number: u8,
    out: Vec<u8>,
    run: Vec<usize>,
}

/// Runs a call on both sides. Bytes beyond the run's bits, numbers beyond the
/// three, and all where the call is refused stay as they were.
fn run(tally: &mut Tally, rng: &mut Rng, call: &Call) -> Told {
    let before = Told {
        number: 0,
        out: (0..call.lent_bits).map(|_| rng.next_u64() as u8).collect(),
        run: (0..call.lent_numbers)
            .map(|_| rng.next_u64() as usize)
            .collect(),
    };
    let (mut told, mut right) = (before.clone(), before.clone());
    let outcome = settled::settled_bits(
        call.mode,
        call.line,
        call.plain,
        &mut right.out,
        &mut right.run,
    );
    right.number = refusal::number(outcome);
    let (out, numbers) = (&mut told.out, &mut told.run);
    told.number = ours::settled_bits(call.mode, call.line, call.plain, out, numbers);
    tally.count(told.number);
    tally.check(told == right, || {
        let (mode, points) = (call.mode, call.line.len());
        let [ours, outside] = [&told, &right].map(|told| (told.number, &told.run));
        format!("settled bits, mode {mode}, {points} points: {ours:?}, outside {outside:?}")
    });
    let (bits, numbers) = match told.number {
        0 => (told.run[2].min(call.lent_bits), NUMBERS),
        _ => (0, 0),
    };
    let kept =
        told.out[bits..] == before.out[bits..] && told.run[numbers..] == before.run[numbers..];
    tally.check(kept, || format!("{} and written beyond", told.number));
    told
}

/// What was found.
#[derive(Default)]
struct Found {
    blocks: u64,
    runs: u64,
    bits: u64,
    /// Runs that began within a point.
    within: u64,
}

/// Every run of a block: the first one of what is behind the run before. Gives
/// where each begins and ends, and its bits.
fn all_runs(
    tally: &mut Tally,
    rng: &mut Rng,
    mode: &Mode,
    (line, plain): (&[u8], &[u8]),
    found: &mut Found,
) -> Vec<(usize, usize, Vec<u8>)> {
    let (mut from, mut runs) = (0, Vec::new());
    loop {
        let (line, plain) = (&line[from..], &plain[from..]);
        let bits = settled::first_run(mode.width as usize, line, plain).bits;
        let call = Call {
            mode: mode.number,
            line,
            plain,
            lent_bits: bits + rng.below(3) as usize,
            lent_numbers: NUMBERS + rng.below(2) as usize,
        };
        let told = run(tally, rng, &call);
        tally.check(told.number == 0, || {
            format!("settled bits: {}", told.number)
        });
        let [first, points, bits] = [0, 1, 2].map(|k| told.run[k]);
        // A call that is not as it has to be ends the search, not the program.
        let sound = told.number == 0 && first.saturating_add(points) <= line.len();
        if !sound || points == 0 || bits > told.out.len() {
            found.blocks += 1;
            return runs;
        }
        found.runs += 1;
        found.bits += bits as u64;
        found.within += u64::from(bits < points * mode.width as usize);
        let begin = from + first;
        from = begin + points;
        runs.push((begin, from, told.out[..bits].to_vec()));
    }
}

/// A training and data, with points at the origin among both.
fn sent(rng: &mut Rng, signal: Signal) -> Vec<i16> {
    let (mode, role) = (signal.mode, signal.role);
    let (length, _) = sending::lengths(mode);
    let training = 2 * sending::intervals(mode, length);
    let points = rng.between(1, MOST_POINTS) as usize;
    let mut numbers = vec![0; training + 2 * points];
    let opened = sender::open(mode.number, role, length, &mut numbers, 0).expect("opened");
    let data = rng.bits(points * mode.width as usize);
    sender::send(opened, &data, &mut numbers, training).expect("sent");
    let apart = rng.pick(&[5, 30, 200]);
    for pair in numbers.chunks_exact_mut(2) {
        if rng.below(apart) == 0 {
            pair.fill(0);
        }
    }
    numbers
}

/// A receiver of the library, and one of the outside implementation with its
/// single answers.
struct Receivers {
    state: [u8; STATE],
    plain: Receiver,
    answers: Vec<Answer>,
}

impl Receivers {
    /// Takes points; gives the bytes that the library wrote.
    fn points(&mut self, tally: &mut Tally, numbers: &[i16]) -> (Vec<u8>, Vec<u8>) {
        let count = numbers.len() / 2;
        let (mut line, mut plain) = (vec![0; count], vec![0; count]);
        let distance = &mut vec![0; count];
        let state = &mut self.state;
        let number = ours::receive_points(state, numbers, &mut line, &mut plain, distance);
        tally.check(number == 0, || format!("points refused with {number}"));
        for pair in numbers.chunks_exact(2) {
            let told = receiver::receive_point(self.plain, pair[0], pair[1]);
            self.keep(told.expect("in range"));
        }
        (line, plain)
    }

    fn gap(&mut self, tally: &mut Tally, n: u32) {
        let number = ours::receive_gap(&mut self.state, n, &mut [0; ANSWER]);
        tally.check(number == 0, || format!("gap refused with {number}"));
        self.keep(receiver::receive_gap(self.plain, n).expect("a gap"));
    }

    fn keep(&mut self, (answer, next): (Answer, Receiver)) {
        self.answers.push(answer);
        self.plain = next;
    }
}

/// A signal in blocks of any size, now and then with a gap between them. The runs
/// of all blocks, joined where one goes on at the front of the next, are what the
/// single answers give between gaps.
fn run_signal(tally: &mut Tally, rng: &mut Rng, signal: Signal, found: &mut Found) {
    let plain = signal.receiver();
    let mut receivers = Receivers {
        state: layout::receiver_bytes(&plain),
        plain,
        answers: Vec::new(),
    };
    let numbers = sent(rng, signal);
    let (mut rest, mut joined, mut goes_on) = (&numbers[..], Vec::<Vec<u8>>::new(), false);
    while !rest.is_empty() {
        let most = rng.pick(&[3, 40, 1_000]).min(rest.len() as i64 / 2);
        let (block, behind) = rest.split_at(2 * rng.between(1, most) as usize);
        let (line, plain) = receivers.points(tally, block);
        let mut end = 0;
        for (begin, next, bits) in all_runs(tally, rng, signal.mode, (&line, &plain), found) {
            match joined.last_mut() {
                Some(last) if begin == 0 && goes_on => last.extend(bits),
                _ => joined.push(bits),
            }
            end = next;
        }
        (goes_on, rest) = (end == line.len(), behind);
        if rng.below(8) == 0 {
            receivers.gap(tally, 1 + rng.below(1_000) as u32);
        }
    }
    let right = settled::between_gaps(signal.mode, &receivers.answers);
    tally.check(joined == right, || {
        format!("{signal:?}: not the single answers")
    });
}

/// The bytes of a point: those that a receiver writes, others near them, or any.
fn any_bytes(rng: &mut Rng) -> (u8, u8) {
    let line = match rng.below(8) {
        0 => rng.below(256),
        1 => rng.between(15, 18) as u64,
        _ => rng.below(16),
    };
    let plain = match rng.below(8) {
        0 => rng.below(256),
        1 => 16 * rng.below(6) + rng.below(16),
        _ => rng.below(16),
    };
    (line as u8, plain as u8)
}

/// Blocks of any bytes, all runs of each.
fn run_any_bytes(tally: &mut Tally, rng: &mut Rng, mode: &Mode, found: &mut Found) {
    let count = rng.below(60);
    let wild = rng.below(4) == 0;
    let one = |_| match wild {
        true => (rng.next_u64() as u8, rng.next_u64() as u8),
        false => any_bytes(rng),
    };
    let (line, plain): (Vec<u8>, Vec<u8>) = (0..count).map(one).unzip();
    all_runs(tally, rng, mode, (&line, &plain), found);
}

/// What is wrong with a call.
#[derive(Clone, Copy, PartialEq)]
enum Fault {
    Mode,
    PlainCount,
    ShortOut,
    ShortRun,
}

const FAULTS: [(Fault, u8); 4] = [
    (Fault::Mode, 1),
    (Fault::PlainCount, 7),
    (Fault::ShortOut, 7),
    (Fault::ShortRun, 7),
];

/// A call with some faults: the lowest of their numbers refuses it.
fn run_faults(tally: &mut Tally, rng: &mut Rng, faults: &[(Fault, u8)]) {
    let (mode, _) = rng.mode_and_role();
    let has = |fault: Fault| faults.iter().any(|&(other, _)| other == fault);
    let count = 1 + rng.below(30) as usize;
    let (mut line, mut plain): (Vec<u8>, Vec<u8>) = (0..count).map(|_| any_bytes(rng)).unzip();
    // A point with settled bits, so that there is a run.
    let at = rng.below(count as u64) as usize;
    (line[at], plain[at]) = (rng.below(16) as u8, rng.below(16) as u8);
    let Run { bits, .. } = settled::first_run(mode.width as usize, &line, &plain);
    if has(Fault::PlainCount) {
        let other = rng.below(2 * count as u64) as usize;
        plain.resize(other + usize::from(other >= count), 0);
    }
    let fewer = rng.below(bits as u64) as usize;
    let call = Call {
        mode: match has(Fault::Mode) {
            true => faults::no_mode(rng),
            false => mode.number,
        },
        line: &line,
        plain: &plain,
        lent_bits: match has(Fault::ShortOut) {
            true => rng.pick(&[0, bits - 1, fewer]),
            false => bits + rng.below(3) as usize,
        },
        lent_numbers: match has(Fault::ShortRun) {
            true => rng.below(NUMBERS as u64) as usize,
            false => NUMBERS + rng.below(3) as usize,
        },
    };
    let told = run(tally, rng, &call);
    let numbers: Vec<u8> = faults.iter().map(|&(_, number)| number).collect();
    tally.expect_lowest(&numbers, told.number);
}

/// No fault, each alone, and every two of them.
fn run_all_faults(tally: &mut Tally, rng: &mut Rng) {
    run_faults(tally, rng, &[]);
    for (k, &first) in FAULTS.iter().enumerate() {
        run_faults(tally, rng, &[first]);
        for &second in &FAULTS[k + 1..] {
            run_faults(tally, rng, &[first, second]);
        }
    }
}

/// Compares `lists` signals of each mode and role; whether there was no
/// difference.
pub fn compare(lists: u64) -> bool {
    let mut tally = Tally::default();
    let mut rng = Rng::new(SEED);
    let (mut received, mut any) = (Found::default(), Found::default());
    for signal in (0..lists).flat_map(|_| Signal::all()) {
        run_signal(&mut tally, &mut rng, signal, &mut received);
        for _ in 0..ANY_BYTES {
            run_any_bytes(&mut tally, &mut rng, signal.mode, &mut any);
        }
        run_all_faults(&mut tally, &mut rng);
    }
    for (what, found) in [("received", received), ("any bytes", any)] {
        let Found {
            blocks,
            runs,
            bits,
            within,
        } = found;
        println!(
            "v41: settled bits, {what}: {blocks} blocks, {runs} runs, {within} from within a point, {bits} bits; seed {SEED}"
        );
        tally.check(within > 0 && within < runs, || {
            format!("{what}: no such run")
        });
    }
    tally.expect_each_two(&[1, 7]);
    tally.report("v41 settled bits", &[0, 1, 7])
}
