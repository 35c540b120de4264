//! Runs of settled data bits.

use outside::mode::{modes_and_roles, Line, Mode};
use outside::receiver::{self, fresh, Answer};
use outside::refusal::Refusal;
use outside::rng::Rng;
use outside::sender;
use outside::settled::{between_gaps, settled_bits};
use outside::training::Training;

/// The first run: its three numbers and its bits.
fn run(mode: u8, line: &[u8], plain: &[u8]) -> ([usize; 3], Vec<u8>) {
    let (mut out, mut run) = (vec![9; 4 * line.len() + 2], [7; 4]);
    assert_eq!(settled_bits(mode, line, plain, &mut out, &mut run), Ok(()));
    let [first, points, bits, beyond] = run;
    assert_eq!(beyond, 7);
    assert!(out[bits..].iter().all(|&byte| byte == 9));
    out.truncate(bits);
    ([first, points, bits], out)
}

#[test]
fn no_points_and_points_without_settled_bits() {
    assert_eq!(run(1, &[], &[]), ([0, 0, 0], vec![]));
    assert_eq!(run(1, &[16], &[0]), ([1, 0, 0], vec![]));
    let line = [16, 0, 3, 17, 16, 1];
    assert_eq!(run(1, &line, &[0, 32, 32, 0, 0, 32]), ([6, 0, 0], vec![]));
}

#[test]
fn a_run_begins_within_a_point_and_ends_at_a_gap() {
    let line = [16, 0, 0, 0, 3, 1, 17, 16, 1];
    let plain = [0, 32, 32, 17, 2, 1, 0, 0, 32];
    assert_eq!(run(3, &line, &plain), ([3, 3, 5], vec![1, 1, 0, 0, 1]));
    // From behind it there is none.
    assert_eq!(run(3, &line[6..], &plain[6..]), ([3, 0, 0], vec![]));
}

#[test]
fn a_run_goes_on_to_the_end() {
    let (line, plain) = ([5, 9, 1], [0b0110, 0b1001, 0b1111]);
    let bits = vec![0, 1, 1, 0, 1, 0, 0, 1, 1, 1, 1, 1];
    assert_eq!(run(4, &line, &plain), ([0, 3, 12], bits));
}

#[test]
fn a_second_point_that_is_not_all_settled_ends_a_run() {
    let (line, plain) = ([1, 1, 1], [0x12, 0x11, 3]);
    assert_eq!(run(2, &line, &plain), ([0, 1, 2], vec![1, 0]));
    let behind = ([0, 2, 5], vec![0, 1, 0, 1, 1]);
    assert_eq!(run(2, &line[1..], &plain[1..]), behind);
}

/// More unsettled bits than a point has are all of them; bits above w do not
/// count; any line byte of 16 or more is a point without data bits.
#[test]
fn bytes_that_no_receiver_writes() {
    assert_eq!(run(1, &[0, 0], &[255, 0x0e]), ([1, 1, 2], vec![1, 0]));
    assert_eq!(run(1, &[15, 0], &[1, 1]), ([0, 2, 4], vec![0, 1, 0, 1]));
    for byte in 16..=255 {
        assert_eq!(run(2, &[byte, 7], &[5, 5]), ([1, 1, 3], vec![1, 0, 1]));
        assert_eq!(run(2, &[7, byte], &[5, 5]), ([0, 1, 3], vec![1, 0, 1]));
    }
}

#[test]
fn refusals() {
    let (line, plain) = ([1, 2, 3], [1, 2, 3]);
    for mode in (0..=255).filter(|mode| !(1..=6).contains(mode)) {
        let (mut out, mut run) = ([9; 12], [9; 3]);
        let told = settled_bits(mode, &line, &plain, &mut out, &mut run);
        assert_eq!((told, out, run), (Err(Refusal(1)), [9; 12], [9; 3]));
        // Number 1 goes before 7.
        let told = settled_bits(mode, &line, &plain[1..], &mut [], &mut []);
        assert_eq!(told, Err(Refusal(1)));
    }
    let refused = |plain: &[u8], bits: usize, numbers: usize| {
        let (mut out, mut run) = ([9; 12], [9; 3]);
        let lent = (&mut out[..bits], &mut run[..numbers]);
        let told = settled_bits(1, &line, plain, lent.0, lent.1);
        assert_eq!((told, out, run), (Err(Refusal(7)), [9; 12], [9; 3]));
    };
    refused(&plain[1..], 12, 3);
    refused(&[1, 2, 3, 0], 12, 3);
    refused(&plain, 5, 3);
    refused(&plain, 0, 3);
    refused(&plain, 6, 2);
    refused(&plain, 6, 0);
    let told = settled_bits(1, &line, &plain, &mut [9; 6], &mut [9; 3]);
    assert_eq!(told, Ok(()));
}

/// A training and data, with points at the origin among both.
fn signal(rng: &mut Rng, mode: &Mode, role: u8, points: usize) -> Vec<i16> {
    let length = match mode.line {
        Line::V27ter => 0,
        Line::V32 => 1280,
    };
    let training = 2 * Training::of(mode, length).unwrap().intervals();
    let mut numbers = vec![0; training + 2 * points];
    let opened = sender::open(mode.number, role, length, &mut numbers, 0).unwrap();
    let data = rng.bits(points * mode.width as usize);
    sender::send(opened, &data, &mut numbers, training).unwrap();
    for pair in numbers.chunks_exact_mut(2) {
        if rng.below(50) == 0 {
            pair.fill(0);
        }
    }
    numbers
}

fn answers(mode: &Mode, role: u8, numbers: &[i16]) -> Vec<Answer> {
    let mut state = fresh(mode.number, role).unwrap();
    let mut one = |pair: &[i16]| {
        let (answer, next) = receiver::receive_point(state, pair[0], pair[1]).unwrap();
        state = next;
        answer
    };
    numbers.chunks_exact(2).map(&mut one).collect()
}

#[test]
fn runs_of_a_block_are_what_answers_give_between_gaps() {
    let mut rng = Rng::new(47);
    for (mode, role) in modes_and_roles() {
        let numbers = signal(&mut rng, mode, role, 2000);
        let answers = answers(mode, role, &numbers);
        let bytes = answers.iter().map(|&answer| {
            let (line, plain, _) = receiver::block_numbers(mode.width, answer);
            (line, plain)
        });
        let (line, plain): (Vec<u8>, Vec<u8>) = bytes.unzip();
        let (mut at, mut runs) = (0, Vec::new());
        loop {
            let ([first, points, _], bits) = run(mode.number, &line[at..], &plain[at..]);
            if points == 0 {
                assert_eq!(at + first, line.len());
                break;
            }
            at += first + points;
            runs.push(bits);
        }
        assert!(runs.len() > 10);
        assert_eq!(runs, between_gaps(mode, &answers));
    }
}
