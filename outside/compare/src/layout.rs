//! The bytes of states and answers (`include/kerambiu.h`), written and read
//! without the proved library.

use outside::receiver::{Answer, Receiver};
use outside::sender::Sender;
use outside::units::{BitCount, GuardCount, UnitIntervals};

/// The bytes of a state, of a receiver or of a sender, and of an answer.
pub const STATE: usize = 16;
pub const ANSWER: usize = 12;

/// No state of any mode: what a layout that is broken reads as.
const NO_STATE: u8 = 255;

fn u32_at(bytes: &[u8; STATE], at: usize) -> u32 {
    u32::from_le_bytes([bytes[at], bytes[at + 1], bytes[at + 2], bytes[at + 3]])
}

pub fn receiver_bytes(state: &Receiver) -> [u8; STATE] {
    let mut bytes = [0; STATE];
    bytes[0] = state.mode;
    bytes[1] = state.role;
    if let Some(reference) = state.reference {
        bytes[2] = 1;
        bytes[3] = reference;
    }
    bytes[4..8].copy_from_slice(&state.register.to_le_bytes());
    bytes[8] = state.held.0 as u8;
    bytes[9] = state.count.0;
    bytes[12..].copy_from_slice(&state.place.0.to_le_bytes());
    bytes
}

pub fn receiver_of(bytes: &[u8; STATE]) -> Receiver {
    let reference = match (bytes[2], bytes[3], bytes[10] | bytes[11]) {
        (1, reference, 0) => Some(reference),
        (0, 0, 0) => None,
        _ => Some(NO_STATE),
    };
    Receiver {
        mode: bytes[0],
        role: bytes[1],
        reference,
        register: u32_at(bytes, 4),
        held: BitCount(u32::from(bytes[8])),
        count: GuardCount(bytes[9]),
        place: UnitIntervals(u32_at(bytes, 12)),
    }
}

/// The bytes of an answer; w is the mode's count of line bits in a point.
pub fn answer_bytes(width: u32, answer: &Answer) -> [u8; ANSWER] {
    let mut bytes = [0; ANSWER];
    let (first, gap, distance) = match *answer {
        Answer::Reference { distance } => ([0; 4], 0, distance.0),
        Answer::Bits {
            line,
            plain,
            settled,
            distance,
        } => {
            let unsettled = (width - settled.count_ones()) as u8;
            ([1, line, plain, unsettled], 0, distance.0)
        }
        Answer::Gap(length) => ([2, 0, 0, 0], length.0, 0),
    };
    bytes[..4].copy_from_slice(&first);
    bytes[4..8].copy_from_slice(&gap.to_le_bytes());
    bytes[8..].copy_from_slice(&distance.to_le_bytes());
    bytes
}

pub fn sender_bytes(state: &Sender) -> [u8; STATE] {
    let mut bytes = [0; STATE];
    bytes[..3].copy_from_slice(&[state.mode, state.role, state.reference]);
    bytes[4..8].copy_from_slice(&state.register.to_le_bytes());
    bytes[8] = state.held.0 as u8;
    bytes[9] = state.count.0;
    bytes
}

pub fn sender_of(bytes: &[u8; STATE]) -> Sender {
    let clear = bytes[3] == 0 && bytes[10..].iter().all(|&byte| byte == 0);
    Sender {
        mode: bytes[0],
        role: bytes[1],
        reference: if clear { bytes[2] } else { NO_STATE },
        register: u32_at(bytes, 4),
        held: BitCount(u32::from(bytes[8])),
        count: GuardCount(bytes[9]),
    }
}
