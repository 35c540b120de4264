//! The commands of the front `kerambiu`, each over the whole of its input: what a
//! program writes on standard output, and what it says of a refusal on standard
//! error.

pub mod bits;
pub mod blocks;
pub mod events;
pub mod line;
pub mod stores;

use crate::refusal::Refusal;

/// What a program wrote, and the refusal that ended it.
#[derive(Clone, PartialEq, Eq, Debug)]
pub struct Said {
    /// The bytes of standard output.
    pub out: Vec<u8>,
    /// The line on standard error, empty where nothing was refused.
    pub err: String,
    /// The number of the refusal, 0 where nothing was refused.
    pub number: u8,
}

impl Said {
    /// What was written, and how it ended after so many events or bits.
    fn ended(out: Vec<u8>, end: Result<(), Refusal>, after: usize) -> Said {
        let (err, number) = match end {
            Ok(()) => (String::new(), 0),
            Err(Refusal(number)) => (format!("refused {number} after {after}\n"), number),
        };
        Said { out, err, number }
    }

    /// Text that ends with the line of a refusal, if there is one.
    fn text(mut text: String, end: Result<(), Refusal>, after: usize) -> Said {
        if let Err(Refusal(number)) = end {
            text.push_str(&format!("refused {number}\n"));
        }
        Said::ended(text.into_bytes(), end, after)
    }
}

/// Runs a command, named as the front names it or as its program is called, with
/// the words that the program takes. None where there is no such command, or the
/// words are not the numbers that it takes.
pub fn run(command: &str, words: &[&str], input: &[u8]) -> Option<Said> {
    let numbers: Option<Vec<u128>> = words.iter().map(|word| number(word)).collect();
    match (command, numbers?.as_slice()) {
        ("list" | "list_track", []) => Some(stores::list(input)),
        ("sums" | "sum_track", []) => Some(stores::sums(input)),
        ("points" | "read_points", []) => Some(stores::points(input)),
        ("store" | "store_points", &[mode, role, from]) => {
            Some(stores::store(byte(mode), byte(role), count(from), input))
        }
        ("send" | "send_bits", &[mode, role, length]) => {
            Some(line::send(byte(mode), byte(role), length_of(length), input))
        }
        ("receive" | "receive_points", &[mode, role]) => {
            Some(line::receive(byte(mode), byte(role), input))
        }
        ("check" | "check_blocks", &[size, from]) => {
            Some(blocks::check(count(size), count(from), input))
        }
        _ => None,
    }
}

/// The number of a word of digits. The front lets 30 of them pass, which fit.
fn number(word: &str) -> Option<u128> {
    let digits = word.bytes().all(|byte| byte.is_ascii_digit());
    digits.then(|| word.parse().ok()).flatten()
}

/// A mode or a role. A number that does not fit is none of either, and 255 is not.
fn byte(number: u128) -> u8 {
    u8::try_from(number).unwrap_or(u8::MAX)
}

/// A training length. No mode has the greatest one.
fn length_of(number: u128) -> u32 {
    u32::try_from(number).unwrap_or(u32::MAX)
}

/// A count of events or bits. No input has as many as the greatest one.
fn count(number: u128) -> usize {
    usize::try_from(number).unwrap_or(usize::MAX)
}
