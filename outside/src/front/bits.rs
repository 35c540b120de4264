//! Files of bits: the characters 0 and 1, with blanks and line ends among them.

use crate::refusal::Refusal;

/// The bits before the first character that is none, one in a byte; number 5 if
/// there is such a character.
pub fn bits(input: &[u8]) -> (Vec<u8>, Result<(), Refusal>) {
    let mut bits = Vec::new();
    for character in input {
        match character {
            b'0' => bits.push(0),
            b'1' => bits.push(1),
            b' ' | b'\t' | b'\n' | b'\r' => {}
            _ => return (bits, Err(Refusal::DATA_BYTE)),
        }
    }
    (bits, Ok(()))
}
