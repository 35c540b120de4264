//! A listing: the points between lost counts are received as a block, and each
//! line is its place and one of a few texts. Gaps are counted as their lines are
//! written; the other sums follow from them.

use super::chain;
use super::receive::receive_bits_in_passes;
use super::sums::sums_of;
use crate::mode::Mode;
use crate::receiver::{self, Receiver, GAP_BYTE, REFERENCE_BYTE};
use crate::refusal::{need, Refusal};
use crate::store::{
    Chain, BODY_AT, COUNT_AT, KIND_AT, KIND_LOST, MODE_AT, MOST_RECORDS, RECORD_POINTS, ROLE_AT,
};
use crate::sums::Sums;

/// Bytes that are written at once; fewer may be part of the text.
const PIECE: usize = 16;
/// The longest line of a point: ten digits, and a piece.
const LONGEST_LINE: usize = 10 + PIECE;
/// The longest first line, and the longest line of sums.
const FIRST_LINE: usize = 64;
const LAST_LINE: usize = 64;
/// The lent bytes that a listing takes: its lines, and what a last piece writes
/// beyond the text.
pub const LISTING_ROOM: usize =
    FIRST_LINE + LONGEST_LINE * RECORD_POINTS * (MOST_RECORDS - 1) + PIECE + LAST_LINE;

/// Writes what `listing::list` gives into the lent bytes; gives how many bytes
/// the text has. Those beyond it may be written too. Refuses by 7 alone: fewer
/// lent bytes than `LISTING_ROOM`.
pub fn list(store: &[u8], out: &mut [u8]) -> Result<usize, Refusal> {
    need(out.len() >= LISTING_ROOM, Refusal::LENT_NUMBERS)?;
    let mut text = Text { out, end: 0 };
    match chain::check(store) {
        Ok(chain) => list_track(store, &chain, &mut text)?,
        Err(refusal) => text.put_line(&[("refused ", refusal.0.into())]),
    }
    Ok(text.end)
}

fn list_track(store: &[u8], chain: &Chain, text: &mut Text) -> Result<(), Refusal> {
    let (mode, role) = (store[MODE_AT], store[ROLE_AT]);
    text.put_line(&[
        ("track mode ", mode.into()),
        (" role ", role.into()),
        (" total ", chain.total.into()),
    ]);
    let texts = &BIT_TEXTS[Mode::find(mode)?.width as usize - 2];
    let mut points = Points {
        state: receiver::fresh(mode, role)?,
        numbers: Vec::with_capacity(2 * chain.events),
        line: vec![0; chain.events],
        plain: vec![0; chain.events],
        gaps: 0,
    };
    chain::walk(store, |_, record| {
        if record[KIND_AT] == KIND_LOST {
            points.list(text, texts)?;
            return points.lose(text, chain::lost_of(record));
        }
        let end = BODY_AT + 4 * usize::from(record[COUNT_AT]);
        let (numbers, _) = record[BODY_AT..end].as_chunks();
        let numbers = numbers.iter().map(|bytes| i16::from_le_bytes(*bytes));
        points.numbers.extend(numbers);
        Ok(())
    })?;
    points.list(text, texts)?;
    let Sums { points, lost, gaps } = sums_of(chain, points.gaps);
    text.put_line(&[("sum points ", points), (" lost ", lost), (" gaps ", gaps)]);
    Ok(())
}

/// Points that are not listed yet, the receiver before them, and the gaps that
/// are listed.
struct Points {
    state: Receiver,
    numbers: Vec<i16>,
    line: Vec<u8>,
    plain: Vec<u8>,
    gaps: usize,
}

impl Points {
    /// Receives the points and writes their lines.
    fn list(&mut self, text: &mut Text, texts: &BitTexts) -> Result<(), Refusal> {
        let mut place = Decimal::of(self.state.place.0);
        let (line, plain) = (&mut self.line, &mut self.plain);
        self.state = receive_bits_in_passes(self.state, &self.numbers, line, plain)?;
        let count = self.numbers.len() / 2;
        for (&line, &plain) in self.line[..count].iter().zip(&self.plain) {
            text.put_piece(place.left_aligned(), place.digits);
            match line {
                REFERENCE_BYTE => text.put(b" ref\n"),
                GAP_BYTE => {
                    self.gaps += 1;
                    text.put(b" lost 1\n");
                }
                _ => text.put_piece(texts.of_bits(line, plain), texts.length),
            }
            place.add_1();
        }
        self.numbers.clear();
        Ok(())
    }

    /// Passes a gap and writes its line.
    fn lose(&mut self, text: &mut Text, lost: u32) -> Result<(), Refusal> {
        text.put_line(&[("", self.state.place.0.into()), (" lost ", lost.into())]);
        self.state = receiver::receive_gap(self.state, lost)?.1;
        self.gaps += 1;
        Ok(())
    }
}

/// The text so far.
struct Text<'a> {
    out: &'a mut [u8],
    end: usize,
}

impl Text<'_> {
    fn put(&mut self, bytes: &[u8]) {
        self.out[self.end..self.end + bytes.len()].copy_from_slice(bytes);
        self.end += bytes.len();
    }

    /// Writes words, each with a number behind it, and ends the line.
    fn put_line(&mut self, parts: &[(&str, u64)]) {
        for &(word, number) in parts {
            self.put(word.as_bytes());
            self.put_number(number);
        }
        self.put(b"\n");
    }

    fn put_number(&mut self, number: u64) {
        let digits = 1 + number.checked_ilog10().unwrap_or(0) as usize;
        let mut rest = number;
        for digit in self.out[self.end..self.end + digits].iter_mut().rev() {
            *digit = b'0' + (rest % 10) as u8;
            rest /= 10;
        }
        self.end += digits;
    }

    /// Writes a piece whole, of which so many bytes are part of the text.
    #[inline(always)]
    fn put_piece(&mut self, piece: [u8; PIECE], length: usize) {
        self.out[self.end..self.end + PIECE].copy_from_slice(&piece);
        self.end += length;
    }
}

/// A number in decimal digits, the last in the lowest byte.
struct Decimal {
    text: u128,
    digits: usize,
}

impl Decimal {
    fn of(number: u32) -> Decimal {
        let text = number.to_string();
        let join = |joined, digit| joined << 8 | u128::from(digit);
        Decimal {
            text: text.bytes().fold(0, join),
            digits: text.len(),
        }
    }

    #[inline(always)]
    fn add_1(&mut self) {
        self.text += 1;
        if self.text as u8 > b'9' {
            self.carry();
        }
    }

    /// Makes 0 of each digit that went above 9, from the last on.
    #[cold]
    fn carry(&mut self) {
        let mut at = 0;
        while (self.text >> at) as u8 > b'9' {
            self.text -= 10 << at;
            at += 8;
            if at == 8 * self.digits {
                self.digits += 1;
                self.text += u128::from(b'0') << at;
            }
            self.text += 1 << at;
        }
    }

    #[inline(always)]
    fn left_aligned(&self) -> [u8; PIECE] {
        (self.text << (8 * (PIECE - self.digits))).to_be_bytes()
    }
}

/// The rest of a line of bits, by the bytes of line bits and of data bits: zeros
/// stand where the other has its text.
struct BitTexts {
    line: [u128; 16],
    plain: [u128; 128],
    length: usize,
}

/// The texts of 2, 3 and 4 line bits in a point.
static BIT_TEXTS: [BitTexts; 3] = [BitTexts::of(2), BitTexts::of(3), BitTexts::of(4)];

impl BitTexts {
    const fn of(width: usize) -> BitTexts {
        let (mut line, mut plain) = ([0; 16], [0; 128]);
        let mut k = 0;
        while k < plain.len() {
            let unsettled = k / 16;
            plain[k] = u128::from_le_bytes(with_bits([0; PIECE], 7 + width, k, width, unsettled));
            k += 1;
        }
        let mut frame = *b" bits \0\0\0\0\0\0\0\0\0\0";
        frame[6 + width] = b' ';
        frame[7 + 2 * width] = b'\n';
        k = 0;
        while k < line.len() {
            line[k] = u128::from_le_bytes(with_bits(frame, 6, k, width, 0));
            k += 1;
        }
        let length = 8 + 2 * width;
        BitTexts {
            line,
            plain,
            length,
        }
    }

    #[inline(always)]
    fn of_bits(&self, line: u8, plain: u8) -> [u8; PIECE] {
        let text = self.line[usize::from(line % 16)] | self.plain[usize::from(plain % 128)];
        text.to_le_bytes()
    }
}

/// A piece with the bits of a group put in, `-` for the first unsettled ones.
const fn with_bits(
    mut piece: [u8; PIECE],
    at: usize,
    group: usize,
    width: usize,
    unsettled: usize,
) -> [u8; PIECE] {
    let mut k = 0;
    while k < width {
        let bit = (group >> (width - 1 - k) & 1) as u8;
        piece[at + k] = if k < unsettled { b'-' } else { b'0' + bit };
        k += 1;
    }
    piece
}
