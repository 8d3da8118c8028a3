//! The lines of a Monday file: "A line is serial;letter;amount and a line feed".

use crate::calls::require;
use crate::mutant;
use crate::types::Refusal;

/// "at most 64 bytes before the feed"
const LONGEST_LINE: usize = 64;

/// How a line spells its serial.
#[derive(Clone, Copy, Debug, PartialEq, Eq)]
pub enum Spelling {
    /// Letter H.
    Hexadecimal,
    /// Letter D.
    Decimal,
}

impl Spelling {
    pub(crate) fn letter(self) -> u8 {
        match self {
            Spelling::Hexadecimal => b'H',
            Spelling::Decimal => b'D',
        }
    }
}

/// What a line tells.
pub struct Line<'a> {
    pub spelling: Spelling,
    /// Four or seven bytes.
    pub serial: Vec<u8>,
    /// The digits of the amount, as they stand.
    pub amount: &'a [u8],
    cents: u64,
}

/// The lines of a text with their feeds; the last one may have none.
pub fn lines(text: &[u8]) -> impl Iterator<Item = &[u8]> {
    text.split_inclusive(|&x| x == b'\n')
}

/// Reads one of these lines: 20, then 21.
pub fn read(line: &[u8]) -> Result<Line<'_>, Refusal> {
    let bare = line.strip_suffix(b"\n");
    require(bare.unwrap_or(line).len() <= LONGEST_LINE, Refusal::LineTooLong)?;
    bare.and_then(parts).ok_or(Refusal::BadLine)
}

/// The three parts of a line without its feed; none if it is "not of this form".
fn parts(line: &[u8]) -> Option<Line<'_>> {
    let parts: Vec<&[u8]> = line.split(|&x| x == b';').collect();
    let [serial, letter, amount] = parts[..] else { return None };
    let (spelling, serial) = match letter {
        b"H" => (Spelling::Hexadecimal, hexadecimal(serial)?),
        b"D" => (Spelling::Decimal, decimal(serial)?),
        _ => return None,
    };
    Some(Line { spelling, serial, amount, cents: cents(amount)? })
}

impl Line<'_> {
    /// The card's name: "the byte 4 or 7, the serial's bytes, then zeros".
    pub fn name(&self) -> [u8; 8] {
        let mut name = [0; 8];
        name[0] = self.serial.len() as u8;
        name[1..=self.serial.len()].copy_from_slice(&self.serial);
        name
    }

    /// The card's file: "the amount in 8 bytes".
    pub fn content(&self) -> [u8; 8] {
        self.cents.to_le_bytes()
    }
}

/// "8 or 14 hexadecimal digits, capitals"
fn hexadecimal(digits: &[u8]) -> Option<Vec<u8>> {
    if digits.len() != 8 && digits.len() != 14 {
        return None;
    }
    digits.chunks(2).map(|pair| Some(16 * nibble(pair[0])? + nibble(pair[1])?)).collect()
}

fn nibble(digit: u8) -> Option<u8> {
    match digit {
        b'0'..=b'9' => Some(digit - b'0'),
        b'A'..=b'F' => Some(digit - b'A' + 10),
        _ => None,
    }
}

/// "the bytes in reversed order as a decimal number, 10 digits for four bytes and 17 for seven": the first
/// byte is the lowest one of the number.
fn decimal(digits: &[u8]) -> Option<Vec<u8>> {
    let length = match digits.len() {
        10 => 4,
        17 => 7,
        _ => return None,
    };
    let mut bytes = number(digits)?.to_le_bytes().to_vec();
    if bytes.drain(length..).any(|x| x != 0) {
        return None;
    }
    if mutant::on(11) {
        bytes.reverse();
    }
    Some(bytes)
}

/// "cents, one to eight digits without idle leading zeros"
fn cents(digits: &[u8]) -> Option<u64> {
    match digits {
        [b'0', _, ..] => None,
        _ if (1..=8).contains(&digits.len()) => number(digits),
        _ => None,
    }
}

/// A number of at most 17 decimal digits, so below 2 to the 57th.
fn number(digits: &[u8]) -> Option<u64> {
    digits.iter().try_fold(0, |n, x| x.is_ascii_digit().then(|| 10 * n + (x - b'0') as u64))
}
