//! Cards and lines of document 02, A1 and A6, told from their spelling: a line is right if it is what some
//! card spells. Neither store takes part in this.

use crate::model::Name8;

#[derive(Clone, Debug, PartialEq)]
pub struct Card {
    /// Four or seven bytes.
    pub serial: Vec<u8>,
    pub amount: u64,
}

impl Card {
    /// "the byte 4 or 7, the serial's bytes, then zeros"
    pub fn name(&self) -> Name8 {
        let zeros = [0; 7].iter();
        let bytes: Vec<u8> = [self.serial.len() as u8].iter().chain(&self.serial).chain(zeros).take(8).copied().collect();
        bytes.try_into().expect("eight bytes")
    }

    /// "the amount in 8 bytes"
    pub fn content(&self) -> [u8; 8] {
        self.amount.to_le_bytes()
    }

    /// The line of the card without its feed.
    pub fn spell(&self, letter: char) -> String {
        let reversed = || self.serial.iter().rev().fold(0, |n, &x| 256 * n + x as u64);
        let serial = match (letter, self.serial.len()) {
            ('H', _) => self.serial.iter().map(|x| format!("{x:02X}")).collect(),
            (_, 4) => format!("{:010}", reversed()),
            _ => format!("{:017}", reversed()),
        };
        format!("{serial};{letter};{}", self.amount)
    }
}

/// The serial's bytes, read generously: what comes out must spell the line again.
fn serial(text: &str, letter: char) -> Option<Vec<u8>> {
    match (letter, text.len()) {
        ('H', n @ (8 | 14)) => Some(u64::from_str_radix(text, 16).ok()?.to_be_bytes()[8 - n / 2..].to_vec()),
        ('D', 10) => Some(text.parse::<u64>().ok()?.to_le_bytes()[..4].to_vec()),
        ('D', 17) => Some(text.parse::<u64>().ok()?.to_le_bytes()[..7].to_vec()),
        _ => None,
    }
}

/// The card that spells a line, given without its feed.
pub fn read(line: &[u8]) -> Option<Card> {
    let text = std::str::from_utf8(line).ok()?;
    let (front, rest) = text.split_once(';')?;
    let letter = rest.chars().next()?;
    let amount = text.rsplit(';').next()?.parse().ok().filter(|&n| n < 100_000_000)?;
    let card = Card { serial: serial(front, letter)?, amount };
    (card.spell(letter) == text).then_some(card)
}

/// What stands at a place of a text.
pub struct Line {
    /// Counted from 1.
    pub number: u64,
    /// The place behind its feed.
    pub end: usize,
    /// The card, or the refusal of the line by itself: 20 or 21.
    pub card: Result<Card, u32>,
}

/// The lines of a text with their feeds; the last one may have none.
fn lines(text: &[u8]) -> impl Iterator<Item = &[u8]> {
    text.split_inclusive(|&x| x == b'\n')
}

/// The card of such a line, or 20 or 21.
fn card_of(line: &[u8]) -> Result<Card, u32> {
    let bare = line.strip_suffix(b"\n");
    match bare {
        _ if bare.unwrap_or(line).len() > 64 => Err(20),
        Some(bare) => read(bare).ok_or(21),
        None => Err(21),
    }
}

/// None if no line is left there.
pub fn line_at(text: &[u8], place: usize) -> Option<Line> {
    let line = lines(text.get(place..)?).next()?;
    let number = text[..place].split(|&x| x == b'\n').count() as u64;
    Some(Line { number, end: place + line.len(), card: card_of(line) })
}

/// The cards of a whole text, or the first refusal of a line by itself.
pub fn cards_of(text: &[u8]) -> Result<Vec<Card>, u32> {
    lines(text).map(card_of).collect()
}

/// What a conversion makes of a text.
#[derive(Debug, PartialEq)]
pub struct Converted {
    /// The lines before the first refused one, as their cards spell them in the wanted letter.
    pub output: Vec<u8>,
    /// The refusal of that line, and the line.
    pub refused: Option<(u32, u64)>,
}

/// Each line is to be one that some card spells in the other letter.
pub fn converted(text: &[u8], wanted: char) -> Converted {
    let mut output = Vec::new();
    for (i, line) in lines(text).enumerate() {
        match card_of(line).map(|card| format!("{}\n", card.spell(wanted)).into_bytes()) {
            Ok(spelled) if spelled != line => output.extend(spelled),
            refused => return Converted { output, refused: Some((refused.err().unwrap_or(24), i as u64 + 1)) },
        }
    }
    Converted { output, refused: None }
}
