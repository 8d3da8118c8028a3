//! Random Monday files: right lines, lines with one fault of each kind, and the same card twice.

use crate::cards::Card;
use crate::rng::Rng;

const AMOUNTS: [u64; 14] = [0, 1, 9, 10, 99, 100, 255, 256, 65_535, 65_536, 16_777_216, 9_999_999, 10_000_000, 99_999_999];
const TOO_LARGE: [&str; 6] =
    ["4294967296;D", "4294967297;D", "9999999999;D", "72057594037927936;D", "72057594037927937;D", "99999999999999999;D"];
const WRONG_AMOUNTS: [&str; 10] = ["", "00", "01", "00000000", "123456789", "100000000", "+5", "-1", "1.50", "0x1"];
const STRANGE: [u8; 18] = *b"/:@G`ag+- ;\n\r\0\x7f\x80\xff0";

fn serial(rng: &mut Rng) -> Vec<u8> {
    let n = rng.pick(&[4, 7]);
    let fill = rng.pick(&[0, 0xff]);
    let mut bytes = vec![fill; n];
    match rng.below(8) {
        0 => {}
        1..=2 => bytes[rng.index(n)] = rng.pick(&[0, 1, 0x0f, 0x10, 0x7f, 0x80, 0xfe]),
        _ => rng.fill(&mut bytes),
    }
    bytes
}

fn amount(rng: &mut Rng) -> u64 {
    let digits = rng.range(1, 8) as u32;
    if rng.one_in(4) {
        rng.pick(&AMOUNTS)
    } else {
        rng.below(10u64.pow(digits))
    }
}

fn letter(rng: &mut Rng) -> char {
    rng.pick(&['H', 'D'])
}

/// A line with a fault, mostly; with its feed, mostly.
pub fn damaged(rng: &mut Rng, card: &Card) -> Vec<u8> {
    let letter = letter(rng);
    let good = card.spell(letter);
    let (front, amount) = good.rsplit_once(';').unwrap_or_default();
    let serial = &front[..front.len() - 2];
    let line = match rng.below(20) {
        0 => return good.into_bytes(),
        1 => return long(rng, &good).into_bytes(),
        2 => format!("{};{letter};{amount}", serial.to_lowercase()),
        3 => format!("{serial};{};{amount}", letter.to_ascii_lowercase()),
        4 => format!("{front};0{amount}"),
        5 => format!("{good}\r"),
        6 => String::new(),
        7 => good[1..].into(),
        8 => format!("{}{good}", rng.pick(&["0", "00", " ", ";", "\u{feff}"])),
        9 => format!("{};{amount}", rng.pick(&TOO_LARGE)),
        10..=11 => format!("{front};{}", rng.pick(&WRONG_AMOUNTS)),
        12 => format!("{serial};{};{amount}", rng.pick(&["H", "D", "", "HH", "X", "HD", " H"])),
        13 => format!("{good}{}", rng.pick(&[";", " ", "0", ";1", "A", "00000000"])),
        14 => good.replacen(';', rng.pick(&["", ",", ";;"]), 1),
        15..=16 => long(rng, &good),
        _ => return one_byte(rng, &good),
    };
    format!("{line}\n").into_bytes()
}

/// About as long as a line may be, or much longer.
fn long(rng: &mut Rng, good: &str) -> String {
    let n = rng.pick(&[63, 64, 64, 65, 65, 66, 200, 600]);
    match rng.below(3) {
        0 => format!("{good:0<n$}"),
        1 => format!("{good:0>n$}"),
        _ => format!("{good:;^n$}"),
    }
}

/// One byte of the line or its feed is another.
fn one_byte(rng: &mut Rng, good: &str) -> Vec<u8> {
    let mut line = format!("{good}\n").into_bytes();
    let i = rng.index(line.len());
    line[i] = if rng.one_in(4) { rng.word() as u8 } else { rng.pick(&STRANGE) };
    line
}

pub fn card(rng: &mut Rng) -> Card {
    Card { serial: serial(rng), amount: amount(rng) }
}

/// A file of a few lines. The store may hold the cards `taken`.
pub fn file(rng: &mut Rng, taken: &[Card]) -> Vec<u8> {
    let right = rng.one_in(2);
    let count = few(rng);
    lines(rng, taken, count, right, &['H', 'D'])
}

fn few(rng: &mut Rng) -> usize {
    rng.pick(&[0, 1, 2, 3, 4, 5, 6, 8, 12])
}

/// So many lines with these letters; right ones, or some with a fault. The last one has its feed, mostly.
fn lines(rng: &mut Rng, taken: &[Card], count: usize, right: bool, letters: &[char]) -> Vec<u8> {
    let (mut cards, mut text) = (taken.to_vec(), Vec::new());
    for _ in 0..count {
        let mut card = card(rng);
        if !cards.is_empty() && rng.one_in(if right { 30 } else { 8 }) {
            card.serial.clone_from(&cards[rng.index(cards.len())].serial);
        }
        if right || !rng.one_in(4) {
            text.extend(format!("{}\n", card.spell(rng.pick(letters))).into_bytes());
        } else {
            text.extend(damaged(rng, &card));
        }
        cards.push(card);
    }
    if rng.one_in(15) {
        text.pop();
    }
    text
}

/// A file to be converted, mostly all in the letter that is not wanted.
pub fn to_convert(rng: &mut Rng, wanted: char, taken: &[Card]) -> Vec<u8> {
    let other = if wanted == 'H' { 'D' } else { 'H' };
    let mostly = [other, other, other, other, other, other, wanted];
    let count = if rng.one_in(100) { 300 } else { few(rng) };
    match rng.below(12) {
        0..=5 => lines(rng, taken, count, true, &[other]),
        6..=7 => lines(rng, taken, count, false, &[other]),
        8 => lines(rng, taken, count, true, &mostly),
        9 => lines(rng, taken, count, false, &mostly),
        10 => file(rng, taken),
        _ => {
            let card = card(rng);
            damaged(rng, &card)
        }
    }
}

/// A place in a file: mostly where a line begins, sometimes one that no step hands back.
pub fn place(rng: &mut Rng, text: &[u8]) -> usize {
    let lines: Vec<usize> = (0..text.len()).filter(|&i| i == 0 || text[i - 1] == b'\n').collect();
    let line = if lines.is_empty() { 0 } else { rng.pick(&lines) };
    match rng.below(8) {
        0..=1 => line,
        2..=3 => line + 6,
        4 => rng.index(text.len() + 3),
        5 => text.len().saturating_sub(1),
        6 => text.len() + rng.index(2),
        _ => rng.pick(&[usize::MAX, usize::MAX - 1, usize::MAX - 64, 1 << 63, (1 << 32) + line]),
    }
}
