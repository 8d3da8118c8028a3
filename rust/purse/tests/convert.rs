//! Conversions: the worked examples, every buffer length, random texts, right and damaged, held against a second converter.

use purse::Spelling::{Decimal, Hexadecimal};
use purse::{convert, ConvertRefusal, Refusal, Spelling};
use std::error::Error;

const H: &str = "04A1B2C3;H;1250\n04A1B2C3D4E5F6;H;0\n";
const D: &str = "3283263748;D;1250\n69495546249912580;D;0\n";

/// The output, or the number of the refusal and its line.
type Answer = Result<Vec<u8>, (u32, Option<u64>)>;

/// Converts into a buffer of so many bytes inside a larger piece of memory, and looks at every byte of it.
fn converted(wanted: Spelling, text: &[u8], most: usize) -> Answer {
    const BEFORE: usize = 9;
    let whole: Vec<u8> = (0..BEFORE + most + 50).map(|i| (i * 29 + text.len()) as u8 | 0x80).collect();
    let mut memory = whole.clone();
    let answer = convert(wanted, text, &mut memory[BEFORE..BEFORE + most]);
    let n = answer.unwrap_or(0);
    assert!(memory[..BEFORE] == whole[..BEFORE] && memory[BEFORE + n..] == whole[BEFORE + n..], "bytes outside of the output");
    answer.map(|n| memory[BEFORE..BEFORE + n].to_vec()).map_err(|r| (r.refusal.number(), r.line))
}

fn gives(text: &str) -> Answer {
    Ok(text.into())
}

#[test]
fn worked_examples() {
    assert_eq!((D.len(), H.len()), (40, 35));
    for (text, wanted, most, answer) in [
        (H.to_string(), Decimal, 99, gives(D)),
        (D.to_string(), Hexadecimal, 99, gives(H)),
        (H.to_string(), Decimal, 41, gives(D)),
        (H.to_string(), Decimal, 40, gives(D)),
        (H.to_string(), Decimal, 39, Err((25, None))),
        (H.to_string(), Hexadecimal, 99, Err((24, Some(1)))),
        (format!("3283263748;D;1\n{H}x\n"), Hexadecimal, 99, Err((24, Some(2)))),
        (H.trim_end().to_string(), Decimal, 99, Err((21, Some(2)))),
        (format!("{H}zz\n"), Decimal, 0, Err((21, Some(3)))),
        (String::new(), Decimal, 0, gives("")),
        (String::new(), Hexadecimal, 0, gives("")),
        ("04A1B2C3D4E5F6A7B8C9;H;1\n".to_string(), Decimal, 99, Err((21, Some(1)))),
        ("04A1B2C3D4E5F6A7B8C9;H;1\n".to_string(), Hexadecimal, 99, Err((21, Some(1)))),
    ] {
        assert_eq!(converted(wanted, text.as_bytes(), most), answer, "{text:?} to {wanted:?}, buffer of {most}");
    }
}

/// An output as long as the buffer fits, one byte more does not; a line that is refused comes before that.
#[test]
fn buffers_of_every_length() {
    for most in 0..60 {
        let fits = |output: &str| if output.len() <= most { gives(output) } else { Err((25, None)) };
        assert_eq!(converted(Decimal, H.as_bytes(), most), fits(D));
        assert_eq!(converted(Hexadecimal, D.as_bytes(), most), fits(H));
        for (wrong, refusal) in [("\n", 21), ("3283263748;D;1\n", 24), (&"0".repeat(65), 20)] {
            assert_eq!(converted(Decimal, format!("{H}{wrong}").as_bytes(), most), Err((refusal, Some(3))), "{wrong:?}");
        }
    }
}

/// The lowest line decides, whatever it is refused with; within a line 20, 21, 24.
#[test]
fn which_line_is_named() {
    let long = "0".repeat(65);
    for (lines, refusal, line) in [
        ([H, "x\n", D, &long], 21, 3),
        ([H, D, "x\n", &long], 24, 3),
        ([H, &long, "x\n", D], 20, 3),
        (["", &format!("{long};D;1\n"), "", ""], 20, 1),
        (["", "x;D;1\n", D, ""], 21, 1),
        (["", "3283263748;D;1", "", ""], 21, 1),
        ([H, H, H, "3283263748;D;1\n"], 24, 7),
        (["\n", "", "", ""], 21, 1),
        ([H, &"0".repeat(64), "", ""], 21, 3),
    ] {
        assert_eq!(converted(Decimal, lines.concat().as_bytes(), 500), Err((refusal, Some(line))), "{lines:?}");
    }
}

#[test]
fn what_a_refusal_tells() {
    let refused = convert(Hexadecimal, H.as_bytes(), &mut []).unwrap_err();
    assert_eq!(refused, ConvertRefusal { line: Some(1), refusal: Refusal::SameSpelling });
    assert_eq!(refused.to_string(), "refused 24: the line is already in the wanted spelling, line 1");
    assert_eq!(refused.source().unwrap().to_string(), "refused 24: the line is already in the wanted spelling");
    let refused = convert(Decimal, H.as_bytes(), &mut []).unwrap_err();
    assert_eq!(refused, ConvertRefusal { line: None, refusal: Refusal::OutputTooLong });
    assert_eq!(refused.to_string(), "refused 25: the output is longer than the buffer");
}

// ---- A second converter

/// A line without its feed.
fn spelt(wanted: Spelling, serial: &[u8], amount: &str) -> String {
    let number = serial.iter().rev().fold(0u64, |n, &byte| 256 * n + u64::from(byte));
    match wanted {
        Hexadecimal => serial.iter().map(|byte| format!("{byte:02X}")).collect::<String>() + ";H;" + amount,
        Decimal if serial.len() == 4 => format!("{number:010};D;{amount}"),
        Decimal => format!("{number:017};D;{amount}"),
    }
}

/// The serial, amount and spelling of a line: it is one if it is what such a card spells.
fn card_of(line: &str) -> Option<(Vec<u8>, String, Spelling)> {
    let mut words = line.split(';');
    let (serial, letter, amount) = (words.next()?, words.next()?, words.next()?);
    let amount = amount.parse::<u32>().ok().filter(|n| *n < 100_000_000)?.to_string();
    let number = if letter == "H" { u64::from_str_radix(serial, 16).ok()? } else { serial.parse().ok()? };
    [4, 7].into_iter().find_map(|n| {
        let (spelling, bytes) = match letter {
            "H" => (Hexadecimal, number.to_be_bytes()[8 - n..].to_vec()),
            _ => (Decimal, number.to_le_bytes()[..n].to_vec()),
        };
        (spelt(spelling, &bytes, &amount) == line).then(|| (bytes, amount.clone(), spelling))
    })
}

fn second_converter(wanted: Spelling, text: &[u8], most: usize) -> Answer {
    let mut output = String::new();
    for (i, line) in text.split_inclusive(|&b| b == b'\n').enumerate() {
        let refused = |number| Err((number, Some(i as u64 + 1)));
        let (bytes, fed) = line.strip_suffix(b"\n").map_or((line, false), |bytes| (bytes, true));
        match std::str::from_utf8(bytes).ok().and_then(card_of) {
            _ if bytes.len() > 64 => return refused(20),
            Some((_, _, spelling)) if fed && spelling == wanted => return refused(24),
            Some((serial, amount, _)) if fed => output += &(spelt(wanted, &serial, &amount) + "\n"),
            _ => return refused(21),
        }
    }
    if output.len() > most {
        return Err((25, None));
    }
    Ok(output.into())
}

/// A small generator of numbers (xorshift), the same in every run.
struct Rng(u64);

impl Rng {
    fn below(&mut self, n: usize) -> usize {
        self.0 ^= self.0 << 13;
        self.0 ^= self.0 >> 7;
        self.0 ^= self.0 << 17;
        (self.0.wrapping_mul(0x2545_f491_4f6c_dd1d) >> 16) as usize % n
    }

    fn line(&mut self, spelling: Spelling) -> String {
        let n = [4, 7][self.below(2)];
        let odd = self.below(6);
        let serial: Vec<u8> = (0..n).map(|_| [0, 255, self.below(256) as u8][odd.min(2)]).collect();
        let amount = [0, self.below(10), self.below(100_000_000), 99_999_999][self.below(4)];
        spelt(spelling, &serial, &amount.to_string()) + "\n"
    }

    fn text(&mut self, spelling: Spelling, lines: usize) -> String {
        (0..lines).map(|_| self.line(spelling)).collect()
    }
}

fn other(spelling: Spelling) -> Spelling {
    match spelling {
        Hexadecimal => Decimal,
        Decimal => Hexadecimal,
    }
}

/// Whatever is accepted comes back byte for byte, and is what the second converter makes of it.
#[test]
fn there_and_back() {
    let mut rng = Rng(6);
    for round in 0..2_000 {
        let from = [Hexadecimal, Decimal][round % 2];
        let lines = if round < 10 { 20_000 } else { rng.below(40) };
        let text = rng.text(from, lines);
        let most = text.len() + text.len() / 6;
        let there = converted(other(from), text.as_bytes(), most).unwrap();
        assert_eq!(second_converter(other(from), text.as_bytes(), most).as_ref(), Ok(&there));
        assert!(converted(other(from), text.as_bytes(), there.len()).unwrap() == there);
        assert!(converted(from, &there, text.len()).unwrap() == text.as_bytes());
        if !text.is_empty() {
            assert_eq!(converted(other(from), text.as_bytes(), there.len() - 1), Err((25, None)));
            assert_eq!(converted(from, &there, text.len() - 1), Err((25, None)));
            assert_eq!(converted(from, text.as_bytes(), most), Err((24, Some(1))));
        }
    }
}

/// Texts with a byte changed, left out or put in, a line of the other spelling, or the end missing.
#[test]
fn damaged_texts() {
    let bytes = b"0123456789ABCDEFGHabdhx;;;\n\n\r +-.,/:@\x00\xff\xb2";
    let mut rng = Rng(7);
    let mut refused = [0usize; 26];
    for round in 0..60_000 {
        let from = [Hexadecimal, Decimal][round % 2];
        let lines = 1 + rng.below(5);
        let mut text = rng.text(from, lines).into_bytes();
        for _ in 0..=rng.below(2) {
            let at = rng.below(text.len());
            let byte = bytes[rng.below(bytes.len())];
            match rng.below(7) {
                0 | 1 => text[at] = byte,
                2 => drop(text.remove(at)),
                3 => text.insert(at, byte),
                4 => text.truncate(at + 1),
                5 => drop(text.splice(at..at, vec![byte; 40 + rng.below(30)])),
                _ => text.extend(rng.line(other(from)).bytes()),
            }
        }
        let most = rng.below(150);
        for wanted in [Hexadecimal, Decimal] {
            let answer = converted(wanted, &text, most);
            assert_eq!(answer, second_converter(wanted, &text, most), "{} to {wanted:?}", text.escape_ascii());
            refused[answer.err().map_or(0, |r| r.0 as usize)] += 1;
        }
    }
    assert!([0, 20, 21, 24, 25].iter().all(|&number| refused[number] > 1_000), "{refused:?}");
}
