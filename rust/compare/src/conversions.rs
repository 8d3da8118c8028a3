//! The conversions of a list: document 02, A6. They need no device, and come behind its other calls.

use crate::cards::{cards_of, converted, Converted};
use crate::lists::Driver;
use crate::monday;
use crate::pair::Check;
use crate::rng::Rng;
use crate::side::Answer;
use plain::Spelling::{self, Decimal, Hexadecimal};

fn letter(spelling: Spelling) -> char {
    match spelling {
        Hexadecimal => 'H',
        Decimal => 'D',
    }
}

fn other(spelling: Spelling) -> Spelling {
    match spelling {
        Hexadecimal => Decimal,
        Decimal => Hexadecimal,
    }
}

/// A length of the buffer for an output of `n` bytes: too short, exact or longer.
fn any_room(rng: &mut Rng, n: usize) -> usize {
    match rng.below(12) {
        0 => 0,
        1 => n.saturating_sub(1),
        2 => rng.index(n + 1),
        3..=6 => n,
        7..=8 => n + 1,
        _ => n + rng.index(400),
    }
}

fn enough_room(rng: &mut Rng, n: usize) -> usize {
    n + rng.pick(&[0, 0, 1, 100])
}

/// What a conversion answers as the cards of its lines tell, and leaves in its buffer.
fn settle(told: Converted, out: &mut [u8]) -> Answer {
    let n = told.output.len();
    match told.refused {
        Some((number, line)) => Answer::Refused(number, Some(line)),
        None if n > out.len() => Answer::Refused(25, None),
        None => {
            out[..n].copy_from_slice(&told.output);
            Answer::Counted(n as u64)
        }
    }
}

impl Driver {
    /// A few files.
    pub fn conversions(&mut self) -> Check {
        for _ in 0..self.rng.range(4, 12) {
            let wanted = self.rng.pick(&[Hexadecimal, Decimal]);
            let text = monday::to_convert(&mut self.rng, letter(wanted), &self.cards);
            self.there_and_back(wanted, &text)?;
        }
        Ok(())
    }

    /// "There and back must give the file byte for byte."
    fn there_and_back(&mut self, wanted: Spelling, text: &[u8]) -> Check {
        let Some(output) = self.conversion(wanted, text, any_room)? else { return Ok(()) };
        if cards_of(&output) != cards_of(text) {
            return Err("the cards of an output are not those of the file".into());
        }
        match self.conversion(other(wanted), &output, enough_room)? {
            Some(back) if back == text => Ok(()),
            _ => Err("there and back does not give the file".into()),
        }
    }

    /// One conversion into a buffer of random bytes; its output, if it is accepted.
    fn conversion(&mut self, wanted: Spelling, text: &[u8], room: fn(&mut Rng, usize) -> usize) -> Check<Option<Vec<u8>>> {
        let told = converted(text, letter(wanted));
        let length = room(&mut self.rng, told.output.len());
        let mut due = self.rng.bytes(length);
        let mut out = due.clone();
        let answer = self.pair.convert(wanted, text, &mut out)?;
        let right = settle(told, &mut due);
        if answer != right {
            return Err(format!("convert to {wanted:?} into {length} bytes -> {answer:?}, the cards tell {right:?}"));
        }
        if out != due {
            return Err(format!("convert to {wanted:?} into {length} bytes -> {answer:?}: the buffer is not as the cards tell"));
        }
        Ok(match answer {
            Answer::Counted(n) => Some(out[..n as usize].to_vec()),
            _ => None,
        })
    }
}
