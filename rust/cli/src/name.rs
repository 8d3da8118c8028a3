//! Names of purses: 8 bytes, written as 16 hexadecimal digits.

use std::ffi::OsStr;
use std::fmt;

/// The name of a purse.
#[derive(Clone, Copy, Debug, PartialEq, Eq, PartialOrd, Ord)]
pub struct Name(pub [u8; 8]);

/// The name of the second purse, in which a long put gathers. No card has it.
pub const SECOND: Name = Name([0xff; 8]);

impl Name {
    /// The name that a word tells: 16 hexadecimal digits, capitals or small.
    pub fn of(word: &OsStr) -> Option<Name> {
        let digits = word.as_encoded_bytes();
        if digits.len() != 16 {
            return None;
        }
        let mut name = [0; 8];
        for (byte, pair) in name.iter_mut().zip(digits.chunks_exact(2)) {
            *byte = 16 * digit(pair[0])? + digit(pair[1])?;
        }
        Some(Name(name))
    }
}

fn digit(byte: u8) -> Option<u8> {
    char::from(byte).to_digit(16).map(|d| d as u8)
}

impl fmt::Display for Name {
    fn fmt(&self, f: &mut fmt::Formatter) -> fmt::Result {
        self.0.iter().try_for_each(|byte| write!(f, "{byte:02X}"))
    }
}

#[cfg(test)]
mod tests {
    use super::*;

    #[test]
    fn sixteen_digits() {
        let name = Name::of("50102600000004aF".as_ref()).unwrap();
        assert_eq!(name.to_string(), "50102600000004AF");
        assert_eq!(Name::of("FFFFFFFFFFFFFFFF".as_ref()), Some(SECOND));
        for wrong in ["", "5", "50102600000004A", "50102600000004AF0", "50102600000004AG", "+0102600000004AF", "501026000000é4A"] {
            assert_eq!(Name::of(wrong.as_ref()), None, "{wrong}");
        }
    }
}
