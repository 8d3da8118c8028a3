//! The two suppliers' spellings: a file of H lines as D lines, and back.

use core::error::Error;
use core::fmt;

use crate::ffi;
use crate::store::{lend, lend_mut, settle};
use crate::Refusal;

/// How a line spells its serial.
///
/// ```
/// use purse::{convert, Spelling};
///
/// // The bytes 04 A1 B2 C3, both ways.
/// let (mut h, mut d) = ([0u8; 13], [0u8; 15]);
/// assert_eq!(convert(Spelling::Hexadecimal, b"3283263748;D;0\n", &mut h), Ok(13));
/// assert_eq!(&h, b"04A1B2C3;H;0\n");
/// assert_eq!(convert(Spelling::Decimal, &h, &mut d), Ok(15));
/// assert_eq!(&d, b"3283263748;D;0\n");
/// ```
#[derive(Clone, Copy, Debug, PartialEq, Eq, Hash)]
pub enum Spelling {
    /// Letter H: the bytes as hexadecimal digits, 8 or 14.
    Hexadecimal,
    /// Letter D: the bytes in reversed order as a decimal number, 10 digits or 17.
    Decimal,
}

/// Why a conversion was refused. Every byte of the output buffer is as before.
///
/// ```
/// use purse::{ConvertRefusal, Refusal};
///
/// let refused = ConvertRefusal { line: Some(3), refusal: Refusal::SameSpelling };
/// assert_eq!(refused.to_string(), "refused 24: the line is already in the wanted spelling, line 3");
/// let refused = ConvertRefusal { line: None, refusal: Refusal::OutputTooLong };
/// assert_eq!(refused.to_string(), "refused 25: the output is longer than the buffer");
/// ```
#[derive(Clone, Copy, Debug, PartialEq, Eq)]
pub struct ConvertRefusal {
    /// The lowest line that is refused, counted from 1. None with 25, which comes behind all lines.
    pub line: Option<u64>,
    /// Why: 20, 21, 24 or 25.
    pub refusal: Refusal,
}

impl fmt::Display for ConvertRefusal {
    fn fmt(&self, f: &mut fmt::Formatter) -> fmt::Result {
        self.refusal.fmt(f)?;
        self.line.map_or(Ok(()), |line| write!(f, ", line {line}"))
    }
}

impl Error for ConvertRefusal {
    fn source(&self) -> Option<&(dyn Error + 'static)> {
        Some(&self.refusal)
    }
}

/// Converts a text, all of whose lines are in the other spelling, into the wanted one: each serial respelled, its letter changed, its
/// amount copied. The length of the output; the bytes of `out` behind it stay. All lines are converted or none.
///
/// To [`Spelling::Hexadecimal`] no text becomes longer. To [`Spelling::Decimal`] a line grows from 13 bytes to 15 or from 19 to 22 at
/// most: a buffer of `text.len() + text.len() / 6` bytes takes every output.
///
/// ```
/// use purse::{convert, ConvertRefusal, Refusal, Spelling};
///
/// let mut out = [b'-'; 20];
/// assert_eq!(convert(Spelling::Decimal, b"04A1B2C3;H;1250\n", &mut out), Ok(18));
/// assert_eq!(&out, b"3283263748;D;1250\n--");
///
/// // Back, byte for byte.
/// let mut back = [0u8; 16];
/// assert_eq!(convert(Spelling::Hexadecimal, &out[..18], &mut back), Ok(16));
/// assert_eq!(&back, b"04A1B2C3;H;1250\n");
///
/// // A refusal leaves the buffer.
/// let refused = convert(Spelling::Decimal, b"04A1B2C3;H;1\n3283263748;D;1\n", &mut out);
/// assert_eq!(refused, Err(ConvertRefusal { line: Some(2), refusal: Refusal::SameSpelling }));
/// assert_eq!(&out, b"3283263748;D;1250\n--");
/// ```
pub fn convert(wanted: Spelling, text: &[u8], out: &mut [u8]) -> Result<usize, ConvertRefusal> {
    let ((t, n), (o, m)) = (lend(text), lend_mut(out));
    // Each slice is lent as its own pointer and length, for the time of the call only; the two do not overlap.
    let answer = match wanted {
        Spelling::Hexadecimal => unsafe { ffi::purse_convert_h_v(t, n, o, m) },
        Spelling::Decimal => unsafe { ffi::purse_convert_d_v(t, n, o, m) },
    };
    let line = (answer.line != 0).then_some(answer.line);
    settle(answer.refusal, 0, answer.length as usize).map_err(|refusal| ConvertRefusal { line, refusal })
}
