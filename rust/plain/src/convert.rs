//! The converter of document 02, A6: "the serial is respelled, the letter changed, the amount copied".

use crate::calls::require;
use crate::cards::{self, Line, Spelling};
use crate::mutant;
use crate::types::Refusal;

/// Why a conversion was refused, and with 20, 21 and 24 the line, counted from 1.
#[derive(Clone, Copy, Debug, PartialEq, Eq)]
pub struct ConvertRefusal {
    pub line: Option<usize>,
    pub refusal: Refusal,
}

/// "25 after all lines"
const SHORT: ConvertRefusal = ConvertRefusal { line: None, refusal: Refusal::BufferShort };

/// Converts a whole file into the front of a lent buffer; the output's length. "It converts all lines or
/// none": nothing is written before the whole output is known to fit.
pub fn convert(wanted: Spelling, text: &[u8], out: &mut [u8]) -> Result<usize, ConvertRefusal> {
    let mut output = Vec::new();
    for (i, line) in cards::lines(text).enumerate() {
        let line = read(wanted, line).map_err(|refusal| ConvertRefusal { line: Some(i + 1), refusal })?;
        output.extend(respelled(wanted, &line));
        if mutant::on(15) && output.len() > out.len() {
            return Err(SHORT);
        }
        if mutant::on(16) {
            out.iter_mut().zip(&output).for_each(|(to, x)| *to = *x);
        }
    }
    out.get_mut(..output.len()).ok_or(SHORT)?.copy_from_slice(&output);
    Ok(output.len())
}

/// "per line 20, 21, 24"
fn read(wanted: Spelling, line: &[u8]) -> Result<Line<'_>, Refusal> {
    let line = cards::read(line)?;
    require(line.spelling != wanted, Refusal::SameSpelling)?;
    Ok(line)
}

/// The line in the wanted spelling, with its feed.
fn respelled(wanted: Spelling, line: &Line) -> Vec<u8> {
    let serial = match wanted {
        Spelling::Hexadecimal => hexadecimal(&line.serial),
        Spelling::Decimal => decimal(&line.serial),
    };
    [serial.as_bytes(), &[b';', wanted.letter(), b';'], line.amount, b"\n"].concat()
}

/// Two digits for each byte, capitals.
fn hexadecimal(serial: &[u8]) -> String {
    serial.iter().map(|x| format!("{x:02X}")).collect()
}

/// "10 digits for four bytes and 17 for seven, padded with zeros"; the first byte is the lowest one.
fn decimal(serial: &[u8]) -> String {
    let mut number = [0; 8];
    number[..serial.len()].copy_from_slice(serial);
    let digits = match serial.len() {
        _ if mutant::on(14) => 0,
        4 => 10,
        _ => 17,
    };
    format!("{:0digits$}", u64::from_le_bytes(number))
}
