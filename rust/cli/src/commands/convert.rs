//! The printer's file in the other spelling. It touches no image.

use std::path::Path;

use purse::{Spelling, FILE_MOST};

use crate::image::read_whole;
use crate::output::give_file;
use crate::report::{Answer, Trouble};

/// Bytes of the buffer for the output. A line grows from 13 bytes to 15 or from 19 to 22 at most, so every output fits.
const OUTPUT_MOST: usize = FILE_MOST / 2 * 3;

const _: () = assert!(FILE_MOST / 19 * 22 + 22 <= OUTPUT_MOST);

/// FILE with all lines respelled, on standard output. It is read and converted whole before anything is written.
pub fn convert(wanted: Spelling, file: &Path) -> Answer {
    let text = read_whole(file)?;
    if text.len() > FILE_MOST {
        let cause = format!("{} is longer than {FILE_MOST} bytes", file.display());
        return Err(Trouble::Words(cause, "convert H|D FILE".into()));
    }
    let mut output = vec![0; OUTPUT_MOST];
    let length = purse::convert(wanted, &text, &mut output)?;
    give_file(&output[..length])
}
