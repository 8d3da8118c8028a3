//! The Monday file: a purse for each line, each stored by itself.

use std::io::{self, BufRead, BufReader, Read};
use std::path::Path;

use purse::{Failure, Load, LoadFailure, LoadRefusal, Refusal, Store, LINE_MOST, LOAD_ENOUGH, WORK_SIZE};

use crate::image::{open_file, Image};
use crate::output::{give_stored, progress};
use crate::report::{counted, loaded_before, Answer, Force, Trouble};

/// Loads FILE from a line on. It is read before the image is touched.
pub fn load(path: &Path, file: &Path, first: u64) -> Answer {
    let text = open_file(file).and_then(|f| lines_from(f, first)).map_err(|e| Trouble::file(file, &e))?;
    let mut image = Image::to_store(path)?;
    let (mut store, mut device) = image.ready()?;
    let mut load = Load::of_part(&text, first);
    let mut done = 0;
    let stopped = loop {
        match store.load_line_on(&mut device, &mut load) {
            Ok(Some(_)) => done += 1,
            Ok(None) => break None,
            Err(failure) => break Some(failure),
        }
        progress(format_args!("load: {}", counted(done, "line")));
    };
    progress(format_args!(""));
    match stopped {
        None => give_stored(&format!("loaded {}\n", counted(done, "line"))),
        Some(failure) => Err(trouble(path, &store, &load, done, failure)),
    }
}

/// The bytes from a line on, as many as a load needs: none where there are fewer lines. Lines before it are not kept.
fn lines_from(file: impl Read, first: u64) -> io::Result<Vec<u8>> {
    let mut file = BufReader::new(file);
    for _ in 1..first {
        if file.skip_until(b'\n')? == 0 {
            break;
        }
    }
    let mut text = Vec::new();
    file.take(LOAD_ENOUGH as u64).read_to_end(&mut text)?;
    Ok(text)
}

/// Why a load stopped, how many lines it loaded, and where to go on.
fn trouble(path: &Path, store: &Store, load: &Load, done: usize, stopped: LoadFailure<io::Error>) -> Trouble {
    let Some(line) = stopped.line else {
        return Trouble::commit(path, stopped.failure);
    };
    match stopped.failure {
        Failure::Refused(refusal) => {
            let hint = if refusal == Refusal::Taken { hint(store, load) } else { String::new() };
            Trouble::Refused(refusal, format!(", line {line}; {}{hint}", loaded_before(done)))
        }
        Failure::Device(broken) => {
            let force = Force::Line { line, standing: broken.standing(), before: done };
            Trouble::broken(path, &broken, force).at(&format!("line {line}"))
        }
        other => Trouble::System(format!("line {line}: {other}"), None),
    }
}

/// Where a load goes on that was cut off: the first line from here on that is not refused with 14. The library is asked, on a copy in
/// memory.
fn hint(store: &Store, load: &Load) -> String {
    let (mut image, mut work, mut load) = (store.image().to_vec(), vec![0; WORK_SIZE], load.clone());
    let mut copy = Store::new(&mut image, &mut work);
    if copy.open().is_err() {
        return String::new();
    }
    let text = load.text();
    while let Err(LoadRefusal { refusal: Refusal::Taken, .. }) = copy.load_step(text, &mut load.place()) {
        load.skip_line();
        // Of a text that was read in part, the last line may go on behind it.
        if text.len() == LOAD_ENOUGH && load.place() + LINE_MOST >= text.len() {
            return String::new();
        }
    }
    match load.place() == text.len() {
        true => "; the cards of all lines from there on are in the box".into(),
        false => format!("; the next line that is not refused so is {}", load.line()),
    }
}

#[cfg(test)]
mod tests {
    use super::*;

    /// Reads a few bytes at a time, and then fails or ends.
    struct Slow<'b>(&'b [u8], bool);

    impl Read for Slow<'_> {
        fn read(&mut self, to: &mut [u8]) -> io::Result<usize> {
            match self.0.len().min(to.len()).min(7) {
                0 if self.1 => Err(io::Error::other("torn")),
                n => {
                    to[..n].copy_from_slice(&self.0[..n]);
                    self.0 = &self.0[n..];
                    Ok(n)
                }
            }
        }
    }

    #[test]
    fn lines() {
        let text = b"one\ntwo\n\nfour";
        for (first, wanted) in [(1, &text[..]), (2, b"two\n\nfour"), (3, b"\nfour"), (4, b"four"), (5, b""), (6, b""), (u64::MAX, b"")] {
            assert_eq!(lines_from(Slow(text, false), first).unwrap(), wanted, "from line {first}");
            assert!(lines_from(Slow(text, true), first).is_err(), "from line {first}");
        }
    }

    #[test]
    fn no_more_than_enough() {
        let mut text = vec![b'x'; 100_000];
        text.push(b'\n');
        text.extend([b'y'; 50_000]);
        assert_eq!(lines_from(&text[..], 1).unwrap(), [b'x'; LOAD_ENOUGH]);
        assert_eq!(lines_from(&text[..], 2).unwrap(), [b'y'; LOAD_ENOUGH]);
        assert_eq!(lines_from(&text[..], 3).unwrap(), b"");
        // Nor is more than that waited for.
        assert_eq!(lines_from(Slow(&text[..LOAD_ENOUGH], true), 1).unwrap().len(), LOAD_ENOUGH);
    }
}
