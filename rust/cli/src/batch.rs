//! The lines of a batch.

use std::ffi::OsStr;
use std::os::unix::ffi::OsStrExt;
use std::path::{Path, PathBuf};

use purse::{Refusal, Store};

use crate::name::Name;
use crate::words::{name_in, new_name_in, number_in};

/// A change that a line asks for. `B` is a file, then its bytes.
#[derive(Debug, PartialEq)]
pub enum Change<B> {
    Create(Name),
    Remove(Name),
    Rename(Name, Name),
    Write(Name, u64, B),
    Resize(Name, u64),
}

/// A change and the number of its line, counted from 1.
pub type Line<B> = (usize, Change<B>);

/// The changes of a batch, or the cause why a line is none.
pub fn lines_of(text: &[u8]) -> Result<Vec<Line<PathBuf>>, String> {
    let mut lines = Vec::new();
    for (i, line) in text.split(|&b| b == b'\n').enumerate() {
        let line = line.trim_ascii();
        if line.is_empty() || line.starts_with(b"#") {
            continue;
        }
        let change = change_of(line).map_err(|cause| format!("line {}: {cause}", i + 1))?;
        lines.push((i + 1, change));
    }
    Ok(lines)
}

/// The first word of some bytes, and what is behind it.
fn cut(line: &[u8]) -> (&[u8], &[u8]) {
    let end = line.iter().position(u8::is_ascii_whitespace).unwrap_or(line.len());
    (&line[..end], line[end..].trim_ascii_start())
}

fn change_of(line: &[u8]) -> Result<Change<PathBuf>, String> {
    let (verb, rest) = cut(line);
    let (first, rest) = cut(rest);
    let (first, verb) = (OsStr::from_bytes(first), String::from_utf8_lossy(verb));
    let (change, rest) = match &*verb {
        "create" => (Change::Create(new_name_in(first)?), rest),
        "remove" => (Change::Remove(name_in(first)?), rest),
        "rename" => {
            let (second, rest) = cut(rest);
            (Change::Rename(name_in(first)?, new_name_in(OsStr::from_bytes(second))?), rest)
        }
        "resize" => {
            let (second, rest) = cut(rest);
            (Change::Resize(name_in(first)?, number_in(OsStr::from_bytes(second))?), rest)
        }
        "write" => {
            let (second, file) = cut(rest);
            if file.is_empty() {
                return Err("write takes NAME OFFSET FILE".into());
            }
            let file = Path::new(OsStr::from_bytes(file)).to_owned();
            (Change::Write(name_in(first)?, number_in(OsStr::from_bytes(second))?, file), &b""[..])
        }
        _ => return Err(format!("no change is called {verb}")),
    };
    match rest.is_empty() {
        true => Ok(change),
        false => Err(format!("{} is one word too many", String::from_utf8_lossy(rest))),
    }
}

impl Change<PathBuf> {
    /// The change with the bytes of its file.
    pub fn load<E>(self, read: impl FnOnce(&Path) -> Result<Vec<u8>, E>) -> Result<Change<Vec<u8>>, E> {
        Ok(match self {
            Change::Create(name) => Change::Create(name),
            Change::Remove(name) => Change::Remove(name),
            Change::Rename(name, new) => Change::Rename(name, new),
            Change::Write(name, at, file) => Change::Write(name, at, read(&file)?),
            Change::Resize(name, size) => Change::Resize(name, size),
        })
    }
}

impl Change<Vec<u8>> {
    /// Stages it.
    pub fn stage(&self, store: &mut Store) -> Result<(), Refusal> {
        match self {
            Change::Create(name) => store.create(&name.0),
            Change::Remove(name) => store.remove(&name.0),
            Change::Rename(name, new) => store.rename(&name.0, &new.0),
            Change::Write(name, at, bytes) => store.write(&name.0, *at, bytes),
            Change::Resize(name, size) => store.set_size(&name.0, *size),
        }
    }
}

#[cfg(test)]
mod tests {
    use super::*;

    const A: Name = Name([1, 2, 3, 4, 5, 6, 7, 8]);
    const B: Name = Name([1, 2, 3, 4, 5, 6, 7, 9]);

    #[test]
    fn lines() {
        let text = b"# a sale\n\ncreate 0102030405060708\r\n  write 0102030405060708\t7 the meal.txt \n\
                     rename 0102030405060708 0102030405060709\nresize 0102030405060709 0\nremove 0102030405060709";
        let wanted = vec![
            (3, Change::Create(A)),
            (4, Change::Write(A, 7, "the meal.txt".into())),
            (5, Change::Rename(A, B)),
            (6, Change::Resize(B, 0)),
            (7, Change::Remove(B)),
        ];
        assert_eq!(lines_of(text), Ok(wanted));
        assert_eq!(lines_of(b""), Ok(vec![]));
    }

    #[test]
    fn wrong_lines() {
        let cause = |text: &[u8]| lines_of(text).unwrap_err();
        assert_eq!(cause(b"\nfly 1"), "line 2: no change is called fly");
        assert_eq!(cause(b"create 1"), "line 1: 1 is no NAME: 16 hexadecimal digits");
        assert_eq!(cause(b"create"), "line 1:  is no NAME: 16 hexadecimal digits");
        assert_eq!(cause(b"remove 0102030405060708 x"), "line 1: x is one word too many");
        assert_eq!(cause(b"write 0102030405060708 7"), "line 1: write takes NAME OFFSET FILE");
        assert_eq!(cause(b"resize 0102030405060708 x"), "line 1: x is no decimal number");
        assert!(cause(b"create FFFFFFFFFFFFFFFF").contains("reserved"));
        assert!(cause(b"rename 0102030405060708 ffffffffffffffff").contains("reserved"));
    }
}
