//! The words of a command line.

use std::ffi::{OsStr, OsString};
use std::path::PathBuf;

use purse::Spelling;

use crate::name::{Name, SECOND};
use crate::report::{counted, Answer, Trouble};

/// What is to be done.
#[derive(Debug, PartialEq)]
pub enum Command {
    Help,
    Version,
    Format { image: PathBuf, blocks: u64 },
    List { image: PathBuf, json: bool },
    Check { image: PathBuf },
    Recover { image: PathBuf },
    Map { image: PathBuf, svg: Option<PathBuf> },
    Get { image: PathBuf, name: Name },
    Put { image: PathBuf, name: Name, file: PathBuf },
    Append { image: PathBuf, name: Name, file: PathBuf },
    Write { image: PathBuf, name: Name, offset: u64, file: PathBuf },
    Resize { image: PathBuf, name: Name, size: u64 },
    Remove { image: PathBuf, name: Name },
    Rename { image: PathBuf, name: Name, new: Name },
    Batch { image: PathBuf, file: PathBuf },
    Load { image: PathBuf, file: PathBuf, line: u64 },
    Convert { wanted: Spelling, file: PathBuf },
    Dump { image: PathBuf, dir: PathBuf },
    Restore { dir: PathBuf, image: PathBuf },
    Salvage { image: PathBuf, dir: PathBuf },
}

impl Command {
    /// Whether it may store.
    pub fn changes(&self) -> bool {
        use Command::*;
        !matches!(
            self,
            Help | Version | List { .. } | Check { .. } | Map { .. } | Get { .. } | Convert { .. } | Dump { .. } | Salvage { .. }
        )
    }
}

/// Each command: its word, the words behind it, and what it does.
const FORMS: [(&str, &str, &str); 18] = [
    ("format", "IMAGE BLOCKS", "make a new, empty box of 64 to 4096 blocks; no file is overwritten"),
    ("list", "[--json] IMAGE", "the purses: name, size and where the blocks lie"),
    ("check", "IMAGE", "whether the box is sound"),
    ("recover", "IMAGE", "bring a change to its end that a power cut broke off"),
    ("map", "[--svg FILE] IMAGE", "each block: its area, or the purse that it belongs to"),
    ("get", "IMAGE NAME", "the bytes of a purse"),
    ("put", "IMAGE NAME FILE", "a new purse, or new bytes for an old one, all or nothing"),
    ("append", "IMAGE NAME FILE", "bytes behind those of a purse"),
    ("write", "IMAGE NAME OFFSET FILE", "bytes over those of a purse, from a place on"),
    ("resize", "IMAGE NAME SIZE", "cut a purse off, or lengthen it by zeros"),
    ("remove", "IMAGE NAME", "remove a purse"),
    ("rename", "IMAGE NAME NEW", "give a purse another name"),
    ("batch", "IMAGE FILE", "several changes as one, a line each"),
    ("load", "IMAGE FILE [LINE]", "the printer's file: a purse for each line, from the first or LINE on"),
    ("convert", "H|D FILE", "the printer's file with all lines respelled: into H lines, or into D lines"),
    ("dump", "IMAGE DIR", "each purse into a new file of its name"),
    ("restore", "DIR IMAGE", "put each file that has the name of a purse"),
    ("salvage", "IMAGE DIR", "what can be saved from a box that is refused"),
];

/// The text of `purse --help`.
pub fn help() -> String {
    let mut text = String::from("purse keeps the purses of a till box in an image file.\n\n");
    for (word, behind, what) in FORMS {
        let form = format!("purse {word} {behind}");
        text.push_str(&format!("    {form:<37} {what}\n"));
    }
    text.push_str(
        "\nNAME is 16 hexadecimal digits. FILE is - for standard input. In a batch a line is create NAME, remove NAME,\n\
         rename NAME NEW, write NAME OFFSET FILE or resize NAME SIZE; empty lines and those that begin with # are skipped.\n\
         In the printer's file a line is serial;letter;amount: 04A1B2C3;H;1250 and 3283263748;D;1250 are one card with 1250 cents.\n\
         Exit status: 0 done, 1 refused, 2 wrong words, 3 the system failed.\n",
    );
    text
}

/// A cause and the line of usage, in general or of one command.
fn wrong(word: Option<&str>, cause: impl Into<String>) -> Trouble {
    let usage = match FORMS.iter().find(|form| Some(form.0) == word) {
        Some((word, behind, _)) => format!("{word} {behind}"),
        None => "COMMAND WORDS, or --help".into(),
    };
    Trouble::Words(cause.into(), usage)
}

/// The command that some words tell.
pub fn command_of(words: &[OsString]) -> Answer<Command> {
    let Some((first, rest)) = words.split_first() else {
        return Err(wrong(None, "which command?"));
    };
    match first.to_str() {
        Some("--help" | "-h" | "help") => return Ok(Command::Help),
        Some("--version" | "-V") => return Ok(Command::Version),
        _ => {}
    }
    let Some(form) = FORMS.iter().find(|form| first == form.0) else {
        return Err(wrong(None, format!("no command is called {}", first.display())));
    };
    let mut given = Given { word: form.0, operands: vec![], json: false, svg: None, help: false };
    given.sort(rest)?;
    if given.help {
        return Ok(Command::Help);
    }
    let (fewest, most) = operands_of(form.1);
    match given.operands.len() {
        n if (fewest..=most).contains(&n) => given.command(),
        n if fewest < most => Err(given.wrong(format!("{} takes {fewest} or {}, not {n}", form.0, counted(most, "word")))),
        n => Err(given.wrong(format!("{} takes {}, not {n}", form.0, counted(fewest, "word")))),
    }
}

/// How many operands a form has, at least and at most. `[LINE]` is one that may be left out, `[--json]` and `[--svg FILE]` are options.
fn operands_of(form: &str) -> (usize, usize) {
    let fewest = form.split(' ').filter(|w| !w.starts_with('[') && !w.ends_with(']')).count();
    let more = form.split(' ').filter(|w| w.starts_with('[') && !w.starts_with("[-")).count();
    (fewest, fewest + more)
}

/// The words behind a command.
struct Given {
    word: &'static str,
    operands: Vec<OsString>,
    json: bool,
    svg: Option<PathBuf>,
    help: bool,
}

impl Given {
    fn wrong(&self, cause: impl Into<String>) -> Trouble {
        wrong(Some(self.word), cause)
    }

    /// Tells options from operands. Behind `--` all are operands.
    fn sort(&mut self, words: &[OsString]) -> Answer {
        let mut words = words.iter();
        while let Some(word) = words.next() {
            match (self.word, word.to_str()) {
                (_, Some("--")) => self.operands.extend(words.by_ref().cloned()),
                (_, Some("--help")) => self.help = true,
                ("list", Some("--json")) => self.json = true,
                ("map", Some("--svg")) => match words.next() {
                    Some(file) => self.svg = Some(file.into()),
                    None => return Err(self.wrong("--svg takes a FILE")),
                },
                _ if word != "-" && word.as_encoded_bytes().starts_with(b"-") => {
                    return Err(self.wrong(format!("{} has no option {}", self.word, word.display())));
                }
                _ => self.operands.push(word.clone()),
            }
        }
        Ok(())
    }

    fn path(&self, i: usize) -> PathBuf {
        PathBuf::from(&self.operands[i])
    }

    fn name(&self, i: usize) -> Answer<Name> {
        name_in(&self.operands[i]).map_err(|cause| self.wrong(cause))
    }

    fn new_name(&self, i: usize) -> Answer<Name> {
        new_name_in(&self.operands[i]).map_err(|cause| self.wrong(cause))
    }

    fn number(&self, i: usize) -> Answer<u64> {
        number_in(&self.operands[i]).map_err(|cause| self.wrong(cause))
    }

    /// A line, counted from 1; the first where it is left out.
    fn line(&self, i: usize) -> Answer<u64> {
        match self.operands.get(i).map(|_| self.number(i)) {
            None => Ok(1),
            Some(Ok(0)) => Err(self.wrong("LINE is counted from 1")),
            Some(line) => line,
        }
    }

    /// The letter of a spelling.
    fn spelling(&self, i: usize) -> Answer<Spelling> {
        match self.operands[i].as_encoded_bytes() {
            b"H" => Ok(Spelling::Hexadecimal),
            b"D" => Ok(Spelling::Decimal),
            _ => Err(self.wrong(format!("{} is neither H nor D", self.operands[i].display()))),
        }
    }

    /// The command. There are as many operands as its form has.
    fn command(self) -> Answer<Command> {
        let first = self.path(0);
        Ok(match self.word {
            "format" => Command::Format { image: first, blocks: self.number(1)? },
            "list" => Command::List { image: first, json: self.json },
            "check" => Command::Check { image: first },
            "recover" => Command::Recover { image: first },
            "map" => Command::Map { image: first, svg: self.svg },
            "get" => Command::Get { image: first, name: self.name(1)? },
            "put" => Command::Put { image: first, name: self.new_name(1)?, file: self.path(2) },
            "append" => Command::Append { image: first, name: self.name(1)?, file: self.path(2) },
            "write" => Command::Write { image: first, name: self.name(1)?, offset: self.number(2)?, file: self.path(3) },
            "resize" => Command::Resize { image: first, name: self.name(1)?, size: self.number(2)? },
            "remove" => Command::Remove { image: first, name: self.name(1)? },
            "rename" => Command::Rename { image: first, name: self.name(1)?, new: self.new_name(2)? },
            "batch" => Command::Batch { image: first, file: self.path(1) },
            "load" => Command::Load { image: first, file: self.path(1), line: self.line(2)? },
            "convert" => Command::Convert { wanted: self.spelling(0)?, file: self.path(1) },
            "dump" => Command::Dump { image: first, dir: self.path(1) },
            "restore" => Command::Restore { dir: first, image: self.path(1) },
            _ => Command::Salvage { image: first, dir: self.path(1) },
        })
    }
}

/// A name, or why it is none.
pub fn name_in(word: &OsStr) -> Result<Name, String> {
    Name::of(word).ok_or_else(|| format!("{} is no NAME: 16 hexadecimal digits", word.display()))
}

/// A name that a purse may get.
pub fn new_name_in(word: &OsStr) -> Result<Name, String> {
    match name_in(word)? {
        SECOND => Err(format!("{SECOND} is reserved: a long put gathers under this name")),
        name => Ok(name),
    }
}

/// A decimal number. One that is too large for any use is read as the largest there is, and refused by the store.
pub fn number_in(word: &OsStr) -> Result<u64, String> {
    let digits = word.as_encoded_bytes();
    if digits.is_empty() || !digits.iter().all(u8::is_ascii_digit) {
        return Err(format!("{} is no decimal number", word.display()));
    }
    let add = |n: u64, d: &u8| n.saturating_mul(10).saturating_add(u64::from(d - b'0'));
    Ok(digits.iter().fold(0, add))
}

#[cfg(test)]
mod tests {
    use super::*;

    fn of(line: &str) -> Result<Command, (String, String)> {
        let words: Vec<OsString> = line.split_whitespace().map(OsString::from).collect();
        command_of(&words).map_err(|t| match t {
            Trouble::Words(cause, usage) => (cause, usage),
            other => panic!("{other:?}"),
        })
    }

    fn cause(line: &str) -> String {
        of(line).unwrap_err().0
    }

    #[test]
    fn commands() {
        let name = Name([1, 2, 3, 4, 5, 6, 7, 8]);
        let image = PathBuf::from("a.img");
        let write = Command::Write { image: image.clone(), name, offset: 7, file: "-".into() };
        assert_eq!(of("write a.img 0102030405060708 7 -"), Ok(write));
        assert_eq!(of("list --json a.img"), Ok(Command::List { image: image.clone(), json: true }));
        assert_eq!(of("map a.img --svg b.svg"), Ok(Command::Map { image, svg: Some("b.svg".into()) }));
        let load = |line| Command::Load { image: "a.img".into(), file: "-".into(), line };
        assert_eq!((of("load a.img -"), of("load a.img - 12")), (Ok(load(1)), Ok(load(12))));
        let convert = |wanted| Command::Convert { wanted, file: "-".into() };
        assert_eq!(of("convert H -"), Ok(convert(Spelling::Hexadecimal)));
        assert_eq!(of("convert D -"), Ok(convert(Spelling::Decimal)));
        assert_eq!(of("check -- -x"), Ok(Command::Check { image: "-x".into() }));
        assert_eq!(of("--help"), Ok(Command::Help));
        assert_eq!(of("put --help"), Ok(Command::Help));
        assert!(of("restore d a.img").unwrap().changes());
        assert!(of("load a.img x").unwrap().changes());
        assert!(!of("salvage a.img d").unwrap().changes());
        assert!(!of("convert H x").unwrap().changes());
    }

    #[test]
    fn every_form_has_its_command() {
        for (word, behind, _) in FORMS {
            let operands = behind.split(' ').filter(|w| !w.starts_with('[') && !w.ends_with(']'));
            let given = |w: &str| match w {
                "H|D" => "D",
                w if w.starts_with('N') => "0102030405060708",
                _ => "9",
            };
            let words: Vec<&str> = operands.map(given).collect();
            let command = of(&format!("{word} {}", words.join(" "))).unwrap();
            assert!(format!("{command:?}").to_lowercase().starts_with(word), "{command:?}");
        }
    }

    #[test]
    fn wrong_words() {
        assert_eq!(of("").unwrap_err().1, "COMMAND WORDS, or --help");
        assert_eq!(cause("fly a.img"), "no command is called fly");
        assert_eq!(of("put a.img 0102030405060708").unwrap_err().1, "put IMAGE NAME FILE");
        assert_eq!(cause("list"), "list takes 1 word, not 0");
        assert_eq!(cause("get a.img 01"), "01 is no NAME: 16 hexadecimal digits");
        assert_eq!(cause("check --json a.img"), "check has no option --json");
        assert_eq!(cause("map a.img --svg"), "--svg takes a FILE");
        assert_eq!(cause("load a.img"), "load takes 2 or 3 words, not 1");
        assert_eq!(of("load a.img x 1 2").unwrap_err().1, "load IMAGE FILE [LINE]");
        assert_eq!(cause("load a.img x 0"), "LINE is counted from 1");
        assert_eq!(cause("load a.img x 1st"), "1st is no decimal number");
        assert_eq!(cause("convert H"), "convert takes 2 words, not 1");
        assert_eq!(cause("convert h x"), "h is neither H nor D");
        assert_eq!(of("convert x H").unwrap_err(), ("x is neither H nor D".into(), "convert H|D FILE".into()));
        assert_eq!(cause("format a.img 0x40"), "0x40 is no decimal number");
        let reserved = "FFFFFFFFFFFFFFFF is reserved: a long put gathers under this name";
        assert_eq!(cause("put a.img ffffffffffffffff x"), reserved);
        assert_eq!(cause("rename a.img 0102030405060708 FFFFFFFFFFFFFFFF"), reserved);
        assert!(of("remove a.img FFFFFFFFFFFFFFFF").is_ok());
    }

    #[test]
    fn numbers() {
        assert_eq!(number_in("18446744073709551615".as_ref()), Ok(u64::MAX));
        assert_eq!(number_in("99999999999999999999999".as_ref()), Ok(u64::MAX));
        assert_eq!(number_in("007".as_ref()), Ok(7));
        assert!(number_in("".as_ref()).is_err());
        assert!(number_in("-1".as_ref()).is_err());
    }
}
