//! How a command ends: its exit status, and the sentence that goes with it.

use std::fmt::Display;
use std::io::{self, ErrorKind};
use std::path::Path;
use std::process::ExitCode;

use purse::{Broken, ConvertRefusal, Failure, Refusal, Standing};

use crate::output::tell;

/// What a command comes to.
pub type Answer<T = ()> = Result<T, Trouble>;

/// Why a command was not done.
#[derive(Debug)]
pub enum Trouble {
    /// Status 1: refused by the library; what stands behind the sentence, or nothing.
    Refused(Refusal, String),
    /// Status 2: the words are wrong; the cause, and the line of usage.
    Words(String, String),
    /// Status 3: the system failed; what, and whether the change is in force. None where nothing was stored yet.
    System(String, Option<Force>),
}

/// Whether a change is in force.
#[derive(Clone, Copy, Debug, PartialEq)]
pub enum Force {
    /// It is.
    Now,
    /// By what the store said of a commit that was broken off.
    Standing(Standing),
    /// It is not, and an earlier change still waits for its recovery.
    NotAndPending,
    /// It is not, and what was put so far may be left as a second purse.
    NotAndLeft,
    /// By what the store said of a line that was being loaded; so many lines were loaded before it.
    Line { line: u64, standing: Standing, before: usize },
}

impl Force {
    fn words(self) -> String {
        match self {
            Force::Now => "the change is in force".into(),
            Force::Standing(standing) => standing.to_string(),
            Force::NotAndPending => "not in force, and the log of an earlier change is still pending: run purse recover".into(),
            Force::NotAndLeft => "not in force; what was put so far may be left as a second purse, which the next put removes".into(),
            Force::Line { line, standing, before } => format!("{standing}; {}; {}", loaded_before(before), go_on(line, standing)),
        }
    }
}

/// What stays of a load that stopped at a line.
pub fn loaded_before(lines: usize) -> String {
    match lines {
        0 => "no line was loaded before it".into(),
        1 => "1 line was loaded before it and stays".into(),
        n => format!("{n} lines were loaded before it and stay"),
    }
}

/// Where a load goes on that was broken off at a line.
fn go_on(line: u64, standing: Standing) -> String {
    let next = line.saturating_add(1);
    match standing {
        Standing::NotInForce => format!("go on at line {line}"),
        Standing::MayBeInForce => format!("go on at line {line}, or at line {next} if {line} is refused with 14"),
        Standing::InForceAfterRecovery => format!("go on at line {next}"),
    }
}

impl Trouble {
    /// A failure of the system before anything was stored.
    pub fn system(what: impl Display, error: &io::Error) -> Trouble {
        Trouble::System(format!("{what}: {error}"), None)
    }

    /// The same, of a file.
    pub fn file(path: &Path, error: &io::Error) -> Trouble {
        match error.kind() {
            ErrorKind::AlreadyExists => Trouble::about(path, "there is a file of this name, and none is overwritten"),
            _ => Trouble::system(path.display(), error),
        }
    }

    /// A sentence about a file.
    pub fn about(path: &Path, sentence: &str) -> Trouble {
        Trouble::System(format!("{}: {sentence}", path.display()), None)
    }

    /// A store that did not reach the image file, and what is in force then.
    pub fn broken(path: &Path, broken: &Broken<io::Error>, force: Force) -> Trouble {
        Trouble::System(format!("{}: {broken}", path.display()), Some(force))
    }

    /// The same trouble with a word about where it arose.
    pub fn at(self, place: &str) -> Trouble {
        match self {
            Trouble::Refused(refusal, more) => Trouble::Refused(refusal, format!("{more}, {place}")),
            Trouble::System(what, force) => Trouble::System(format!("{place}: {what}"), force),
            words => words,
        }
    }

    /// A commit that was not made.
    pub fn commit(path: &Path, failure: Failure<io::Error>) -> Trouble {
        match failure {
            Failure::Refused(refusal) => refusal.into(),
            Failure::Device(broken) => Trouble::broken(path, &broken, Force::Standing(broken.standing())),
            other => Trouble::System(format!("{}: {other}", path.display()), None),
        }
    }
}

impl From<Refusal> for Trouble {
    fn from(refusal: Refusal) -> Self {
        Trouble::Refused(refusal, String::new())
    }
}

impl From<ConvertRefusal> for Trouble {
    fn from(refused: ConvertRefusal) -> Self {
        let trouble = Trouble::from(refused.refusal);
        match refused.line {
            Some(line) => trouble.at(&format!("line {line}")),
            None => trouble,
        }
    }
}

/// A number of things, in words.
pub fn counted(n: usize, thing: &str) -> String {
    match n {
        1 => format!("1 {thing}"),
        n => format!("{n} {thing}s"),
    }
}

/// Says what is to be said and gives the exit status. `changes`: the command was to change a box.
pub fn status(answer: Answer, changes: bool) -> ExitCode {
    match answer {
        Ok(()) => ExitCode::SUCCESS,
        Err(Trouble::Refused(refusal, more)) => {
            tell(format_args!("{refusal}{more}"));
            ExitCode::from(1)
        }
        Err(Trouble::Words(cause, usage)) => {
            tell(format_args!("purse: {cause}\nusage: purse {usage}"));
            ExitCode::from(2)
        }
        Err(Trouble::System(what, force)) => {
            let force = force.or(changes.then_some(Force::Standing(Standing::NotInForce)));
            match force {
                Some(force) => tell(format_args!("purse: {what}; {}", force.words())),
                None => tell(format_args!("purse: {what}")),
            }
            ExitCode::from(3)
        }
    }
}

#[cfg(test)]
mod tests {
    use super::*;

    #[test]
    fn what_is_in_force() {
        assert_eq!(Force::Standing(Standing::NotInForce).words(), "not in force");
        assert_eq!(Force::Standing(Standing::InForceAfterRecovery).words(), "in force after recover");
        assert_eq!(Force::Standing(Standing::MayBeInForce).words(), "may be in force: recover tells");
        for force in [Force::NotAndPending, Force::NotAndLeft] {
            assert!(force.words().starts_with("not in force"));
            assert!(!force.words().contains("in force after"));
        }
        let words = |standing, before| Force::Line { line: 5, standing, before }.words();
        assert_eq!(words(Standing::NotInForce, 4), "not in force; 4 lines were loaded before it and stay; go on at line 5");
        assert_eq!(
            words(Standing::MayBeInForce, 0),
            "may be in force: recover tells; no line was loaded before it; go on at line 5, or at line 6 if 5 is refused with 14"
        );
        assert_eq!(
            words(Standing::InForceAfterRecovery, 1),
            "in force after recover; 1 line was loaded before it and stays; go on at line 6"
        );
    }

    #[test]
    fn places() {
        let refused = Trouble::from(Refusal::NoSpace).at("line 3");
        assert!(matches!(refused, Trouble::Refused(Refusal::NoSpace, more) if more == ", line 3"));
        let exists = Trouble::file(Path::new("a.img"), &io::Error::from(ErrorKind::AlreadyExists));
        assert!(matches!(exists, Trouble::System(what, None) if what.starts_with("a.img: there is a file of this name")));
        assert_eq!((counted(1, "block"), counted(2, "block")), ("1 block".into(), "2 blocks".into()));
    }
}
