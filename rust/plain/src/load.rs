//! The load of document 02, A1: "Each line is one committed transaction."

use crate::calls::{advance, commit, create, lent, require, write};
use crate::cards::{self, Line};
use crate::mutant;
use crate::types::*;

/// "the commit's or advance's answer is the step's"
#[derive(Clone, Copy, Debug, PartialEq, Eq)]
pub enum LoadStep {
    /// A line was taken up; its commit has so many stores.
    Started(usize),
    /// One store of the commit under way.
    Stored(Store),
    /// A commit is under way that has nothing to store; tampered sessions only.
    Idle,
    /// No line is left.
    NoneLeft,
}

/// Why a step was refused, and the line, counted from 1, if it was the line that was.
#[derive(Clone, Copy, Debug, PartialEq, Eq)]
pub struct LoadRefusal {
    pub line: Option<usize>,
    pub refusal: Refusal,
}

/// "1, 2 and 12 come before any line"
impl From<Refusal> for LoadRefusal {
    fn from(refusal: Refusal) -> Self {
        LoadRefusal { line: None, refusal }
    }
}

/// 12: "A load begins on a ready session with nothing staged"
fn idle(session: &Session) -> Result<(), Refusal> {
    require(session.phase == Phase::Ready && session.staged().is_empty(), Refusal::NotReady)
}

/// Whether a load may begin. Its place is then 0.
pub fn load_begin(device: &[u8], work: &[u8], session: &Session) -> Result<(), Refusal> {
    lent(device, work, session)?;
    idle(session)
}

/// One step: "takes up the next line or answers that none is left, on a committing one it makes one
/// advance". The place is that of the next line in the text, in bytes; it moves when a line is taken up.
pub fn load_step(
    device: &mut [u8],
    work: &mut [u8],
    session: &mut Session,
    text: &[u8],
    place: &mut usize,
) -> Result<LoadStep, LoadRefusal> {
    lent(device, work, session)?;
    if let Phase::Committing(_) = session.phase {
        let store = advance(device, work, session)?;
        return Ok(store.map_or(LoadStep::Idle, LoadStep::Stored));
    }
    idle(session)?;
    let Some(line) = text.get(*place..).and_then(|rest| cards::lines(rest).next()) else { return Ok(LoadStep::NoneLeft) };
    let number = text[..*place].iter().filter(|&&x| x == b'\n').count() + 1;
    let taken = cards::read(line).and_then(|line| store_or_put_back(device, work, session, &line));
    if taken.is_ok() || mutant::on(12) {
        *place += line.len();
    }
    taken.map(LoadStep::Started).map_err(|refusal| LoadRefusal { line: Some(number), refusal })
}

/// "earlier lines are kept and the refused one leaves nothing"
fn store_or_put_back(device: &[u8], work: &mut [u8], session: &mut Session, line: &Line) -> Result<usize, Refusal> {
    let before = (work.to_vec(), session.clone());
    store(device, work, session, line).inspect_err(|&refusal| {
        *session = before.1;
        if !(mutant::on(13) && refusal == Refusal::NoSpace) {
            work.copy_from_slice(&before.0);
        }
    })
}

/// The three calls of a line.
fn store(device: &[u8], work: &mut [u8], session: &mut Session, line: &Line) -> Result<usize, Refusal> {
    create(device, work, session, &line.name())?;
    write(device, work, session, &line.name(), 0, &line.content())?;
    commit(device, work, session)
}
