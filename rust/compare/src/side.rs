//! The two stores behind one trait.

use plain::{ConvertRefusal, Extent, LoadRefusal, LoadStep, Refusal, Session, Spelling};
use std::fmt;
use std::rc::Rc;

/// Everything that a call is lent, but for its arguments.
#[derive(Clone, PartialEq)]
pub struct State {
    pub device: Vec<u8>,
    pub work: Vec<u8>,
    pub session: Session,
}

/// A lent buffer and a lent list, empty where a call has none, and the place of a load.
#[derive(Clone, Default, PartialEq)]
pub struct Lent {
    pub buffer: Vec<u8>,
    pub list: Vec<Extent>,
    pub place: usize,
}

pub type Name = Vec<u8>;

/// A Monday file.
pub type Text = Rc<Vec<u8>>;

#[derive(Clone, Debug)]
pub enum Call {
    Format,
    Open,
    Advance,
    Commit,
    Abort,
    Create(Name),
    Remove(Name),
    Rename(Name, Name),
    Write(Name, u64, Vec<u8>),
    SetSize(Name, u64),
    /// Name, place, length of the buffer.
    Read(Name, u64, usize),
    Size(Name),
    Free,
    Record(u64),
    /// Name, first block place, count, length of the list.
    RunList(Name, u64, u64, usize),
    NthExtent(Name, u64, u64, u64),
    LoadBegin,
    /// The whole text and the place in it.
    LoadStep(Text, usize),
}

/// The call, cut off where its data is long. Of a text, what stands at the place.
impl fmt::Display for Call {
    fn fmt(&self, f: &mut fmt::Formatter) -> fmt::Result {
        if let Call::LoadStep(text, place) = self {
            let rest = text.get(*place..).unwrap_or_default();
            let front = &rest[..rest.len().min(80)];
            return write!(f, "LoadStep at {place} of {}: {}", text.len(), front.escape_ascii());
        }
        let text = format!("{self:?}");
        match text.get(..120) {
            Some(front) => write!(f, "{front} .."),
            None => write!(f, "{text}"),
        }
    }
}

#[derive(Clone, Copy, Debug, PartialEq)]
pub enum Answer {
    /// The number, and the record that goes with 10 and 22, the block that goes with 23, or the line that a load
    /// or a conversion names.
    Refused(u32, Option<u64>),
    Done,
    Started(u64),
    Stored {
        block: u64,
        last: bool,
        number: u64,
    },
    Idle,
    Counted(u64),
    File([u8; 8], u64),
    NoFile,
    Run(Extent),
    NoRun,
    NoneLeft,
}

pub trait Side {
    fn call(&self, s: &mut State, call: &Call, lent: &mut Lent) -> Answer;

    /// A conversion, which needs no store.
    fn convert(&self, wanted: Spelling, text: &[u8], out: &mut [u8]) -> Answer;
}

/// The record or block that a refusal names.
fn place_of(refusal: Refusal) -> Option<u64> {
    match refusal {
        Refusal::BadHeader(n) | Refusal::DamagedRecord(n) | Refusal::DamagedBlock(n) => Some(n as u64),
        _ => None,
    }
}

fn settle<T>(r: Result<T, Refusal>, accepted: impl FnOnce(T) -> Answer) -> Answer {
    match r {
        Ok(value) => accepted(value),
        Err(refusal) => Answer::Refused(refusal.number(), place_of(refusal)),
    }
}

/// The store in plain Rust.
pub struct Plain;

impl Side for Plain {
    fn call(&self, st: &mut State, call: &Call, lent: &mut Lent) -> Answer {
        let (d, w, s) = (&mut st.device[..], &mut st.work[..], &mut st.session);
        let done = |()| Answer::Done;
        let counted = |n: usize| Answer::Counted(n as u64);
        match call {
            Call::Format => settle(plain::format(d, s), done),
            Call::Open => settle(plain::open(d, s), done),
            Call::Advance => settle(plain::advance(d, w, s), stored),
            Call::Commit => settle(plain::commit(d, w, s), |n| Answer::Started(n as u64)),
            Call::Abort => settle(plain::abort(d, w, s), done),
            Call::Create(a) => settle(plain::create(d, w, s, a), done),
            Call::Remove(a) => settle(plain::remove(d, w, s, a), done),
            Call::Rename(a, b) => settle(plain::rename(d, w, s, a, b), done),
            Call::Write(a, x, bytes) => settle(plain::write(d, w, s, a, *x, bytes), done),
            Call::SetSize(a, size) => settle(plain::set_size(d, w, s, a, *size), done),
            Call::Read(a, x, _) => settle(plain::read(d, w, s, a, *x, &mut lent.buffer), counted),
            Call::Size(a) => settle(plain::size(d, w, s, a), Answer::Counted),
            Call::Free => settle(plain::free_count(d, w, s), counted),
            Call::Record(i) => settle(plain::record_at(d, w, s, *i), recorded),
            Call::RunList(a, from, n, _) => settle(plain::run_list(d, w, s, a, *from, *n, &mut lent.list), counted),
            Call::NthExtent(a, from, n, k) => settle(plain::nth_extent(d, w, s, a, *from, *n, *k), run),
            Call::LoadBegin => settle(plain::load_begin(d, w, s), done),
            Call::LoadStep(text, _) => loaded(plain::load_step(d, w, s, text, &mut lent.place)),
        }
    }

    fn convert(&self, wanted: Spelling, text: &[u8], out: &mut [u8]) -> Answer {
        match plain::convert(wanted, text, out) {
            Ok(n) => Answer::Counted(n as u64),
            Err(ConvertRefusal { line, refusal }) => Answer::Refused(refusal.number(), line.map(|n| n as u64)),
        }
    }
}

fn stored(store: Option<plain::Store>) -> Answer {
    match store {
        Some(s) => Answer::Stored { block: s.block as u64, last: s.last, number: s.number as u64 },
        None => Answer::Idle,
    }
}

fn recorded(file: Option<plain::File>) -> Answer {
    match file {
        Some(f) => Answer::File(f.name, f.size as u64),
        None => Answer::NoFile,
    }
}

fn run(extent: Option<Extent>) -> Answer {
    extent.map_or(Answer::NoRun, Answer::Run)
}

fn loaded(r: Result<LoadStep, LoadRefusal>) -> Answer {
    match r {
        Ok(LoadStep::Started(n)) => Answer::Started(n as u64),
        Ok(LoadStep::Stored(store)) => stored(Some(store)),
        Ok(LoadStep::Idle) => Answer::Idle,
        Ok(LoadStep::NoneLeft) => Answer::NoneLeft,
        Err(e) => Answer::Refused(e.refusal.number(), e.line.map(|n| n as u64)),
    }
}

/// Without the proved store the driver compares the plain one with itself.
#[cfg(not(feature = "proved"))]
pub use Plain as Proved;

#[cfg(feature = "proved")]
pub use crate::proved::Proved;
