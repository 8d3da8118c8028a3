//! The proved store, through the safe interface.

use crate::side::{Answer, Call, Lent, Side, State};
use plain::{Phase, Session, Spelling};
use purse::{ConvertRefusal, LoadRefusal, LoadStep, RawSession, Refusal, Store};

pub struct Proved;

fn raw(s: &Session) -> RawSession {
    let (phase, place) = match s.phase {
        Phase::Closed => (0, 0),
        Phase::Ready => (1, 0),
        Phase::Committing(d) => (2, d as u64),
        Phase::Recovering(d) => (3, d as u64),
    };
    RawSession { blocks: s.blocks as u64, phase, place, count: s.count as u64, staged: s.staged }
}

/// The place of a closed or ready session is 0.
fn cooked(s: &RawSession) -> Session {
    let phase = match (s.phase, s.place) {
        (0, 0) => Phase::Closed,
        (1, 0) => Phase::Ready,
        (2, d) => Phase::Committing(d as usize),
        (3, d) => Phase::Recovering(d as usize),
        (phase, place) => panic!("a session of phase {phase} at place {place}"),
    };
    Session { blocks: s.blocks as usize, phase, staged: s.staged, count: s.count as usize }
}

/// The record or block that a refusal names.
fn place_of(refusal: Refusal) -> Option<u64> {
    match refusal {
        Refusal::BadHeader(n) | Refusal::DamagedRecord(n) | Refusal::DamagedBlock(n) => Some(n),
        _ => None,
    }
}

fn settle<T>(r: Result<T, Refusal>, accepted: impl FnOnce(T) -> Answer) -> Answer {
    match r {
        Ok(value) => accepted(value),
        Err(refusal) => Answer::Refused(refusal.number(), place_of(refusal)),
    }
}

impl Side for Proved {
    fn call(&self, st: &mut State, call: &Call, lent: &mut Lent) -> Answer {
        let mut store = Store::resume(&mut st.device, &mut st.work, raw(&st.session));
        let answer = ask(&mut store, call, lent);
        let after = store.session();
        st.session = cooked(&after);
        answer
    }

    fn convert(&self, wanted: Spelling, text: &[u8], out: &mut [u8]) -> Answer {
        let wanted = match wanted {
            Spelling::Hexadecimal => purse::Spelling::Hexadecimal,
            Spelling::Decimal => purse::Spelling::Decimal,
        };
        match purse::convert(wanted, text, out) {
            Ok(n) => Answer::Counted(n as u64),
            Err(ConvertRefusal { line, refusal }) => Answer::Refused(refusal.number(), line),
        }
    }
}

fn ask(store: &mut Store, call: &Call, lent: &mut Lent) -> Answer {
    let done = |()| Answer::Done;
    let counted = |n: usize| Answer::Counted(n as u64);
    match call {
        Call::Format => settle(store.format(), done),
        Call::Open => settle(store.open(), done),
        Call::Advance => settle(store.advance(), stored),
        Call::Commit => settle(store.commit(), Answer::Started),
        Call::Abort => settle(store.abort(), done),
        Call::Create(a) => settle(store.create(a), done),
        Call::Remove(a) => settle(store.remove(a), done),
        Call::Rename(a, b) => settle(store.rename(a, b), done),
        Call::Write(a, x, bytes) => settle(store.write(a, *x, bytes), done),
        Call::SetSize(a, size) => settle(store.set_size(a, *size), done),
        Call::Read(a, x, _) => settle(store.read(a, *x, &mut lent.buffer), counted),
        Call::Size(a) => settle(store.size(a), Answer::Counted),
        Call::Free => settle(store.free_count(), Answer::Counted),
        Call::Record(i) => settle(store.record(*i), recorded),
        Call::RunList(a, from, n, _) => run_list(store, a, *from, *n, &mut lent.list),
        Call::NthExtent(a, from, n, k) => settle(store.nth_extent(a, *from, *n, *k), run),
        Call::LoadBegin => settle(store.load_begin(), done),
        Call::LoadStep(text, _) => loaded(store.load_step(text, &mut lent.place)),
    }
}

fn stored(store: Option<purse::BlockStore>) -> Answer {
    match store {
        Some(s) => Answer::Stored { block: s.block, last: s.last, number: s.number },
        None => Answer::Idle,
    }
}

fn loaded(r: Result<LoadStep, LoadRefusal>) -> Answer {
    match r {
        Ok(LoadStep::Started(n)) => Answer::Started(n),
        Ok(LoadStep::Stored(store)) => stored(Some(store)),
        Ok(LoadStep::Idle) => Answer::Idle,
        Ok(LoadStep::NoneLeft) => Answer::NoneLeft,
        Err(e) => Answer::Refused(e.refusal.number(), e.line),
    }
}

fn recorded(file: Option<purse::File>) -> Answer {
    match file {
        Some(f) => Answer::File(f.name, f.size),
        None => Answer::NoFile,
    }
}

fn run(extent: Option<purse::Extent>) -> Answer {
    extent.map_or(Answer::NoRun, |e| Answer::Run(plain::Extent { first: e.first, count: e.count }))
}

/// The lent list in the other crate's type, there and back.
fn run_list(store: &Store, name: &[u8], from: u64, n: u64, list: &mut [plain::Extent]) -> Answer {
    let mut theirs: Vec<_> = list.iter().map(|e| purse::Extent { first: e.first, count: e.count }).collect();
    let answer = settle(store.run_list(name, from, n, &mut theirs), |n| Answer::Counted(n as u64));
    for (e, t) in list.iter_mut().zip(&theirs) {
        *e = plain::Extent { first: t.first, count: t.count };
    }
    answer
}
