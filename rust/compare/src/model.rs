//! The plain store of document 01's cut rule: maps from names to bytes, fed with calls, answers and
//! cuts. It knows nothing of blocks.

use crate::cards::{line_at, Card, Line};
use crate::side::{Answer, Call, Lent};
use std::collections::BTreeMap;
use std::rc::Rc;

pub type Name8 = [u8; 8];
pub type Map = BTreeMap<Name8, Rc<Vec<u8>>>;

#[derive(Clone, Copy, Debug, PartialEq)]
pub enum Phase {
    Closed,
    Ready,
    Committing,
    Recovering,
}

#[derive(Clone)]
pub struct Model {
    pub committed: Map,
    pub working: Map,
    pub phase: Phase,
    /// Of the commit last started.
    pub k: u64,
    /// Stores made since the commit or open began.
    pub d: u64,
    pub pending: bool,
    /// The N of the session: 0 if it was never opened.
    pub n: usize,
    pub blocks: usize,
    /// How many blocks were staged before the call. A load asks for it, and maps do not tell.
    pub staged: usize,
}

const LIMIT: u64 = 1_048_576;

fn name8(name: &[u8]) -> Option<Name8> {
    name.try_into().ok().filter(|n| *n != [0; 8])
}

impl Model {
    pub fn new(map: Map, blocks: usize) -> Model {
        Model { committed: map.clone(), working: map, phase: Phase::Closed, k: 0, d: 0, pending: false, n: 0, blocks, staged: 0 }
    }

    pub fn cut(&mut self) {
        self.working = self.committed.clone();
        (self.phase, self.n) = (Phase::Closed, 0);
    }

    /// The refusal that comes first, as far as maps and phases tell it.
    pub fn due(&self, call: &Call) -> Option<u32> {
        let queries: (Vec<&[u8]>, Option<u128>) = match call {
            Call::Format | Call::Open => return None,
            Call::Advance => return (self.n == 0).then_some(1),
            Call::LoadBegin => return self.due_from_session(),
            Call::LoadStep(text, place) => return self.due_from_line(line_at(text, *place)),
            Call::Commit | Call::Abort | Call::Free | Call::Record(_) => (vec![], None),
            Call::Create(a) | Call::Remove(a) | Call::Size(a) => (vec![a], None),
            Call::Read(a, ..) | Call::RunList(a, ..) | Call::NthExtent(a, ..) => (vec![a], None),
            Call::Rename(a, b) => (vec![a, b], None),
            Call::Write(a, x, bytes) => (vec![a], Some(*x as u128 + bytes.len() as u128)),
            Call::SetSize(a, size) => (vec![a], Some(*size as u128)),
        };
        let (names, size) = queries;
        match () {
            _ if self.n == 0 => Some(1),
            _ if names.iter().any(|n| name8(n).is_none()) => Some(3),
            _ if size.is_some_and(|s| s > LIMIT as u128) => Some(4),
            _ if self.phase != Phase::Ready => Some(12),
            _ => self.due_from_map(call, &names),
        }
    }

    /// "A load begins on a ready session with nothing staged, else it gives 12."
    fn due_from_session(&self) -> Option<u32> {
        match () {
            _ if self.n == 0 => Some(1),
            _ if self.phase != Phase::Ready || self.staged > 0 => Some(12),
            _ => None,
        }
    }

    /// A step on a committing session is an advance; else what the line at its place gets.
    fn due_from_line(&self, line: Option<Line>) -> Option<u32> {
        if self.phase == Phase::Committing {
            return None;
        }
        self.due_from_session().or_else(|| match line?.card {
            Ok(card) => self.due(&Call::Create(card.name().to_vec())),
            Err(number) => Some(number),
        })
    }

    fn due_from_map(&self, call: &Call, names: &[&[u8]]) -> Option<u32> {
        let has = |i: usize| self.working.contains_key(names[i]);
        match call {
            Call::Create(_) if has(0) => Some(14),
            Call::Create(_) if self.working.len() == 128 => Some(15),
            Call::Create(_) => None,
            Call::Rename(..) if has(0) && has(1) => Some(14),
            _ if !names.is_empty() && !has(0) => Some(13),
            _ => None,
        }
    }

    /// Whether the call may be refused with this number for want of room.
    fn may(call: &Call, number: u32) -> bool {
        match call {
            Call::Write(..) | Call::SetSize(..) => (16..=18).contains(&number),
            Call::Create(_) | Call::Remove(_) | Call::Rename(..) => number == 18,
            Call::RunList(..) => number == 19,
            Call::LoadStep(..) => number == 16,
            _ => false,
        }
    }

    /// Takes an answer in, and checks it.
    pub fn take(&mut self, call: &Call, answer: Answer, lent: &Lent) -> Result<(), String> {
        let due = self.due(call);
        let right = match answer {
            Answer::Refused(n, _) => due == Some(n) || (due.is_none() && Model::may(call, n)),
            _ => due.is_none() && self.told(call, answer, lent),
        };
        if !right || !Model::on_line(call, answer, lent.place) {
            return Err(format!("{call} -> {answer:?}, which the maps do not allow (due {due:?})"));
        }
        if !matches!(answer, Answer::Refused(..)) {
            self.accept(call, answer);
        }
        Ok(())
    }

    /// Whether a step of a load names the line that is refused and no other, and hands back the place behind
    /// a line that it takes up, else the place that it was given.
    fn on_line(call: &Call, answer: Answer, back: usize) -> bool {
        let Call::LoadStep(text, place) = call else { return true };
        let line = line_at(text, *place);
        match answer {
            Answer::Refused(1 | 2 | 12, named) => named.is_none() && back == *place,
            Answer::Refused(_, named) => line.is_some_and(|l| named == Some(l.number)) && back == *place,
            Answer::Started(_) => line.is_some_and(|l| back == l.end),
            _ => back == *place,
        }
    }

    /// Whether an accepted call answers what the maps tell.
    fn told(&self, call: &Call, answer: Answer, lent: &Lent) -> bool {
        let file = |a: &[u8]| self.working[a].clone();
        match (call, answer) {
            (Call::Advance, Answer::Idle) => matches!(self.phase, Phase::Closed | Phase::Ready),
            (Call::Advance, Answer::Stored { number, last, .. }) => self.told_store(number, last),
            (Call::LoadStep(..), Answer::Stored { number, last, .. }) => self.phase == Phase::Committing && self.told_store(number, last),
            (Call::LoadStep(text, place), Answer::Started(8)) => self.phase == Phase::Ready && line_at(text, *place).is_some(),
            (Call::LoadStep(text, place), Answer::NoneLeft) => self.phase == Phase::Ready && line_at(text, *place).is_none(),
            (Call::LoadStep(..), _) => false,
            (Call::Commit, Answer::Started(n)) => n % 2 == 0 && n != 2 && n <= 66,
            (Call::Read(a, x, len), Answer::Counted(n)) => {
                let bytes = file(a);
                let from = (*x).min(bytes.len() as u64) as usize;
                let end = (from + len).min(bytes.len());
                n as usize == end - from && lent.buffer[..end - from] == bytes[from..end]
            }
            (Call::Size(a), Answer::Counted(n)) => n == file(a).len() as u64,
            (Call::Record(_), Answer::File(name, size)) => file(&name).len() as u64 == size,
            (Call::Record(i), Answer::NoFile) => *i > 127 || self.working.len() < 128,
            (Call::RunList(a, from, n, _), Answer::Counted(c)) => {
                let blocks = file(a).len().div_ceil(512) as u64;
                let told: u64 = lent.list[..c as usize].iter().map(|e| e.count as u64).sum();
                told == blocks.saturating_sub(*from).min(*n)
            }
            _ => true,
        }
    }

    fn told_store(&self, number: u64, last: bool) -> bool {
        let total = match self.phase {
            Phase::Committing => 2 * self.k + 2,
            Phase::Recovering => self.k + 1,
            _ => return false,
        };
        number == self.d + 1 && last == (number == total)
    }

    fn accept(&mut self, call: &Call, answer: Answer) {
        match call {
            Call::Format => *self = Model { n: self.blocks, ..Model::new(Map::new(), self.blocks) },
            Call::Open => {
                self.working = self.committed.clone();
                (self.d, self.n) = (0, self.blocks);
                self.phase = if self.pending { Phase::Recovering } else { Phase::Ready };
            }
            Call::Commit => {
                if let Answer::Started(n @ 1..) = answer {
                    (self.phase, self.k, self.d) = (Phase::Committing, (n - 2) / 2, 0);
                }
            }
            Call::Advance => self.advance(),
            Call::LoadStep(text, place) if matches!(answer, Answer::Started(_)) => {
                let card = line_at(text, *place).and_then(|l| l.card.ok());
                card.iter().for_each(|card| self.load(card, answer));
            }
            Call::LoadStep(..) => self.advance(),
            Call::Abort => self.working = self.committed.clone(),
            _ => self.change(call),
        }
    }

    /// "Each line is one committed transaction."
    fn load(&mut self, card: &Card, answer: Answer) {
        let name = card.name().to_vec();
        self.accept(&Call::Create(name.clone()), Answer::Done);
        self.accept(&Call::Write(name, 0, card.content().to_vec()), Answer::Done);
        self.accept(&Call::Commit, answer);
    }

    fn advance(&mut self) {
        match self.phase {
            Phase::Committing => {
                self.d += 1;
                if self.d == self.k + 1 {
                    (self.committed, self.pending) = (self.working.clone(), true);
                }
                if self.d == 2 * self.k + 2 {
                    (self.pending, self.phase) = (false, Phase::Ready);
                }
            }
            Phase::Recovering => {
                self.d += 1;
                if self.d == self.k + 1 {
                    (self.pending, self.phase) = (false, Phase::Closed);
                }
            }
            Phase::Closed | Phase::Ready => {}
        }
    }

    fn change(&mut self, call: &Call) {
        match call {
            Call::Create(a) => {
                self.working.insert(name8(a).unwrap(), Rc::default());
            }
            Call::Remove(a) => {
                self.working.remove(&a[..]);
            }
            Call::Rename(a, b) => {
                let file = self.working.remove(&a[..]).unwrap();
                self.working.insert(name8(b).unwrap(), file);
            }
            Call::Write(a, x, bytes) => {
                let file = Rc::make_mut(self.working.get_mut(&a[..]).unwrap());
                let (x, end) = (*x as usize, *x as usize + bytes.len());
                file.resize(file.len().max(end), 0);
                file[x..end].copy_from_slice(bytes);
            }
            Call::SetSize(a, size) => Rc::make_mut(self.working.get_mut(&a[..]).unwrap()).resize(*size as usize, 0),
            _ => {}
        }
    }
}
