//! Both stores side by side: every call goes to both, and everything is compared after it.

use crate::side::{Answer, Call, Lent, Plain, Proved, Side, State};
use crate::verdict;
use plain::{Extent, Phase, Session, Spelling, BLOCK, WORK_SIZE};

/// What was done, for the table at the end.
#[derive(Default, Clone)]
pub struct Tally {
    pub calls: u64,
    pub cuts: u64,
    pub tampered: u64,
    pub refused: [u64; 26],
    /// Those of them that were steps of a load.
    pub refused_steps: [u64; 26],
    /// Those of them that were conversions.
    pub refused_conversions: [u64; 26],
    /// Lines that a step took up.
    pub lines: u64,
    /// Accepted calls, in the order of `Call`; then conversions.
    pub accepted: [u64; 19],
    pub most_extents: usize,
}

/// What a call may do to the device.
enum Device {
    Anything,
    /// It was so, and one block may change.
    OneBlock(Vec<u8>),
    /// Its sum was so and stays so.
    Same(u64),
}

pub type Check<T = ()> = Result<T, String>;

pub struct Pair {
    pub plain: State,
    pub proved: State,
    /// The lent buffer, list and place as the last call left them.
    pub lent: Lent,
    pub tally: Tally,
    pub tampering: bool,
    pub loud: bool,
}

impl Pair {
    pub fn new(blocks: usize, loud: bool) -> Pair {
        let state = State { device: vec![0x5a; blocks * BLOCK], work: vec![0xa5; WORK_SIZE], session: Session::never_opened() };
        Pair { plain: state.clone(), proved: state, lent: Lent::default(), tally: Tally::default(), tampering: false, loud }
    }

    /// Changes both states alike.
    pub fn both(&mut self, change: impl Fn(&mut State)) {
        change(&mut self.plain);
        change(&mut self.proved);
    }

    pub fn say(&self, what: impl Fn() -> String) {
        if self.loud {
            println!("{}", what());
        }
    }

    /// One call on both sides, and the comparison.
    pub fn call(&mut self, call: &Call) -> Check<Answer> {
        let mut a = lend(call);
        let mut b = a.clone();
        let before = self.digest(call);
        let kept = matches!(call, Call::LoadStep(..)).then(|| (self.plain.work.clone(), self.plain.session.clone()));
        let plain = Plain.call(&mut self.plain, call, &mut a);
        let proved = Proved.call(&mut self.proved, call, &mut b);
        self.say(|| format!("  {call} -> {plain:?}"));
        self.count(call, plain);
        if plain != proved {
            return Err(format!("{call}: plain answers {plain:?}, proved {proved:?}"));
        }
        if a != b {
            return Err(format!("{call}: the lent buffer, list or place differs"));
        }
        self.same().map_err(|e| format!("{call} -> {plain:?}: {e}"))?;
        self.keeps_out(call, plain, before)?;
        self.opens_rightly(call, plain)?;
        if let (Answer::Refused(..), Some((work, session))) = (plain, kept) {
            if work != self.plain.work || session != self.plain.session {
                return Err(format!("{call} -> {plain:?} changed the work space or the session"));
            }
        }
        self.lent = a;
        Ok(plain)
    }

    fn count(&mut self, call: &Call, answer: Answer) {
        let (tally, load) = (&mut self.tally, matches!(call, Call::LoadStep(..)));
        tally.calls += 1;
        tally.tampered += self.tampering as u64;
        tally.lines += (load && matches!(answer, Answer::Started(_))) as u64;
        match answer {
            Answer::Refused(n, _) => {
                tally.refused[n as usize] += 1;
                tally.refused_steps[n as usize] += load as u64;
            }
            _ => tally.accepted[kind(call)] += 1,
        }
        if let (Call::RunList(..), Answer::Counted(n)) = (call, answer) {
            tally.most_extents = tally.most_extents.max(n as usize);
        }
    }

    /// One conversion on both sides into buffers that are alike, and the comparison.
    pub fn convert(&mut self, wanted: Spelling, text: &[u8], out: &mut [u8]) -> Check<Answer> {
        let what = format!("convert to {wanted:?} into {} bytes", out.len());
        let mut theirs = out.to_vec();
        let plain = Plain.convert(wanted, text, out);
        let proved = Proved.convert(wanted, text, &mut theirs);
        self.say(|| format!("  {what} -> {plain:?}: {}", text.escape_ascii()));
        self.count_conversion(plain);
        if plain != proved {
            return Err(format!("{what}: plain answers {plain:?}, proved {proved:?}"));
        }
        match out.iter().zip(&theirs).position(|(x, y)| x != y) {
            Some(i) => Err(format!("{what} -> {plain:?}: the buffers differ at {i}: plain {:02x}, proved {:02x}", out[i], theirs[i])),
            None => Ok(plain),
        }
    }

    fn count_conversion(&mut self, answer: Answer) {
        self.tally.calls += 1;
        match answer {
            Answer::Refused(n, _) => {
                self.tally.refused[n as usize] += 1;
                self.tally.refused_conversions[n as usize] += 1;
            }
            _ => self.tally.accepted[CONVERT] += 1,
        }
    }

    /// Session, device and work space of both sides.
    fn same(&self) -> Check {
        let (a, b) = (&self.plain, &self.proved);
        if a.session != b.session {
            return Err(format!("sessions differ\n  plain  {:?}\n  proved {:?}", a.session, b.session));
        }
        if a.device != b.device {
            return Err(format!("devices differ at {}", first_difference(&a.device, &b.device)));
        }
        if a.work != b.work {
            return Err(format!("work spaces differ at {}", first_difference(&a.work, &b.work)));
        }
        Ok(())
    }

    /// Only format and advance may change the device, and a step of a load where it is an advance.
    fn digest(&self, call: &Call) -> Device {
        let committing = matches!(self.plain.session.phase, Phase::Committing(_));
        let small = self.plain.device.len() <= 256 * BLOCK;
        match call {
            Call::Format => Device::Anything,
            Call::LoadStep(..) if !committing => Device::Same(sum(&self.plain.device)),
            Call::Advance | Call::LoadStep(..) if small => Device::OneBlock(self.plain.device.clone()),
            Call::Advance | Call::LoadStep(..) => Device::Anything,
            _ => Device::Same(sum(&self.plain.device)),
        }
    }

    /// "besides format only advance may then store, one block at most"
    fn keeps_out(&self, call: &Call, answer: Answer, before: Device) -> Check {
        match before {
            Device::OneBlock(old) => one_block(&old, &self.plain.device, answer),
            Device::Same(old) if old != sum(&self.plain.device) => Err(format!("{call} changed the device")),
            _ => Ok(()),
        }
    }

    /// Where block 0 is empty, open tells what is damaged. Otherwise it gives 10, or a recovery begins.
    fn opens_rightly(&self, call: &Call, answer: Answer) -> Check {
        if !matches!(call, Call::Open) || matches!(answer, Answer::Refused(1, _)) {
            return Ok(());
        }
        let device = &self.plain.device;
        let in_use = device[..BLOCK].iter().any(|&x| x != 0);
        match (in_use, answer) {
            (true, Answer::Done | Answer::Refused(10, Some(_))) => Ok(()),
            (true, _) => Err(format!("Open -> {answer:?}, but block 0 is in use")),
            (false, _) => match verdict::damage_of(device).map_or(Answer::Done, |(n, place)| Answer::Refused(n, Some(place))) {
                due if due == answer => Ok(()),
                due => Err(format!("Open -> {answer:?}, the device tells {due:?}")),
            },
        }
    }

    /// A call with another length of device and work space; both are then as before.
    pub fn call_lengths(&mut self, call: &Call, device: usize, work: usize) -> Check<Answer> {
        let tails = [&mut self.plain, &mut self.proved].map(|s| (resize(&mut s.device, device), resize(&mut s.work, work)));
        let lengths = (self.plain.device.len(), self.plain.work.len());
        self.say(|| format!("  with lengths {lengths:?}:"));
        let answer = self.call(call);
        for (s, (d, w)) in [&mut self.plain, &mut self.proved].into_iter().zip(tails) {
            restore(&mut s.device, d);
            restore(&mut s.work, w);
        }
        answer
    }
}

/// How a slice was before its length was changed: its length and the bytes cut off.
type Tail = (usize, Vec<u8>);

fn resize(bytes: &mut Vec<u8>, len: usize) -> Tail {
    let before = bytes.len();
    let tail = if len < before { bytes.split_off(len) } else { Vec::new() };
    bytes.resize(len, 0x77);
    (before, tail)
}

fn restore(bytes: &mut Vec<u8>, (len, tail): Tail) {
    bytes.extend_from_slice(&tail);
    bytes.truncate(len);
}

/// A fresh buffer and list with bytes that no call writes by chance.
fn lend(call: &Call) -> Lent {
    match call {
        Call::Read(_, _, n) => Lent { buffer: (0..*n).map(|i| 0xc3 ^ i as u8).collect(), ..Lent::default() },
        Call::RunList(_, _, _, n) => Lent { list: vec![Extent { first: 0xdead, count: 0xbeef }; *n], ..Lent::default() },
        Call::LoadStep(_, place) => Lent { place: *place, ..Lent::default() },
        _ => Lent::default(),
    }
}

/// The place of conversions in `Tally::accepted`.
pub const CONVERT: usize = 18;

/// The place of a call in `Tally::accepted`.
pub fn kind(call: &Call) -> usize {
    match call {
        Call::Format => 0,
        Call::Open => 1,
        Call::Advance => 2,
        Call::Commit => 3,
        Call::Abort => 4,
        Call::Create(..) => 5,
        Call::Remove(..) => 6,
        Call::Rename(..) => 7,
        Call::Write(..) => 8,
        Call::SetSize(..) => 9,
        Call::Read(..) => 10,
        Call::Size(..) => 11,
        Call::Free => 12,
        Call::Record(..) => 13,
        Call::RunList(..) => 14,
        Call::NthExtent(..) => 15,
        Call::LoadBegin => 16,
        Call::LoadStep(..) => 17,
    }
}

fn first_difference(a: &[u8], b: &[u8]) -> String {
    match a.iter().zip(b).position(|(x, y)| x != y) {
        Some(i) => format!("block {} byte {}: plain {:02x}, proved {:02x}", i / BLOCK, i % BLOCK, a[i], b[i]),
        None => format!("the length: plain {}, proved {}", a.len(), b.len()),
    }
}

/// A sum that changes with every changed byte, place included.
fn sum(bytes: &[u8]) -> u64 {
    let mut lanes = [1u64; 4];
    for piece in bytes.chunks_exact(32) {
        for (lane, word) in lanes.iter_mut().zip(piece.chunks_exact(8)) {
            *lane = (*lane ^ u64::from_le_bytes(word.try_into().unwrap())).wrapping_mul(0x9e37_79b9_7f4a_7c15).rotate_left(23);
        }
    }
    let rest = bytes.chunks_exact(32).remainder();
    let start = rest.iter().fold(bytes.len() as u64, |s, &x| s.wrapping_mul(257) ^ x as u64);
    lanes.iter().fold(start, |s, l| s.rotate_left(17).wrapping_mul(0xff51_afd7_ed55_8ccd) ^ l)
}

/// An advance changes no block but the one it names.
fn one_block(old: &[u8], new: &[u8], answer: Answer) -> Check {
    let named = match answer {
        Answer::Stored { block, .. } => Some(block as usize),
        _ => None,
    };
    let mut blocks = old.chunks(BLOCK).zip(new.chunks(BLOCK)).enumerate();
    match blocks.find(|(b, (x, y))| x != y && Some(*b) != named) {
        Some((b, _)) => Err(format!("advance changed block {b}, its answer was {answer:?}")),
        None => Ok(()),
    }
}
