//! Random arguments, mostly around limits.

use crate::cards::Card;
use crate::monday;
use crate::rng::Rng;
use crate::side::{Call, Name};
use std::rc::Rc;

/// What the generator knows of the store.
pub struct Known<'a> {
    /// Names to create and rename to; some of them are files.
    pub names: &'a [Name],
    /// The i-th file there is.
    pub file: &'a dyn Fn(usize) -> Option<Name>,
    pub files: usize,
    /// The size of a file, 0 if there is none of this name.
    pub size: &'a dyn Fn(&[u8]) -> u64,
    pub blocks: u64,
    /// Cards that were loaded.
    pub cards: &'a [Card],
}

const LENGTHS: [u64; 12] = [0, 1, 2, 10, 100, 511, 512, 513, 600, 1024, 1025, 2048];
const LIMITS: [u64; 8] = [1_048_575, 1_048_576, 1_048_577, 1 << 32, (1 << 32) + 100, 1 << 63, u64::MAX - 511, u64::MAX];

fn length(rng: &mut Rng) -> u64 {
    match rng.below(12) {
        0..=5 => rng.pick(&LENGTHS),
        6..=9 => rng.below(1500),
        10 => rng.below(6000),
        _ => rng.below(17_500),
    }
}

/// Mostly a name of the list; once in a while one that is wrong, or unknown.
fn name(rng: &mut Rng, known: &Known) -> Name {
    match rng.below(40) {
        0 => rng.pick(&[&[][..], &[0; 8], &[1; 7], &[1; 9], &[0; 7], &[0, 0, 0, 0, 0, 0, 0, 0, 5]]).to_vec(),
        1 => rng.bytes(8),
        _ => known.names[rng.index(known.names.len())].clone(),
    }
}

/// Mostly the name of a file there is.
fn file(rng: &mut Rng, known: &Known) -> Name {
    if known.files == 0 || rng.one_in(12) {
        return name(rng, known);
    }
    (known.file)(rng.index(known.files)).unwrap_or_default()
}

/// A place in a file or a size for it.
fn place(rng: &mut Rng, size: u64) -> u64 {
    match rng.below(24) {
        0..=3 => 0,
        4..=7 => size,
        8 => size.saturating_sub(1),
        9 => size + 1,
        10..=13 => rng.below(size + 1),
        14..=15 => rng.below(size + 1) / 512 * 512,
        16 => size.div_ceil(512) * 512,
        17 => size + rng.below(1200),
        18 => rng.pick(&LENGTHS),
        19 => rng.pick(&LENGTHS) + size / 512 * 512,
        20 => rng.pick(&LIMITS),
        _ => rng.below(2 * size + 600),
    }
}

/// A size to be set: also exactly as much as a whole device holds.
fn wanted(rng: &mut Rng, known: &Known, size: u64) -> u64 {
    match rng.below(16) {
        0 => (known.blocks - 42) * 512,
        1 => rng.below((known.blocks - 42) * 512),
        2 => size.saturating_sub(rng.below(1500)),
        3 => size.saturating_sub(512),
        4 => size + 512,
        5 => size / 2,
        _ => place(rng, size),
    }
}

fn few(rng: &mut Rng) -> u64 {
    match rng.below(8) {
        0 => 0,
        1 => u64::MAX,
        2 => 600,
        3 => rng.below(200),
        _ => rng.below(9),
    }
}

fn write(rng: &mut Rng, known: &Known) -> Call {
    let a = file(rng, known);
    let x = place(rng, (known.size)(&a));
    let n = length(rng) as usize;
    let x = if rng.one_in(40) { 1_048_576u64.saturating_sub(n as u64) + rng.below(2) } else { x };
    let data = if rng.one_in(8) { vec![0; n] } else { rng.bytes(n) };
    Call::Write(a, x, data)
}

/// A call that changes files.
pub fn change(rng: &mut Rng, known: &Known) -> Call {
    match rng.below(20) {
        0..=3 => Call::Create(name(rng, known)),
        4 => Call::Remove(file(rng, known)),
        5 => Call::Rename(file(rng, known), name(rng, known)),
        6 => Call::Rename(name(rng, known), file(rng, known)),
        7..=13 => write(rng, known),
        _ => {
            let a = file(rng, known);
            let size = (known.size)(&a);
            Call::SetSize(a, wanted(rng, known, size))
        }
    }
}

/// A call that only reads.
pub fn query(rng: &mut Rng, known: &Known) -> Call {
    let a = file(rng, known);
    let size = (known.size)(&a);
    match rng.below(12) {
        0..=3 => Call::Read(a, place(rng, size), length(rng) as usize),
        4 => Call::Read(a, 0, size as usize + 3),
        5 => Call::Size(a),
        6 => Call::Free,
        7 => Call::Record(rng.pick(&[0, 1, 2, 3, 15, 16, 126, 127, 128, 129, 1 << 32, u64::MAX])),
        8 => Call::RunList(a, 0, u64::MAX, rng.pick(&[0, 1, 4, 5, 512, 513])),
        9 => Call::RunList(a, few(rng), few(rng), rng.index(12)),
        10 => Call::NthExtent(a, 0, u64::MAX, few(rng)),
        _ => Call::NthExtent(a, few(rng), few(rng), few(rng)),
    }
}

/// A call of a load.
pub fn load(rng: &mut Rng, known: &Known) -> Call {
    if rng.one_in(4) {
        return Call::LoadBegin;
    }
    let text = monday::file(rng, known.cards);
    let place = if rng.one_in(2) { 0 } else { monday::place(rng, &text) };
    Call::LoadStep(Rc::new(text), place)
}

/// Any call but format and open.
pub fn any(rng: &mut Rng, known: &Known) -> Call {
    match rng.below(27) {
        0 => Call::Commit,
        1 => Call::Abort,
        2..=3 => Call::Advance,
        4..=13 => query(rng, known),
        14..=16 => load(rng, known),
        _ => change(rng, known),
    }
}

/// A length that a device or work space may wrongly have.
pub fn wrong_length(rng: &mut Rng, right: usize) -> usize {
    match rng.below(6) {
        0 => 0,
        1 => right - 1,
        2 => right + 1,
        3 => right - 512,
        4 => right + 512,
        _ => rng.index(2 * right),
    }
}
