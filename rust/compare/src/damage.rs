//! Damage to devices, work spaces and sessions.

use crate::image::nodes_of;
use crate::rng::Rng;
use crate::side::State;
use plain::{Phase, Session, BLOCK, WORK_SIZE};

const TABLE: usize = 33 * BLOCK;
const RECORDS: usize = 34 * BLOCK;
const DATA: usize = 42 * BLOCK;

/// A block number of any area, inside or outside.
fn block_number(rng: &mut Rng, blocks: usize) -> u32 {
    let n = blocks as u32;
    match rng.below(10) {
        0 => rng.pick(&[0, 1, 31, 32, 33, 34, 41]),
        1 => rng.pick(&[n - 1, n, n + 1, 4095, 4096, 65_535]),
        2 => rng.below(65_536) as u32,
        3..=4 => rng.range(33, 43) as u32,
        _ => rng.range(42, n as u64 - 1) as u32,
    }
}

fn count(rng: &mut Rng) -> u16 {
    rng.pick(&[0, 0, 1, 1, 1, 2, 3, 5, 20, 300, 2047, 2048, 2049, 40_000, 65_535])
}

/// Slots at a place of a block get other contents.
fn slots(rng: &mut Rng, bytes: &mut [u8], blocks: usize) {
    let slot = rng.index(bytes.len() / 4) * 4;
    let few = rng.index(bytes.len().min(24) / 4) * 4;
    let at = if rng.one_in(2) { slot } else { few };
    match rng.below(5) {
        0 => bytes[at..at + 2].copy_from_slice(&(block_number(rng, blocks) as u16).to_le_bytes()),
        1 => bytes[at + 2..at + 4].copy_from_slice(&count(rng).to_le_bytes()),
        2 => bytes[at] = bytes[at].wrapping_add(1),
        3 => bytes[at + 2] = bytes[at + 2].wrapping_sub(1),
        _ => {
            let from = rng.index(bytes.len() / 4) * 4;
            bytes.copy_within(from..from + 4, at);
        }
    }
}

/// One of the 32 bytes of a record, with a liking for those that matter.
fn record(rng: &mut Rng, r: &mut [u8], blocks: usize) {
    match rng.below(8) {
        0 => r[rng.index(32)] = rng.word() as u8,
        1 => r[8 + rng.index(4)] = rng.word() as u8,
        2 => r[8..12].copy_from_slice(&rng.pick(&[0u32, 1, 511, 512, 513, 3000, 1_048_576, 1_048_577, 1_060_000, u32::MAX]).to_le_bytes()),
        3 => r[12] = rng.pick(&[0, 1, 1, 1, 2, 255]),
        4 => r[13 + rng.index(3)] = 1,
        5 => r[rng.index(8)] = 0,
        _ => slots(rng, &mut r[16..32], blocks),
    }
}

fn bit_table(rng: &mut Rng, t: &mut [u8], blocks: usize) {
    match rng.below(6) {
        0 => t.fill(0xff),
        1 => t.fill(0),
        2 => t[..6].fill(rng.word() as u8),
        3 => t[blocks / 8..].fill(0x0f),
        _ => {
            let bits = if rng.one_in(4) { 4096 } else { blocks };
            let b = rng.index(bits);
            t[b / 8] ^= 1 << (b % 8);
        }
    }
}

/// The commit block: mostly a list that could be one.
fn commit_block(rng: &mut Rng, h: &mut [u8], blocks: usize) {
    for r in h.chunks_mut(16).take(rng.range(1, 32) as usize) {
        let t = if rng.one_in(60) { block_number(rng, blocks) } else { rng.range(33, blocks as u64 - 1) as u32 };
        r[..2].copy_from_slice(&(t as u16).to_le_bytes());
    }
    if rng.one_in(4) {
        h[rng.index(BLOCK)] = rng.word() as u8;
    }
}

/// One change to the metadata of a device.
pub fn device(rng: &mut Rng, d: &mut [u8]) {
    let blocks = d.len() / BLOCK;
    let nodes = nodes_of(d);
    match rng.below(12) {
        0 => commit_block(rng, &mut d[..BLOCK], blocks),
        1 => d[rng.index(BLOCK)] = rng.pick(&[0, 1, 33, 50]),
        2..=3 => bit_table(rng, &mut d[TABLE..RECORDS], blocks),
        4..=6 if !nodes.is_empty() => {
            let b = rng.pick(&nodes);
            slots(rng, &mut d[b * BLOCK..(b + 1) * BLOCK], blocks);
        }
        7 => {
            let (a, b) = (rng.index(128) * 32, rng.index(8) * 32);
            let n = rng.pick(&[8, 32]);
            d.copy_within(RECORDS + b..RECORDS + b + n, RECORDS + a);
        }
        8 => d[DATA + rng.index(blocks * BLOCK - DATA)] ^= 0xff,
        _ => {
            let i = if rng.one_in(3) { rng.index(128) } else { rng.index(5) };
            record(rng, &mut d[RECORDS + i * 32..RECORDS + (i + 1) * 32], blocks);
        }
    }
}

fn place(rng: &mut Rng, k: usize) -> usize {
    rng.pick(&[0, 1, k, k + 1, 2 * k, 2 * k + 1, 2 * k + 2, 3, 31, 32, 33, 65, 66, usize::MAX - 1, usize::MAX])
}

/// Staged numbers: mostly ones that a log may list.
fn staged(rng: &mut Rng, s: &mut Session, blocks: usize) {
    let wild = rng.one_in(3);
    s.count = rng.pick(&[1, 2, 3, 5, 8, 16, 31, 32]);
    for cell in s.staged.iter_mut() {
        *cell = rng.range(33, (blocks as u64 - 1).min(120)) as u32;
        if wild && rng.one_in(6) {
            *cell = if rng.one_in(8) { rng.pick(&[65_536 + 33, 1 << 31, u32::MAX]) } else { block_number(rng, blocks) };
        }
    }
    if !wild {
        let first = rng.range(33, 42) as u32;
        s.staged.iter_mut().enumerate().for_each(|(i, c)| *c = first + (i as u32 * 5 + 3) % 32);
    }
}

/// One change to a session.
pub fn session(rng: &mut Rng, s: &mut Session, blocks: usize) {
    let k = s.count.min(32);
    match rng.below(10) {
        0..=1 => s.phase = Phase::Ready,
        2 => s.phase = Phase::Committing(place(rng, k)),
        3 => s.phase = Phase::Recovering(place(rng, k)),
        4 => s.phase = Phase::Closed,
        5 => s.count = rng.pick(&[0, 1, 31, 32, 33, 64, 1 << 32, usize::MAX]),
        6..=7 => staged(rng, s, blocks),
        8 => s.staged[rng.index(32)] = block_number(rng, blocks),
        _ => s.blocks = rng.pick(&[0, 63, 64, blocks - 1, blocks + 1, 4096, 4097, (1 << 55) + blocks, usize::MAX, blocks, blocks]),
    }
}

/// A work space of other bytes, or one whose images of metadata are damaged copies of the device's.
pub fn work(rng: &mut Rng, s: &mut State) {
    if rng.one_in(4) {
        return rng.fill(&mut s.work);
    }
    let numbers = s.session.staged().to_vec();
    for (i, b) in numbers.into_iter().enumerate() {
        let at = b as usize * BLOCK;
        if at + BLOCK <= s.device.len() && (i + 1) * BLOCK <= s.work.len() && b < 100 {
            s.work[i * BLOCK..(i + 1) * BLOCK].copy_from_slice(&s.device[at..at + BLOCK]);
        }
    }
    for _ in 0..rng.index(6) {
        let i = rng.index(WORK_SIZE / BLOCK);
        let image = &mut s.work[i * BLOCK..(i + 1) * BLOCK];
        let r = rng.index(16) * 32;
        record(rng, &mut image[r..r + 32], 80);
    }
}
