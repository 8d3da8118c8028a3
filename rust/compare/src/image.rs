//! Devices made byte by byte: sound ones with files of many shapes, and damaged ones. Neither
//! store takes part in this.

use crate::model::{Map, Name8};
use crate::rng::Rng;
use plain::{Extent, BLOCK};
use std::ops::Range;
use std::rc::Rc;

const TABLE: usize = 33 * BLOCK;
const RECORDS: usize = 34 * BLOCK;
const DATA: usize = 42;

/// How a device is laid out.
#[derive(Clone, Copy, Debug)]
pub struct Shape {
    pub blocks: usize,
    pub files: usize,
    /// Empty files beside them.
    pub empty: usize,
    /// A new stretch begins after a block once in so many times.
    pub stretch: u64,
    /// A stretch is free once in so many times; 0: never.
    pub spare: u64,
    /// Whether the stretches of a file are in mixed order.
    pub mixed: bool,
    /// Whether the files get stretches in turn, not at random: the most extents for a device.
    pub turns: bool,
}

pub fn name_of(i: usize) -> Name8 {
    (0x0101_0000_0000_0000 + i as u64 * 7 + 1).to_le_bytes()
}

/// The largest extents of a list of blocks.
pub fn runs(blocks: &[usize]) -> Vec<Extent> {
    let mut list: Vec<Extent> = Vec::new();
    for &b in blocks {
        match list.last_mut() {
            Some(e) if (e.first + e.count) as usize == b => e.count += 1,
            _ => list.push(Extent { first: b as u32, count: 1 }),
        }
    }
    list
}

fn nodes_for(extents: usize) -> usize {
    if extents > 4 {
        extents.div_ceil(128)
    } else {
        0
    }
}

/// Deals the blocks out to the files, stretch by stretch.
fn deal(rng: &mut Rng, shape: &Shape) -> Vec<Vec<usize>> {
    let mut files: Vec<Vec<Vec<usize>>> = vec![Vec::new(); shape.files];
    let (mut b, mut turn) = (DATA, 0);
    while b < shape.blocks && shape.files > 0 {
        let mut piece = vec![b];
        b += 1;
        while b < shape.blocks && !rng.one_in(shape.stretch) {
            piece.push(b);
            b += 1;
        }
        if shape.spare == 0 || !rng.one_in(shape.spare) {
            turn += 1;
            let random = rng.index(shape.files);
            files[if shape.turns { turn % shape.files } else { random }].push(piece);
        }
    }
    if shape.mixed {
        for pieces in &mut files {
            for i in (1..pieces.len()).rev() {
                pieces.swap(i, rng.index(i + 1));
            }
        }
    }
    files.into_iter().map(|p| p.concat()).collect()
}

/// Cuts a file's blocks to the limits of a file. Its extent blocks are taken from those cut off, then
/// from the end of its own.
fn take_nodes(blocks: &mut Vec<usize>) -> Vec<usize> {
    blocks.truncate(2048);
    let mut nodes = Vec::new();
    while runs(blocks).len() > 512 {
        nodes.extend(blocks.pop());
    }
    while nodes.len() < nodes_for(runs(blocks).len()) {
        nodes.extend(blocks.pop());
    }
    nodes.truncate(nodes_for(runs(blocks).len()));
    nodes
}

fn slot(e: Extent) -> [u8; 4] {
    let (f, c) = ((e.first as u16).to_le_bytes(), (e.count as u16).to_le_bytes());
    [f[0], f[1], c[0], c[1]]
}

/// Writes slots as far as there is room for them.
pub fn put_slots(to: &mut [u8], list: &[Extent]) {
    to.chunks_mut(4).zip(list).for_each(|(bytes, &e)| bytes.copy_from_slice(&slot(e)));
}

/// A file, and how it is written.
#[derive(Clone, Debug)]
pub struct File {
    pub name: Name8,
    pub size: usize,
    /// Its data blocks in order.
    pub blocks: Vec<usize>,
    /// Its extent blocks.
    pub nodes: Vec<usize>,
}

impl File {
    /// Whether it has as many extent blocks as its extents ask for.
    pub fn has_its_nodes(&self) -> bool {
        self.nodes.len() == nodes_for(runs(&self.blocks).len())
    }

    /// The record.
    pub fn record(&self) -> [u8; 32] {
        let mut r = [0; 32];
        r[..8].copy_from_slice(&self.name);
        r[8..12].copy_from_slice(&(self.size as u32).to_le_bytes());
        r[12] = !self.nodes.is_empty() as u8;
        let mut top = runs(&self.blocks);
        if !self.nodes.is_empty() {
            let sum = |p: &[Extent]| p.iter().map(|e| e.count).sum();
            top = top.chunks(128).zip(&self.nodes).map(|(p, &b)| Extent { first: b as u32, count: sum(p) }).collect();
        }
        put_slots(&mut r[16..], &top);
        r
    }

    /// What its extent blocks hold.
    pub fn leaves(&self) -> Vec<[u8; BLOCK]> {
        let leaf = |piece: &[Extent]| {
            let mut block = [0; BLOCK];
            put_slots(&mut block, piece);
            block
        };
        runs(&self.blocks).chunks(128).take(self.nodes.len()).map(leaf).collect()
    }

    /// Its bytes behind the size in its last block.
    pub fn tail(&self) -> Range<usize> {
        match self.blocks.last() {
            Some(&last) if !self.size.is_multiple_of(BLOCK) => last * BLOCK + self.size % BLOCK..(last + 1) * BLOCK,
            _ => 0..0,
        }
    }

    /// Puts it into record `i` of a device.
    pub fn put(&self, device: &mut [u8], i: usize) {
        device[record_place(i)].copy_from_slice(&self.record());
        self.nodes.iter().zip(self.leaves()).for_each(|(&b, leaf)| device[b * BLOCK..][..BLOCK].copy_from_slice(&leaf));
        device[self.tail()].fill(0);
        self.blocks.iter().chain(&self.nodes).for_each(|&b| set_bit(device, b, true));
    }
}

/// The bytes of a record.
pub fn record_place(i: usize) -> Range<usize> {
    RECORDS + 32 * i..RECORDS + 32 * (i + 1)
}

pub fn bit(device: &[u8], b: usize) -> bool {
    device[TABLE + b / 8] >> (b % 8) & 1 == 1
}

pub fn set_bit(device: &mut [u8], b: usize, used: bool) {
    device[TABLE + b / 8] &= !(1 << (b % 8));
    device[TABLE + b / 8] |= (used as u8) << (b % 8);
}

/// A sound device of some shape.
pub fn sound_device(rng: &mut Rng, shape: &Shape) -> Vec<u8> {
    let mut device = rng.bytes(shape.blocks * BLOCK);
    device[..BLOCK].fill(0);
    device[TABLE..DATA * BLOCK].fill(0);
    device[TABLE..TABLE + BLOCK].fill(0xff);
    (DATA..shape.blocks).for_each(|b| set_bit(&mut device, b, false));
    let dealt = deal(rng, shape);
    for i in 0..(shape.files + shape.empty).min(128) {
        let mut blocks = dealt.get(i).cloned().unwrap_or_default();
        let nodes = take_nodes(&mut blocks);
        let spare = if rng.one_in(3) { 0 } else { rng.index(BLOCK) };
        let size = (blocks.len() * BLOCK).saturating_sub(spare);
        File { name: name_of(i), size, blocks, nodes }.put(&mut device, i);
    }
    device
}

/// The records of a sound device in mixed order.
pub fn mix_records(rng: &mut Rng, device: &mut [u8]) {
    for i in 0..128 {
        let (a, b) = (record_place(i), record_place(rng.index(128)));
        let kept: [u8; 32] = device[a.clone()].try_into().unwrap();
        device.copy_within(b.clone(), a.start);
        device[b].copy_from_slice(&kept);
    }
}

pub fn number2(bytes: &[u8], at: usize) -> usize {
    bytes[at] as usize + 256 * bytes[at + 1] as usize
}

/// The used slots of a piece of bytes.
pub fn slots(bytes: &[u8]) -> Vec<(usize, usize)> {
    let all = bytes.chunks(4).map(|s| (number2(s, 0), number2(s, 2)));
    all.take_while(|s| s.1 > 0).collect()
}

/// The extent blocks of a device, wherever its records name some that lie inside it.
pub fn nodes_of(device: &[u8]) -> Vec<usize> {
    let deep = records(device).filter(|r| r[12] != 0).flat_map(|r| slots(&r[16..]));
    deep.map(|s| s.0).filter(|&b| (b + 1) * BLOCK <= device.len()).collect()
}

/// All records of a device.
pub fn records(device: &[u8]) -> impl Iterator<Item = &[u8]> {
    device[RECORDS..DATA * BLOCK].chunks(32)
}

/// The used records of a device.
fn used_records(device: &[u8]) -> impl Iterator<Item = &[u8]> {
    records(device).filter(|r| r[..8] != [0; 8])
}

/// The extents of a record, read byte by byte. Its extent blocks are inside the device.
pub fn extents_of(device: &[u8], r: &[u8]) -> Vec<(usize, usize)> {
    let list = slots(&r[16..]);
    match r[12] {
        0 => list,
        _ => list.iter().flat_map(|s| slots(&device[s.0 * BLOCK..][..BLOCK])).collect(),
    }
}

/// The map of a sound device.
pub fn map_of(device: &[u8]) -> Map {
    let mut map = Map::new();
    for r in used_records(device) {
        let mut bytes = Vec::new();
        for (first, count) in extents_of(device, r) {
            bytes.extend_from_slice(&device[first * BLOCK..(first + count) * BLOCK]);
        }
        bytes.truncate(u32::from_le_bytes(r[8..12].try_into().unwrap()) as usize);
        map.insert(r[..8].try_into().unwrap(), Rc::new(bytes));
    }
    map
}

/// "N - 42 less the data and extent blocks of all files, counted from the trees"
pub fn free_of(device: &[u8]) -> usize {
    let data = |r| extents_of(device, r).iter().map(|e| e.1).sum::<usize>();
    let nodes = |r: &[u8]| if r[12] == 0 { 0 } else { slots(&r[16..]).len() };
    let reached: usize = used_records(device).map(|r| data(r) + nodes(r)).sum();
    device.len() / BLOCK - DATA - reached
}
