//! Trees of extents.

use crate::mutant;
use crate::types::*;
use crate::view::View;
use std::iter::Peekable;

/// Slots of a record.
pub const TOP_SLOTS: usize = 4;
const SLOT: usize = 4;

pub type Record = [u8; RECORD_SIZE];

pub fn size_of(record: &Record) -> u64 {
    u32::from_le_bytes([record[8], record[9], record[10], record[11]]) as u64
}

/// "A file of size s has s/512 blocks, rounded up."
pub fn blocks_for(size: u64) -> usize {
    size.div_ceil(BLOCK as u64) as usize
}

/// "Extent blocks are one for each 128 extents begun, when there are more than 4."
pub fn nodes_for(extents: usize) -> usize {
    if extents > TOP_SLOTS {
        extents.div_ceil(NODE_SLOTS)
    } else {
        0
    }
}

/// "A slot is a block number (2 bytes) and a count (2 bytes)"
pub fn slot(b: &[u8]) -> Extent {
    Extent { first: u16::from_le_bytes([b[0], b[1]]) as u32, count: u16::from_le_bytes([b[2], b[3]]) as u32 }
}

/// All slots of some bytes, used or not.
pub fn all_slots(bytes: &[u8]) -> impl Iterator<Item = Extent> + '_ {
    bytes.chunks_exact(SLOT).map(slot)
}

/// "used slots come first"
pub fn used_slots(bytes: &[u8]) -> impl Iterator<Item = Extent> + '_ {
    all_slots(bytes).take_while(|e| e.count > 0)
}

/// Writes slots; "an unused slot is zero".
pub fn put_slots(to: &mut [u8], slots: impl Iterator<Item = Extent>) {
    to.fill(0);
    for (b, e) in to.chunks_exact_mut(SLOT).zip(slots) {
        b[..2].copy_from_slice(&(e.first as u16).to_le_bytes());
        b[2..].copy_from_slice(&(e.count as u16).to_le_bytes());
    }
}

pub fn top(record: &Record) -> &[u8] {
    &record[16..]
}

pub fn is_deep(record: &Record) -> bool {
    record[12] != 0
}

/// The extents of a file in order, as far as 2,048 data blocks.
#[derive(Clone)]
pub struct Extents<'a> {
    leaves: [&'a [u8]; TOP_SLOTS],
    leaf: usize,
    at: usize,
    left: u32,
}

impl<'a> Extents<'a> {
    /// At depth 0 the record's slots are the extents, at depth 1 those of the extent blocks it names.
    pub fn new(view: View<'a>, record: &'a Record) -> Self {
        let mut leaves: [&[u8]; TOP_SLOTS] = [&[]; TOP_SLOTS];
        if is_deep(record) {
            leaves.iter_mut().zip(used_slots(top(record))).for_each(|(leaf, e)| *leaf = view.block(e.first));
        } else {
            leaves[0] = top(record);
        }
        Extents { leaves, leaf: 0, at: 0, left: MAX_FILE_BLOCKS as u32 }
    }
}

impl Iterator for Extents<'_> {
    type Item = Extent;

    fn next(&mut self) -> Option<Extent> {
        while self.left > 0 {
            let leaf = self.leaves.get(self.leaf)?;
            match leaf.get(self.at..self.at + SLOT).map(slot) {
                Some(e) if e.count > 0 => {
                    let count = e.count.min(self.left);
                    (self.at, self.left) = (self.at + SLOT, self.left - count);
                    return Some(Extent { first: e.first, count });
                }
                _ => (self.leaf, self.at) = (self.leaf + 1, 0),
            }
        }
        None
    }
}

/// A run list: "the stretch is cut at the end of the file, extents are the largest possible".
pub struct Runs<'a> {
    extents: Peekable<Extents<'a>>,
    place: u64,
    from: u64,
    end: u64,
}

impl<'a> Runs<'a> {
    pub fn new(view: View<'a>, record: &'a Record, from: u64, count: u64) -> Self {
        Runs { extents: Extents::new(view, record).peekable(), place: 0, from, end: from.saturating_add(count) }
    }
}

impl Iterator for Runs<'_> {
    type Item = Extent;

    fn next(&mut self) -> Option<Extent> {
        while self.place < self.end {
            let mut e = self.extents.next()?;
            while let Some(more) = self.extents.next_if(|n| n.first == e.first + e.count) {
                e.count += more.count;
            }
            let (a, b) = (self.place, self.place + e.count as u64);
            self.place = b;
            let (low, high) = (a.max(self.from), b.min(self.end));
            if low < high {
                return Some(Extent { first: e.first + (low - a) as u32, count: (high - low) as u32 });
            }
        }
        None
    }
}

/// Read: "min(buffer length, size - x) bytes from place x", as far as the tree goes.
pub fn read(view: View, record: &Record, x: u64, buffer: &mut [u8]) -> usize {
    let limit = size_of(record).saturating_sub(x).min(buffer.len() as u64) as usize;
    let (mut skip, mut done) = (x, 0);
    for e in Extents::new(view, record) {
        let bytes = e.count as u64 * BLOCK as u64;
        if skip >= bytes {
            skip -= bytes;
            continue;
        }
        let end = done + (bytes - skip).min((limit - done) as u64) as usize;
        view.copy_run(e.first, skip as usize, &mut buffer[done..end]);
        (skip, done) = (0, end);
        if done == limit {
            break;
        }
    }
    if mutant::on(9) && done > 0 && done < buffer.len() {
        buffer[done] ^= 0xff;
    }
    done
}

/// A file's tree as a value that can be changed.
pub struct Tree {
    list: [Extent; MAX_EXTENTS],
    /// How many extents there are; those past the array are counted only.
    count: usize,
    /// Data blocks.
    blocks: usize,
    /// Where an extent would begin that the last one takes up.
    end: Option<u32>,
    nodes: [u32; TOP_SLOTS],
    node_count: usize,
}

impl Tree {
    pub fn new(view: View, record: &Record) -> Self {
        let empty = Extent { first: 0, count: 0 };
        let mut tree = Tree { list: [empty; MAX_EXTENTS], count: 0, blocks: 0, end: None, nodes: [0; TOP_SLOTS], node_count: 0 };
        Extents::new(view, record).for_each(|e| tree.push(e));
        if is_deep(record) {
            used_slots(top(record)).for_each(|e| tree.push_node(e.first));
        }
        tree
    }

    pub fn blocks(&self) -> usize {
        self.blocks
    }

    pub fn extent_count(&self) -> usize {
        self.count
    }

    pub fn extents(&self) -> &[Extent] {
        &self.list[..self.count.min(MAX_EXTENTS)]
    }

    pub fn nodes(&self) -> &[u32] {
        &self.nodes[..self.node_count]
    }

    /// The extents that extent block `i` holds: "packed, 128 to each but the last".
    pub fn leaf(&self, i: usize) -> &[Extent] {
        self.extents().chunks(NODE_SLOTS).nth(i).unwrap_or(&[])
    }

    pub fn push_node(&mut self, b: u32) {
        self.nodes[self.node_count] = b;
        self.node_count += 1;
    }

    pub fn cut_nodes(&mut self, count: usize) {
        self.node_count = count;
    }

    /// "No extent begins where the one before it ends."
    pub fn push(&mut self, e: Extent) {
        if self.end == Some(e.first) {
            if let Some(last) = self.list[..].get_mut(self.count - 1) {
                last.count += e.count;
            }
        } else {
            if let Some(cell) = self.list.get_mut(self.count) {
                *cell = e;
            }
            self.count += 1;
        }
        self.blocks += e.count as usize;
        self.end = Some(e.first + e.count);
    }

    /// A new block behind the last one.
    pub fn grow(&mut self, b: u32) {
        if mutant::on(4) {
            self.end = None;
        }
        self.push(Extent { first: b, count: 1 });
    }

    /// Keeps so many blocks; the others are handed over, last ones first.
    pub fn cut(&mut self, blocks: usize, mut give_back: impl FnMut(Extent)) {
        while self.blocks > blocks {
            let last = &mut self.list[self.count - 1];
            let n = last.count.min((self.blocks - blocks) as u32);
            last.count -= n;
            give_back(Extent { first: last.first + last.count, count: n });
            self.blocks -= n as usize;
            if last.count == 0 {
                self.count -= 1;
            }
        }
        self.end = self.extents().last().map(|e| e.first + e.count);
    }

    /// The blocks at places `from` to `end`, each with its place.
    pub fn places(&self, from: usize, end: usize) -> impl Iterator<Item = (usize, u32)> + '_ {
        let mut start = 0;
        self.extents().iter().flat_map(move |e| {
            let (a, b) = (start, start + e.count as usize);
            start = b;
            (a.max(from)..b.min(end)).map(move |p| (p, e.first + (p - a) as u32))
        })
    }

    /// Writes depth and slots into a record. "At depth 1 a slot names an extent block and counts the data
    /// blocks below it."
    pub fn put(&self, record: &mut Record) {
        let deep = self.node_count > 0;
        (record[12], record[13], record[14], record[15]) = (deep as u8, 0, 0, 0);
        if deep {
            let below = |i| self.leaf(i).iter().map(|e| e.count).sum();
            let slots = self.nodes().iter().enumerate().map(|(i, &b)| Extent { first: b, count: below(i) });
            put_slots(&mut record[16..], slots);
        } else {
            put_slots(&mut record[16..], self.extents().iter().copied());
        }
    }
}
