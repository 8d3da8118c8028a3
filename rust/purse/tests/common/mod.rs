//! Devices that fail, for the tests.

#![allow(dead_code)]

use purse::{Block, Device, MemoryDevice};

/// How the step that fails leaves its block on the device.
#[derive(Clone, Copy, Debug, PartialEq)]
pub enum Way {
    /// The write fails and nothing is there.
    Absent,
    /// The write fails, but the block is there.
    Present,
    /// The flush fails.
    Flush,
}

pub const WAYS: [Way; 3] = [Way::Absent, Way::Present, Way::Flush];

#[derive(Clone, Copy, Debug, PartialEq)]
pub struct Pulled;

/// Memory whose plug is pulled at store `left`, counted from 0, and stays so.
pub struct Plug<'m> {
    pub kept: MemoryDevice<'m>,
    pub left: usize,
    pub way: Way,
    pub written: Vec<u64>,
    pub flushed: usize,
}

impl<'m> Plug<'m> {
    pub fn new(kept: &'m mut [u8], left: usize, way: Way) -> Self {
        Plug { kept: MemoryDevice::new(kept), left, way, written: vec![], flushed: 0 }
    }
}

impl Device for Plug<'_> {
    type Error = Pulled;

    fn write_block(&mut self, block: u64, bytes: &Block) -> Result<(), Pulled> {
        assert_eq!(self.written.len(), self.flushed, "a block before the last one was flushed");
        let cut = self.written.len() == self.left;
        if !cut || self.way != Way::Absent {
            self.kept.write_block(block, bytes).unwrap();
        }
        self.written.push(block);
        match cut && self.way != Way::Flush {
            true => Err(Pulled),
            false => Ok(()),
        }
    }

    fn flush(&mut self) -> Result<(), Pulled> {
        assert_eq!(self.written.len(), self.flushed + 1, "a flush with no block to flush");
        if self.flushed == self.left {
            return Err(Pulled);
        }
        self.flushed += 1;
        Ok(())
    }
}

pub fn never(kept: &mut [u8]) -> Plug<'_> {
    Plug::new(kept, usize::MAX, Way::Absent)
}

/// A disk behind a cache: what is written is read at once, and is on the disk when a flush has returned.
pub struct Cached {
    pub disk: Vec<u8>,
    pub cache: Vec<u8>,
    pub dirty: Vec<u64>,
    /// Flushes until this program is stopped, at its next write or in its next flush.
    pub left: usize,
    pub end: End,
}

/// How a program ends.
#[derive(Clone, Copy, Debug, PartialEq)]
pub enum End {
    /// It is killed behind a write: the cache keeps it.
    Killed,
    /// Its flush fails: the cache keeps what was written and takes it for flushed.
    Forgotten,
    /// The power is cut in a flush that has brought the first, or the last, of the blocks to the disk.
    First,
    Last,
}

impl Cached {
    fn put_on_disk(&mut self, block: u64) {
        let at = 512 * block as usize;
        self.disk[at..at + 512].copy_from_slice(&self.cache[at..at + 512]);
    }
}

impl Device for Cached {
    type Error = Pulled;

    fn write_block(&mut self, block: u64, bytes: &Block) -> Result<(), Pulled> {
        let at = 512 * block as usize;
        self.cache[at..at + 512].copy_from_slice(bytes);
        self.dirty.push(block);
        match self.left == 0 && self.end == End::Killed {
            true => Err(Pulled),
            false => Ok(()),
        }
    }

    fn flush(&mut self) -> Result<(), Pulled> {
        let dirty = std::mem::take(&mut self.dirty);
        if self.left > 0 {
            self.left -= 1;
            dirty.into_iter().for_each(|b| self.put_on_disk(b));
            return Ok(());
        }
        match self.end {
            End::First => dirty.first().into_iter().for_each(|&b| self.put_on_disk(b)),
            End::Last => dirty.last().into_iter().for_each(|&b| self.put_on_disk(b)),
            End::Killed | End::Forgotten => {}
        }
        Err(Pulled)
    }
}
