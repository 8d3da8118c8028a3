//! The working copy: the image of a staged block, the device's block otherwise.

use crate::mutant;
use crate::types::*;

/// What stands for a block outside the device.
static ZEROS: [u8; BLOCK] = [0; BLOCK];

pub type Block = [u8; BLOCK];

/// "images of staged blocks are in a lent work space"
#[derive(Clone, Copy)]
pub struct View<'a> {
    device: &'a [u8],
    work: &'a [u8],
    staged: &'a [u32],
}

/// Block number `i` of some bytes, zeros if it is not there.
pub fn block_of(bytes: &[u8], i: usize) -> &Block {
    bytes.get(i * BLOCK..).and_then(|rest| rest.first_chunk()).unwrap_or(&ZEROS)
}

impl<'a> View<'a> {
    pub fn new(device: &'a [u8], work: &'a [u8], session: &'a Session) -> Self {
        View { device, work, staged: session.staged() }
    }

    /// The device alone.
    pub fn bare(device: &'a [u8]) -> Self {
        View { device, work: &[], staged: &[] }
    }

    pub fn block(&self, b: u32) -> &'a Block {
        match self.staged.iter().position(|&s| s == b) {
            Some(i) => block_of(self.work, i),
            None => block_of(self.device, b as usize),
        }
    }

    pub fn is_staged(&self, b: u32) -> bool {
        self.staged.contains(&b)
    }

    pub fn staged_count(&self) -> usize {
        self.staged.len()
    }

    /// The 32 bytes of record `i`, which is below 128.
    pub fn record(&self, i: usize) -> &'a [u8; RECORD_SIZE] {
        let (block, at) = record_place(i);
        self.block(block)[at..].first_chunk().expect("16 records in a block")
    }

    /// The lowest record of this name; the name of eight zeros finds the lowest empty one.
    pub fn find(&self, name: [u8; 8]) -> Option<usize> {
        let per_block = BLOCK / RECORD_SIZE;
        (0..RECORD_COUNT / per_block).find_map(|b| {
            let mut records = self.block(RECORDS + b as u32).chunks_exact(RECORD_SIZE);
            records.position(|r| r[..8] == name).map(|i| b * per_block + i)
        })
    }

    /// Copies the bytes of consecutive blocks from byte `skip` of the first one on.
    pub fn copy_run(&self, first: u32, skip: usize, to: &mut [u8]) {
        let start = first as usize + skip / BLOCK;
        let end = start + (skip % BLOCK + to.len()).div_ceil(BLOCK);
        let among = |&b: &u32| (start..end).contains(&(b as usize));
        if mutant::on(5) || !self.staged.iter().any(among) {
            return copy_or_zeros(self.device, start * BLOCK + skip % BLOCK, to);
        }
        let (mut b, mut from, mut done) = (start as u32, skip % BLOCK, 0);
        while done < to.len() {
            let n = (BLOCK - from).min(to.len() - done);
            to[done..done + n].copy_from_slice(&self.block(b)[from..from + n]);
            (b, from, done) = (b + 1, 0, done + n);
        }
    }
}

/// The block that holds a record, and the record's place in it: "16 to a block".
pub fn record_place(i: usize) -> (u32, usize) {
    let at = i * RECORD_SIZE;
    (RECORDS + (at / BLOCK) as u32, at % BLOCK)
}

fn copy_or_zeros(from: &[u8], at: usize, to: &mut [u8]) {
    let there = from.get(at..).unwrap_or(&[]);
    let n = there.len().min(to.len());
    to[..n].copy_from_slice(&there[..n]);
    to[n..].fill(0);
}
