//! Block 33, the bit table: "block b is bit b mod 8 (lowest first) of byte b div 8. 1 means in use."

use crate::mutant;
use crate::types::*;
use crate::view::Block;

const WORDS: usize = BLOCK / 8;
const BITS: usize = BLOCK * 8;

/// The table as whole words, the lowest block in the lowest bit.
pub struct Bits {
    words: [u64; WORDS],
}

fn word_at(block: &Block, i: usize) -> u64 {
    u64::from_le_bytes(*block[i * 8..].first_chunk().expect("64 words in a block"))
}

/// The words that a stretch of blocks has a part in, each with the bits of that part. Blocks that no bit
/// stands for are left out.
fn masks(first: usize, count: usize) -> impl Iterator<Item = (usize, u64)> {
    let (start, end) = (first.min(BITS), (first + count).min(BITS));
    (start / 64..end.div_ceil(64)).map(move |i| {
        let (low, high) = (start.max(i * 64) - i * 64, end.min(i * 64 + 64) - i * 64);
        let ones = if high > low { !0 >> (64 - (high - low)) } else { 0 };
        (i, ones << (low % 64))
    })
}

impl Bits {
    pub fn empty() -> Self {
        Bits { words: [0; WORDS] }
    }

    pub fn load(block: &Block) -> Self {
        Bits { words: std::array::from_fn(|i| word_at(block, i)) }
    }

    pub fn store(&self, to: &mut [u8]) {
        to.chunks_exact_mut(8).zip(self.words).for_each(|(bytes, w)| bytes.copy_from_slice(&w.to_le_bytes()));
    }

    pub fn same_as(&self, block: &Block) -> bool {
        (0..WORDS).all(|i| self.words[i] == word_at(block, i))
    }

    /// S1: "Bits 0 to 41 and all bits from N up", and no others.
    pub fn outside(blocks: usize) -> Self {
        let mut bits = Bits::empty();
        bits.set(0, DATA as usize);
        bits.set(blocks, BITS - blocks);
        bits
    }

    pub fn set(&mut self, first: usize, count: usize) {
        masks(first, count).for_each(|(i, m)| self.words[i] |= m);
    }

    pub fn clear(&mut self, first: usize, count: usize) {
        masks(first, count).for_each(|(i, m)| self.words[i] &= !m);
    }

    /// Sets the bits of a stretch. Those that were set before are set in `twice` too.
    pub fn claim(&mut self, first: usize, count: usize, twice: &mut Bits) {
        masks(first, count).for_each(|(i, m)| twice.words[i] |= self.words[i] & m);
        self.set(first, count);
    }

    /// The bits that are not the same in both.
    pub fn differing(&self, other: &Bits) -> Bits {
        Bits { words: std::array::from_fn(|i| self.words[i] ^ other.words[i]) }
    }

    pub fn join(&mut self, other: &Bits) {
        self.words.iter_mut().zip(other.words).for_each(|(w, o)| *w |= o);
    }

    /// The lowest block whose bit is 1.
    pub fn lowest(&self) -> Option<usize> {
        let i = self.words.iter().position(|&w| w != 0)?;
        Some(i * 64 + self.words[i].trailing_zeros() as usize)
    }

    /// "the number of zero bits"
    pub fn free(&self) -> usize {
        self.words.iter().map(|w| w.count_zeros() as usize).sum()
    }

    /// Takes "the lowest free one", which there is. No word before `low` has a zero bit.
    pub fn take(&mut self, low: &mut usize) -> u32 {
        while *low + 1 < WORDS && self.words[*low] == !0 {
            *low += 1;
        }
        let bit = (!self.words[*low]).trailing_zeros();
        let b = *low as u32 * 64 + bit;
        self.set(b as usize, 1);
        if mutant::on(2) && self.free() > 0 {
            let second = (b as usize + 1..BITS).find(|&i| self.words[i / 64] >> (i % 64) & 1 == 0).unwrap_or(0);
            self.clear(b as usize, 1);
            self.set(second, 1);
            return second as u32;
        }
        b
    }
}
