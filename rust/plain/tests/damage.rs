//! A2: which record or block is damaged. Each test changes a sound device of a few files.

mod common;
use common::{Till, A};
use plain::Refusal::{DamagedBlock, DamagedRecord};
use plain::*;

const NAME_B: &[u8] = &[0x42; 8];
const NAME_C: &[u8] = &[0x43; 8];

/// A device that is changed byte by byte.
#[derive(Clone)]
struct Image {
    device: Vec<u8>,
}

/// The byte at which a record begins.
fn record(i: usize) -> usize {
    34 * BLOCK + 32 * i
}

/// The byte of a block at which its slot `i` begins.
fn slot(block: usize, i: usize) -> usize {
    block * BLOCK + 4 * i
}

/// Slot `i` of a record.
fn top(r: usize, i: usize) -> usize {
    record(r) + 16 + 4 * i
}

impl Image {
    /// As format makes it.
    fn empty(blocks: usize) -> Image {
        Image { device: Till::new(blocks).device }
    }

    /// Record 2 is A, 600 bytes in 42+2; record 5 is B, five single blocks and an extent block; record 9 is C,
    /// empty. Every bit is right.
    fn example() -> Image {
        let data = [44, 46, 48, 50, 52];
        let image = Image::empty(64).file(2, A, 600).slots(top(2, 0), &[(42, 2)]).file(5, NAME_B, 5 * 512).file(9, NAME_C, 0);
        let image = image.byte(record(5) + 12, 1).slots(top(5, 0), &[(54, 5)]).slots(slot(54, 0), &data.map(|b| (b, 1)));
        [42, 43, 54].into_iter().chain(data.map(usize::from)).fold(image, Image::set)
    }

    fn byte(self, at: usize, x: u8) -> Image {
        self.bytes(at, &[x])
    }

    fn bytes(mut self, at: usize, bytes: &[u8]) -> Image {
        self.device[at..at + bytes.len()].copy_from_slice(bytes);
        self
    }

    fn file(self, i: usize, name: &[u8], size: u32) -> Image {
        self.bytes(record(i), name).bytes(record(i) + 8, &size.to_le_bytes())
    }

    fn slots(self, at: usize, slots: &[(u16, u16)]) -> Image {
        let bytes: Vec<u8> = slots.iter().flat_map(|s| [s.0.to_le_bytes(), s.1.to_le_bytes()].concat()).collect();
        self.bytes(at, &bytes)
    }

    fn set(mut self, b: usize) -> Image {
        self.device[33 * BLOCK + b / 8] |= 1 << (b % 8);
        self
    }

    fn clear(mut self, b: usize) -> Image {
        self.device[33 * BLOCK + b / 8] &= !(1 << (b % 8));
        self
    }

    /// What open answers. With a used record in block 0 it starts a recovery instead, whatever is damaged.
    fn open(mut self) -> Result<(), Refusal> {
        let mut session = Session::never_opened();
        let answer = open(&self.device, &mut session);
        let ready = Session::fresh(self.device.len() / BLOCK, Phase::Ready);
        assert_eq!(session, if answer.is_ok() { ready } else { Session::never_opened() });
        self.device[0] = 63;
        assert_eq!(open(&self.device, &mut session), Ok(()));
        assert_eq!(session.phase, Phase::Recovering(0));
        answer
    }

    fn record_told(self) -> usize {
        match self.open() {
            Err(DamagedRecord(i)) => i,
            answer => panic!("{answer:?}"),
        }
    }

    fn block_told(self) -> usize {
        match self.open() {
            Err(DamagedBlock(b)) => b,
            answer => panic!("{answer:?}"),
        }
    }
}

fn example() -> Image {
    Image::example()
}

#[test]
fn the_example_is_sound() {
    assert_eq!(example().open(), Ok(()));
}

#[test]
fn equal_names() {
    assert_eq!(example().bytes(record(5), A).record_told(), 5);
    assert_eq!(example().bytes(record(5), A).bytes(record(9), A).record_told(), 5);
    assert_eq!(example().bytes(record(5), A).byte(record(3) + 20, 1).record_told(), 3);
    assert_eq!(example().bytes(record(9), A).record_told(), 9);
    assert_eq!(example().bytes(record(2), NAME_B).record_told(), 5);
    assert_eq!(example().bytes(record(9), NAME_B).byte(record(8) + 31, 1).record_told(), 8);
    assert_eq!(example().bytes(record(9), NAME_B).byte(record(10) + 31, 1).record_told(), 9);
    assert_eq!(example().bytes(record(9), A).byte(record(5) + 13, 1).record_told(), 5);
    assert_eq!(example().file(127, NAME_C, 0).record_told(), 127);
    assert_eq!(example().file(0, NAME_C, 0).record_told(), 9);
}

#[test]
fn slots_of_a_record() {
    assert_eq!(example().slots(top(2, 0), &[(41, 2)]).record_told(), 2);
    assert_eq!(example().slots(top(2, 0), &[(63, 2)]).record_told(), 2);
    assert_eq!(example().slots(top(2, 0), &[(62, 2)]).block_told(), 42);
    assert_eq!(example().slots(top(2, 0), &[(42, 1), (43, 1)]).record_told(), 2);
    assert_eq!(example().slots(top(2, 0), &[(43, 1), (43, 1)]).block_told(), 42);
    assert_eq!(example().slots(top(2, 0), &[(43, 1), (43, 1)]).clear(42).block_told(), 43);
    assert_eq!(example().slots(top(2, 0), &[(43, 1), (43, 1)]).clear(42).clear(43).block_told(), 43);
    assert_eq!(example().slots(top(2, 0), &[(43, 1), (43, 1)]).clear(42).clear(5).block_told(), 5);
    assert_eq!(example().slots(top(2, 0), &[(42, 2), (0, 1)]).record_told(), 2);
    assert_eq!(example().slots(top(2, 0), &[(42, 2), (1, 0)]).record_told(), 2);
}

#[test]
fn slots_of_an_extent_block() {
    assert_eq!(example().slots(slot(54, 0), &[(54, 1)]).block_told(), 44);
    assert_eq!(example().slots(slot(54, 0), &[(54, 1)]).clear(44).block_told(), 54);
    assert_eq!(example().slots(slot(54, 0), &[(54, 1)]).clear(44).clear(54).block_told(), 54);
    assert_eq!(example().slots(slot(54, 0), &[(41, 1)]).record_told(), 5);
    assert_eq!(example().slots(slot(54, 4), &[(64, 1)]).record_told(), 5);
    assert_eq!(example().slots(slot(54, 127), &[(1, 0)]).record_told(), 5);
    assert_eq!(example().slots(top(5, 0), &[(64, 5)]).record_told(), 5);
    // A has the extent block of B as its last block.
    assert_eq!(example().slots(top(2, 0), &[(42, 1), (54, 1)]).bytes(record(2) + 8, &[0, 4]).block_told(), 43);
}

#[test]
fn bits() {
    assert_eq!(example().byte(43 * BLOCK + 88, 1).clear(0).record_told(), 2);
    assert_eq!(example().set(60).block_told(), 60);
    assert_eq!(example().clear(4095).block_told(), 4095);
    assert_eq!(example().clear(41).block_told(), 41);
    assert_eq!(example().clear(42).block_told(), 42);
    assert_eq!(example().clear(64).block_told(), 64);
    assert_eq!(example().clear(100).block_told(), 100);
    assert_eq!(example().clear(100).set(60).clear(64).block_told(), 60);
    assert_eq!(example().set(63).clear(4095).block_told(), 63);
    assert_eq!(Image { device: vec![0; 64 * BLOCK] }.block_told(), 0);
    assert_eq!(Image::empty(4096).set(4095).block_told(), 4095);
}

#[test]
fn two_files_with_one_block() {
    let both = || example().file(9, NAME_C, 512).slots(top(9, 0), &[(43, 1)]);
    assert_eq!(both().block_told(), 43);
    assert_eq!(both().clear(43).block_told(), 43);
    assert_eq!(both().clear(5).block_told(), 5);
    assert_eq!(both().clear(46).block_told(), 43);
    assert_eq!(both().byte(record(9) + 8, 1).byte(43 * BLOCK + 87, 1).record_told(), 9);
}

/// Sums are compared whole: past the 2,048 blocks that a file may have, and past 65,536.
#[test]
fn long_sums() {
    let twice =
        |more: &[(u16, u16)]| Image::empty(4096).file(7, A, 1_048_576).slots(top(7, 0), &[(42, 1024), (42, 1024)]).slots(top(7, 2), more);
    assert_eq!(twice(&[]).block_told(), 42);
    assert_eq!(twice(&[(42, 1)]).record_told(), 7);
    assert_eq!(twice(&[(42, 1024), (42, 1024)]).record_told(), 7);
    let extents: Vec<(u16, u16)> = (0..17).map(|i| (42, if i < 16 { 4054 } else { 677 })).collect();
    let wraps = Image::empty(4096).file(7, A, 5 * 512).byte(record(7) + 12, 1).slots(top(7, 0), &[(50, 5)]).slots(slot(50, 0), &extents);
    assert_eq!(wraps.record_told(), 7);
}

/// Read at the other depth, a file may be in order all the same.
#[test]
fn another_depth() {
    assert_eq!(example().byte(record(5) + 12, 0).block_told(), 44);
    assert_eq!(example().byte(record(5) + 12, 2).record_told(), 5);
    assert_eq!(example().byte(record(2) + 12, 1).record_told(), 2);
    assert_eq!(example().byte(record(9) + 12, 1).record_told(), 9);
    // Five blocks in one stretch, the first of which reads as an extent block of five single blocks.
    let stretch = example().file(9, NAME_C, 5 * 512).slots(top(9, 0), &[(56, 5)]);
    let stretch = stretch.slots(slot(56, 0), &[(57, 1), (45, 1), (47, 1), (49, 1), (51, 1)]);
    let stretch = (56..61).fold(stretch, Image::set);
    assert_eq!(stretch.clone().open(), Ok(()));
    assert_eq!(stretch.byte(record(9) + 12, 1).block_told(), 45);
}
