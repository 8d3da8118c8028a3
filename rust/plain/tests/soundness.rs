//! The soundness checker: each rule broken by itself.

mod common;
use common::{Till, A, B};
use plain::sound::Damage::{Block, Record};
use plain::sound::{check_whole, Damage, Rule};

/// A with 5 blocks and an extent block, B with 4; both end inside a block.
fn device() -> Vec<u8> {
    let mut t = Till::new(64);
    t.create(A).unwrap();
    t.create(B).unwrap();
    for i in 1..=5 {
        t.write(A, 512 * (i - 1), &[1; 300]).unwrap();
        if i < 5 {
            t.write(B, 512 * (i - 1), &[2; 300]).unwrap();
        }
    }
    t.commit();
    t.device
}

/// What the checker says once some bytes are changed. A's record is at 34 * 512, B's 32 behind it.
fn broken(changes: &[(usize, u8)]) -> Result<(), Damage> {
    let mut d = device();
    changes.iter().for_each(|&(at, x)| d[at] = x);
    check_whole(&d)
}

const FIRST: usize = 34 * 512;
const SECOND: usize = FIRST + 32;
const TABLE: usize = 33 * 512;
const NODE: usize = 51 * 512;

#[test]
fn sound_as_made() {
    assert_eq!(broken(&[]), Ok(()));
    assert_eq!(broken(&[(512, 1), (63 * 512, 1)]), Ok(()), "log images and free blocks may hold anything");
}

#[test]
fn log_in_use() {
    assert_eq!(broken(&[(0, 40)]), Err(Block(0, Rule::Log)));
}

#[test]
fn s1_bits() {
    assert_eq!(broken(&[(TABLE, 0xfe)]), Err(Block(0, Rule::S1)));
    assert_eq!(broken(&[(TABLE + 511, 0x7f)]), Err(Block(4095, Rule::S1)));
}

#[test]
fn s2_names() {
    let same: Vec<_> = A.iter().enumerate().map(|(i, &x)| (SECOND + i, x)).collect();
    assert_eq!(broken(&same), Err(Record(1, Rule::S2)));
    assert_eq!(broken(&[(SECOND + 64 + 31, 1)]), Err(Record(3, Rule::S2)));
}

#[test]
fn s3_limits() {
    assert_eq!(broken(&[(FIRST + 12, 2)]), Err(Record(0, Rule::S3)));
    assert_eq!(broken(&[(FIRST + 11, 1)]), Err(Record(0, Rule::S3)));
    assert_eq!(broken(&[(FIRST + 14, 1)]), Err(Record(0, Rule::S3)));
}

#[test]
fn s4_slots() {
    assert_eq!(broken(&[(FIRST + 20, 1)]), Err(Record(0, Rule::S4)));
    assert_eq!(broken(&[(SECOND + 16, 41)]), Err(Record(1, Rule::S4)));
    assert_eq!(broken(&[(NODE, 64)]), Err(Record(0, Rule::S4)));
    assert_eq!(broken(&[(NODE + 511, 1)]), Err(Record(0, Rule::S4)));
}

#[test]
fn s5_counts() {
    assert_eq!(broken(&[(FIRST + 18, 4)]), Err(Record(0, Rule::S5)));
    assert_eq!(broken(&[(SECOND + 9, 8)]), Err(Record(1, Rule::S5)));
}

#[test]
fn s6_shape() {
    // B's second extent begins at 44, where the first one, block 43, ends.
    assert_eq!(broken(&[(SECOND + 20, 44)]), Err(Record(1, Rule::S6)));
    // A as depth 1 with four extents.
    let four = [(FIRST + 18, 4), (FIRST + 9, 8), (FIRST + 8, 0), (NODE + 16, 0), (NODE + 18, 0)];
    assert_eq!(broken(&four), Err(Record(0, Rule::S6)));
    // An empty file as depth 1.
    assert_eq!(broken(&[(SECOND + 32, 7), (SECOND + 32 + 12, 1)]), Err(Record(2, Rule::S6)));
    assert_eq!(broken(&[(SECOND + 32, 7)]), Ok(()));
}

#[test]
fn s7_reached() {
    assert_eq!(broken(&[(TABLE + 6, 0)]), Err(Block(48, Rule::S7)));
    assert_eq!(broken(&[(TABLE + 7, 0x80)]), Err(Block(63, Rule::S7)));
    assert_eq!(broken(&[(SECOND + 28, 50)]), Err(Block(49, Rule::S7)));
}

#[test]
fn s8_tail() {
    assert_eq!(broken(&[(50 * 512 + 300, 1)]), Err(Record(0, Rule::S8)));
    assert_eq!(broken(&[(50 * 512 + 299, 9)]), Ok(()));
}
