//! Which rule of document 01 a file record breaks, S3 to S6 and S8, in words. Whether it breaks one is the library's to say.

use purse::{BLOCK_SIZE, FILE_MOST};

use crate::report::counted;

const DATA_AREA: usize = 42;
const SLOTS_OF_RECORD: usize = 4;
const SLOTS_OF_BLOCK: usize = 128;

/// A block and a count.
type Slot = (usize, usize);

/// What is wrong with the 32 bytes of a record and the tree below it; none if nothing is.
pub fn broken(image: &[u8], record: &[u8]) -> Option<String> {
    looked_at(image, record).err()
}

/// One rule after the other, up to the first that is broken.
fn looked_at(image: &[u8], record: &[u8]) -> Result<(), String> {
    let size = u32::from_le_bytes([record[8], record[9], record[10], record[11]]) as usize;
    let depth = record[12];
    ensure(size <= FILE_MOST, || format!("its size is {size}, more than {FILE_MOST}"))?;
    ensure(depth <= 1, || format!("its depth is {depth}, neither 0 nor 1"))?;
    ensure(record[13..16] == [0; 3], || "its bytes 13 to 15 are not zero".into())?;
    let top = used(&record[16..], "the record")?;
    let extents = if depth == 0 { top.clone() } else { listed(image, &top)? };
    for &(first, count) in &extents {
        let blocks = image.len() / BLOCK_SIZE;
        let inside = first >= DATA_AREA && first + count <= blocks;
        ensure(inside, || format!("it has block {}, {}", if first < DATA_AREA { first } else { first.max(blocks) }, outside(image)))?;
    }
    let (total, wanted) = (sum(&extents), size.div_ceil(BLOCK_SIZE));
    ensure(total == wanted, || format!("it has {}, and its size of {size} asks for {wanted}", counted(total, "block")))?;
    if let Some(pair) = extents.windows(2).find(|w| w[0].0 + w[0].1 == w[1].0) {
        return Err(format!("two of its extents touch at block {}", pair[1].0));
    }
    let fits = (depth == 1) == (extents.len() > SLOTS_OF_RECORD);
    ensure(fits, || format!("it has {}, and its depth is {depth}", counted(extents.len(), "extent")))?;
    ends_in_zeros(image, size, &extents)
}

fn ensure(holds: bool, words: impl FnOnce() -> String) -> Result<(), String> {
    match holds {
        true => Ok(()),
        false => Err(words()),
    }
}

fn outside(image: &[u8]) -> String {
    format!("outside of {DATA_AREA} to {}", image.len() / BLOCK_SIZE - 1)
}

fn sum(slots: &[Slot]) -> usize {
    slots.iter().map(|s| s.1).sum()
}

/// The used slots: they come first, have a count, and the others are zero.
fn used(slots: &[u8], whose: &str) -> Result<Vec<Slot>, String> {
    let number = |low, high| usize::from(u16::from_le_bytes([low, high]));
    let all: Vec<Slot> = slots.chunks_exact(4).map(|s| (number(s[0], s[1]), number(s[2], s[3]))).collect();
    let unused = all.iter().position(|s| s.1 == 0).unwrap_or(all.len());
    match all[unused..].iter().position(|&s| s != (0, 0)) {
        None => Ok(all[..unused].to_vec()),
        Some(0) => Err(format!("slot {unused} of {whose} has no count")),
        Some(k) => Err(format!("slot {} of {whose} is behind an unused one", unused + k)),
    }
}

/// The extents that the extent blocks of a record list.
fn listed(image: &[u8], top: &[Slot]) -> Result<Vec<Slot>, String> {
    let mut extents = Vec::new();
    for (i, &(node, count)) in top.iter().enumerate() {
        let inside = (DATA_AREA..image.len() / BLOCK_SIZE).contains(&node);
        ensure(inside, || format!("its extent block {node} is {}", outside(image)))?;
        let below = used(&image[node * BLOCK_SIZE..][..BLOCK_SIZE], &format!("extent block {node}"))?;
        let (total, packed) = (sum(&below), below.len() == SLOTS_OF_BLOCK || i + 1 == top.len());
        ensure(total == count, || format!("its extent block {node} lists {}, and its record {count}", counted(total, "block")))?;
        ensure(packed, || format!("its extent block {node} has {}, and is not the last", counted(below.len(), "extent")))?;
        extents.extend(below);
    }
    Ok(extents)
}

/// The bytes behind the size in the last block.
fn ends_in_zeros(image: &[u8], size: usize, extents: &[Slot]) -> Result<(), String> {
    let end = size % BLOCK_SIZE;
    match extents.last() {
        Some(&(first, count)) if end != 0 => {
            let last = first + count - 1;
            let behind = &image[last * BLOCK_SIZE..][end..BLOCK_SIZE];
            ensure(behind.iter().all(|&b| b == 0), || format!("bytes behind its end, in block {last}, are not zero"))
        }
        _ => Ok(()),
    }
}
