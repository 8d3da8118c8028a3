//! Which record or block is damaged: document 02, A2. A record is right if it and its extent blocks are what
//! its file is written as, byte for byte. Neither store takes part in this.

use crate::image::{bit, extents_of, records, slots, File};
use crate::pair::Check;
use plain::BLOCK;
use std::collections::BTreeSet;

const DATA: usize = 42;
const BITS: usize = 4096;
const FILE_BLOCKS: usize = 2048;

/// 22 or 23 and the record or block that goes with it; none if S1 to S8 hold.
pub fn damage_of(device: &[u8]) -> Option<(u32, u64)> {
    match files_of(device) {
        Ok(files) => damaged_block(device, &times(&files)).map(|b| (23, b as u64)),
        Err(i) => Some((22, i as u64)),
    }
}

/// The files of a device, or the lowest damaged record.
fn files_of(device: &[u8]) -> Result<Vec<File>, usize> {
    let (mut files, mut names) = (Vec::new(), BTreeSet::new());
    for (i, r) in records(device).enumerate().filter(|(_, r)| **r != [0; 32]) {
        let file = file_of(device, r).ok_or(i)?;
        if !names.insert(file.name) {
            return Err(i);
        }
        files.push(file);
    }
    Ok(files)
}

/// How often each block is reached; none if a record is damaged.
pub fn times_reached(device: &[u8]) -> Option<Vec<usize>> {
    files_of(device).ok().map(|files| times(&files))
}

fn times(files: &[File]) -> Vec<usize> {
    let mut times = vec![0; BITS];
    files.iter().flat_map(|f| f.blocks.iter().chain(&f.nodes)).for_each(|&b| times[b] += 1);
    times
}

/// Whether the bit of a block is to be 1.
pub fn bit_due(times: &[usize], b: usize, blocks: usize) -> bool {
    !(DATA..blocks).contains(&b) || times[b] > 0
}

fn damaged_block(device: &[u8], times: &[usize]) -> Option<usize> {
    let blocks = device.len() / BLOCK;
    (0..BITS).find(|&b| times[b] > 1 || bit(device, b) != bit_due(times, b, blocks))
}

/// The file of a record, its name apart from those of others; none if the record breaks a rule.
pub fn file_of(device: &[u8], r: &[u8]) -> Option<File> {
    let file = read(device, r)?;
    let inside = |&b: &usize| (DATA..device.len() / BLOCK).contains(&b);
    let leaf_is = |(&b, leaf): (&usize, [u8; BLOCK])| device[b * BLOCK..][..BLOCK] == leaf;
    let right = file.name != [0; 8]
        && file.blocks.len() == file.size.div_ceil(BLOCK)
        && file.blocks.iter().all(inside)
        && file.has_its_nodes()
        && file.record() == r
        && file.nodes.iter().zip(file.leaves()).all(leaf_is)
        && device[file.tail()].iter().all(|&x| x == 0);
    right.then_some(file)
}

/// What a record and its extent blocks tell, with no rule but that they can be read; none if they tell more
/// blocks than a file has.
fn read(device: &[u8], r: &[u8]) -> Option<File> {
    let nodes: Vec<usize> = if r[12] == 0 { vec![] } else { slots(&r[16..]).iter().map(|s| s.0).collect() };
    if nodes.iter().any(|b| (b + 1) * BLOCK > device.len()) || nodes.iter().any(|&b| b < DATA) {
        return None;
    }
    let extents = extents_of(device, r);
    if extents.iter().map(|e| e.1).sum::<usize>() > FILE_BLOCKS {
        return None;
    }
    let blocks = extents.iter().flat_map(|e| e.0..e.0 + e.1).collect();
    let size = u32::from_le_bytes(r[8..12].try_into().unwrap()) as usize;
    Some(File { name: r[..8].try_into().unwrap(), size, blocks, nodes })
}

/// "A sound device": block 0 and S1 to S8.
pub fn sound_whole(device: &[u8]) -> Check {
    if device[..BLOCK].iter().any(|&x| x != 0) {
        return Err("block 0 is in use".into());
    }
    sound(device)
}

/// S1 to S8.
pub fn sound(device: &[u8]) -> Check {
    match damage_of(device) {
        None => Ok(()),
        Some((22, i)) => Err(format!("record {i} is damaged")),
        Some((_, b)) => Err(format!("block {b} is damaged")),
    }
}
