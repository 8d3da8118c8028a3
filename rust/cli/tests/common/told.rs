//! What the program has to say of a refused image, by the reader of images: the refusal, the record or block, and what is wrong with it.

use super::*;

/// The whole sentence of an image that is refused. Of other refusals than 10, 22 and 23 only its beginning.
pub fn told(image: &[u8], number: u32, fault: Option<usize>) -> String {
    match (number, fault) {
        (10, Some(i)) => format!("refused 10: the list in the commit block is damaged, record {i}; {}", of_list(image, i)),
        (22, Some(i)) => format!("refused 22: a file record is damaged, record {i}; {}", of_record(image, i)),
        (23, Some(b)) => {
            format!("refused 23: a block is marked wrong in the bit table, or used twice, block {b}; {}", of_block(image, b))
        }
        _ => format!("refused {number}: "),
    }
}

/// What `list --json` prints of it.
pub fn told_in_json(number: u32, fault: Option<usize>) -> String {
    match (number, fault) {
        (23, Some(b)) => format!("{{\"refused\":23,\"block\":{b}}}\n"),
        (_, Some(i)) => format!("{{\"refused\":{number},\"record\":{i}}}\n"),
        _ => format!("{{\"refused\":{number}}}\n"),
    }
}

fn of_list(image: &[u8], i: usize) -> String {
    let targets: Vec<usize> = (0..32).map(|r| image[16 * r] as usize + 256 * image[16 * r + 1] as usize).collect();
    let last = image.len() / BLOCK - 1;
    let (target, before) = (targets[i], &targets[..i]);
    if target == 0 {
        "it has other bytes than a target".into()
    } else if target < 33 || target > last {
        format!("its target is block {target}, and only 33 to {last} can be one")
    } else if let Some(j) = before.iter().position(|&t| t == target) {
        format!("its target is block {target}, which record {j} has too")
    } else if let Some(j) = before.iter().position(|&t| t == 0) {
        format!("record {j} before it is empty")
    } else {
        "it has other bytes than a target".into()
    }
}

fn of_record(image: &[u8], i: usize) -> String {
    let Some(name) = name_in(image, i) else {
        return "it has no name, but other bytes".into();
    };
    match (0..i).find(|&j| name_in(image, j) == Some(name)) {
        Some(j) => format!("its name is {}, which record {j} has too", hex(&name)),
        None => format!("its name is {}; {}", hex(&name), rule(image, i)),
    }
}

/// A number and a noun.
fn some(n: usize, noun: &str) -> String {
    format!("{n} {noun}{}", if n == 1 { "" } else { "s" })
}

/// The slots of some bytes that have a count.
fn pairs(bytes: &[u8]) -> Vec<(usize, usize)> {
    let pair = |s: &[u8]| (s[0] as usize + 256 * s[1] as usize, s[2] as usize + 256 * s[3] as usize);
    bytes.chunks(4).map(pair).filter(|s| s.1 > 0).collect()
}

/// The first slot that is neither used nor zero, or that is not zero behind one without a count.
fn odd_slot(bytes: &[u8], of: &str) -> Option<String> {
    let mut empty = false;
    for (k, s) in bytes.chunks(4).enumerate() {
        if empty && *s != [0; 4] {
            return Some(format!("slot {k} of {of} is behind an unused one"));
        }
        empty |= s[2..] == [0; 2];
        if empty && *s != [0; 4] {
            return Some(format!("slot {k} of {of} has no count"));
        }
    }
    None
}

/// What is wrong with a record that has a name of its own: one of S3 to S6 and S8.
pub fn rule(image: &[u8], i: usize) -> String {
    let r = &image[34 * BLOCK + 32 * i..][..32];
    let (size, depth, end) = (u32::from_le_bytes(r[8..12].try_into().unwrap()) as usize, r[12], image.len() / BLOCK);
    if size > 1_048_576 {
        return format!("its size is {size}, more than 1048576");
    } else if depth > 1 {
        return format!("its depth is {depth}, neither 0 nor 1");
    } else if r[13..16].iter().any(|&b| b != 0) {
        return "its bytes 13 to 15 are not zero".into();
    }
    if let Some(odd) = odd_slot(&r[16..], "the record") {
        return odd;
    }
    let list = match depth {
        0 => pairs(&r[16..]),
        _ => match leaves(image, &pairs(&r[16..])) {
            Ok(list) => list,
            Err(words) => return words,
        },
    };
    let blocks: Vec<usize> = list.iter().flat_map(|&(first, count)| first..first + count).collect();
    if let Some(b) = blocks.iter().find(|&&b| b < 42 || b >= end) {
        return format!("it has block {b}, outside of 42 to {}", end - 1);
    }
    let wanted = size.div_ceil(BLOCK);
    if blocks.len() != wanted {
        return format!("it has {}, and its size of {size} asks for {wanted}", some(blocks.len(), "block"));
    }
    if let Some(k) = (1..list.len()).find(|&k| list[k - 1].0 + list[k - 1].1 == list[k].0) {
        return format!("two of its extents touch at block {}", list[k].0);
    }
    if (list.len() > 4) != (depth == 1) {
        return format!("it has {}, and its depth is {depth}", some(list.len(), "extent"));
    }
    let last = *blocks.last().expect("a rule that is broken");
    let tail = &image[(last + 1) * BLOCK - (wanted * BLOCK - size)..(last + 1) * BLOCK];
    assert!(tail.iter().any(|&b| b != 0), "record {i} breaks no rule");
    format!("bytes behind its end, in block {last}, are not zero")
}

/// The extents in the extent blocks that these slots name, or what is wrong with them.
fn leaves(image: &[u8], top: &[(usize, usize)]) -> Result<Vec<(usize, usize)>, String> {
    let mut list = Vec::new();
    for (k, &(node, count)) in top.iter().enumerate() {
        if node < 42 || node >= image.len() / BLOCK {
            return Err(format!("its extent block {node} is outside of 42 to {}", image.len() / BLOCK - 1));
        }
        let bytes = &image[node * BLOCK..(node + 1) * BLOCK];
        if let Some(odd) = odd_slot(bytes, &format!("extent block {node}")) {
            return Err(odd);
        }
        let below = pairs(bytes);
        let lists = below.iter().map(|s| s.1).sum();
        if lists != count {
            return Err(format!("its extent block {node} lists {}, and its record {count}", some(lists, "block")));
        } else if below.len() != 128 && k + 1 != top.len() {
            return Err(format!("its extent block {node} has {}, and is not the last", some(below.len(), "extent")));
        }
        list.extend(below);
    }
    Ok(list)
}

fn of_block(image: &[u8], b: usize) -> String {
    if b < 42 {
        return "it belongs to the store itself, but is marked free".into();
    }
    if b >= image.len() / BLOCK {
        return "it lies behind the end of the box, but is marked free".into();
    }
    let purses = purses(image).expect("sound records");
    let owners: Vec<(String, usize)> = purses.iter().map(|p| (format!("record {} ({})", p.record, hex(&p.name)), times(p, b))).collect();
    let owners: Vec<(String, usize)> = owners.into_iter().filter(|o| o.1 > 0).collect();
    match owners.len() {
        0 => "it is marked in use, but no purse has it".into(),
        1 if owners[0].1 > 1 => format!("{} has it more than once", owners[0].0),
        1 => format!("it is marked free, but {} has it", owners[0].0),
        2 => format!("{} and {} both have it", owners[0].0, owners[1].0),
        n => format!("{}, {} and {} more have it", owners[0].0, owners[1].0, n - 2),
    }
}
