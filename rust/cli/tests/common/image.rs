//! Images of a till box, read and made by document 01 alone: nothing here asks the tool or the store.

use std::collections::BTreeMap;

pub const BLOCK: usize = 512;
const TABLE: usize = 33;
const RECORDS: usize = 34;
const DATA: usize = 42;
const FILE_MAX: usize = 1_048_576;

pub type Name = [u8; 8];
pub type Map = BTreeMap<Name, Vec<u8>>;

pub fn name(text: &str) -> Name {
    u64::from_str_radix(text, 16).expect("a name").to_be_bytes()
}

pub fn hex(n: &Name) -> String {
    n.iter().map(|b| format!("{b:02X}")).collect()
}

/// The name of the second purse of a long put.
pub const SECOND: Name = [0xff; 8];

#[derive(Clone, Debug, PartialEq, Eq)]
pub struct Purse {
    pub record: usize,
    pub name: Name,
    pub size: usize,
    pub extents: Vec<(usize, usize)>,
    pub nodes: Vec<usize>,
    pub bytes: Vec<u8>,
}

/// What open finds on an image.
#[derive(Clone, Debug, PartialEq, Eq)]
pub enum Seen {
    /// The number, and with 10, 22 and 23 the record or block.
    Refused(u32, Option<usize>),
    Recover(usize),
    Sound {
        purses: Vec<Purse>,
        free: usize,
    },
}

fn two(bytes: &[u8], at: usize) -> usize {
    bytes[at] as usize + 256 * bytes[at + 1] as usize
}

fn block(image: &[u8], b: usize) -> &[u8] {
    &image[b * BLOCK..(b + 1) * BLOCK]
}

/// The targets of the log, or the lowest record of the commit block that is wrong.
fn list_of(image: &[u8]) -> Result<Vec<usize>, usize> {
    let blocks = image.len() / BLOCK;
    let mut list = Vec::new();
    let mut empty = false;
    for (i, r) in block(image, 0).chunks(16).enumerate() {
        let target = two(r, 0);
        if r[2..].iter().any(|&b| b != 0) {
            return Err(i);
        }
        if target == 0 {
            empty = true;
        } else if empty || target < TABLE || target >= blocks || list.contains(&target) {
            return Err(i);
        } else {
            list.push(target);
        }
    }
    Ok(list)
}

/// The targets of the log, or None if the commit block is wrong.
pub fn targets(image: &[u8]) -> Option<Vec<usize>> {
    list_of(image).ok()
}

/// Used slots, or None if S4 does not hold.
fn slots(bytes: &[u8]) -> Option<Vec<(usize, usize)>> {
    let all: Vec<_> = bytes.chunks(4).map(|s| (two(s, 0), two(s, 2))).collect();
    let used = all.iter().take_while(|s| s.1 > 0).count();
    all[used..].iter().all(|&s| s == (0, 0)).then(|| all[..used].to_vec())
}

fn inside(list: &[(usize, usize)], blocks: usize) -> bool {
    list.iter().all(|&(first, count)| first >= DATA && first + count <= blocks)
}

/// The purse of a record, or None if S3 to S6 or S8 do not hold of it.
pub fn record(image: &[u8], i: usize) -> Option<Purse> {
    let r = record_bytes(image, i);
    let blocks = image.len() / BLOCK;
    let size = u32::from_le_bytes(r[8..12].try_into().unwrap()) as usize;
    if size > FILE_MAX || r[12] > 1 || r[13..16] != [0; 3] {
        return None;
    }
    let top = slots(&r[16..])?;
    let mut nodes = Vec::new();
    let mut extents = top.clone();
    if r[12] == 1 {
        if top.iter().any(|s| s.0 < DATA || s.0 >= blocks) {
            return None;
        }
        extents.clear();
        for (i, &(node, count)) in top.iter().enumerate() {
            let below = slots(block(image, node))?;
            let full = below.len() == 128 || (i + 1 == top.len() && !below.is_empty());
            if !full || below.iter().map(|e| e.1).sum::<usize>() != count {
                return None;
            }
            nodes.push(node);
            extents.extend(below);
        }
    }
    let total: usize = extents.iter().map(|e| e.1).sum();
    let apart = extents.windows(2).all(|w| w[0].0 + w[0].1 != w[1].0);
    if !inside(&extents, blocks) || total != size.div_ceil(BLOCK) || !apart || (r[12] == 1) != (extents.len() > 4) {
        return None;
    }
    let mut bytes = Vec::with_capacity(total * BLOCK);
    for &(first, count) in &extents {
        bytes.extend_from_slice(&image[first * BLOCK..(first + count) * BLOCK]);
    }
    if bytes[size..].iter().any(|&b| b != 0) {
        return None;
    }
    bytes.truncate(size);
    Some(Purse { record: i, name: r[..8].try_into().unwrap(), size, extents, nodes, bytes })
}

fn record_bytes(image: &[u8], i: usize) -> &[u8] {
    &image[RECORDS * BLOCK + 32 * i..][..32]
}

/// The name in a record, None if there is none.
pub fn name_in(image: &[u8], i: usize) -> Option<Name> {
    let name: Name = record_bytes(image, i)[..8].try_into().unwrap();
    (name != [0; 8]).then_some(name)
}

/// What open finds, by the order of the refusals: 1, 10, 22, 23.
pub fn look(image: &[u8]) -> Seen {
    let blocks = image.len() / BLOCK;
    if image.len() % BLOCK != 0 || !(64..=4096).contains(&blocks) {
        return Seen::Refused(1, None);
    }
    match list_of(image) {
        Err(record) => Seen::Refused(10, Some(record)),
        Ok(list) if !list.is_empty() => Seen::Recover(list.len()),
        Ok(_) => match purses(image) {
            Err(record) => Seen::Refused(22, Some(record)),
            Ok(purses) => match wrong_block(image, &purses) {
                Some(block) => Seen::Refused(23, Some(block)),
                None => Seen::Sound { free: (DATA..blocks).filter(|&b| is_free(image, b)).count(), purses },
            },
        },
    }
}

/// The purses, or the lowest record that breaks S2 to S6 or S8. Of two with one name that is the later.
pub fn purses(image: &[u8]) -> Result<Vec<Purse>, usize> {
    let mut purses: Vec<Purse> = Vec::new();
    for i in 0..128 {
        let Some(name) = name_in(image, i) else {
            match record_bytes(image, i) == [0; 32] {
                true => continue,
                false => return Err(i),
            }
        };
        match record(image, i) {
            Some(purse) if purses.iter().all(|p| p.name != name) => purses.push(purse),
            _ => return Err(i),
        }
    }
    Ok(purses)
}

/// How often a purse reaches a block, as data or as an extent block.
pub fn times(p: &Purse, b: usize) -> usize {
    let data = p.extents.iter().filter(|&&(first, count)| (first..first + count).contains(&b)).count();
    data + p.nodes.iter().filter(|&&node| node == b).count()
}

/// The lowest block that breaks S1 or S7.
fn wrong_block(image: &[u8], purses: &[Purse]) -> Option<usize> {
    let blocks = image.len() / BLOCK;
    let mut reached = vec![0; 4096];
    for b in purses.iter().flat_map(|p| p.extents.iter().flat_map(|&(f, c)| f..f + c).chain(p.nodes.iter().copied())) {
        reached[b] += 1;
    }
    reached[..DATA].fill(1);
    reached[blocks..].fill(1);
    (0..4096).find(|&b| reached[b] != !is_free(image, b) as usize)
}

/// The image behind a whole recovery.
pub fn redo(image: &[u8]) -> Vec<u8> {
    let mut after = image.to_vec();
    for (i, t) in targets(image).unwrap_or_default().into_iter().enumerate() {
        let new = block(image, 1 + i).to_vec();
        after[t * BLOCK..(t + 1) * BLOCK].copy_from_slice(&new);
    }
    after[..BLOCK].fill(0);
    after
}

/// The map that the next recovery and open give; None if they give none.
pub fn committed(image: &[u8]) -> Option<Map> {
    let whole = if matches!(look(image), Seen::Recover(_)) { redo(image) } else { image.to_vec() };
    match look(&whole) {
        Seen::Sound { purses, .. } => Some(purses.into_iter().map(|p| (p.name, p.bytes)).collect()),
        _ => None,
    }
}

/// What `list` prints on standard output.
pub fn listing(image: &[u8]) -> String {
    match look(image) {
        Seen::Refused(n, _) => format!("refused {n}\n"),
        Seen::Recover(k) => format!("recover {k}\n"),
        Seen::Sound { purses, free } => {
            let mut text = format!("files {} free {free}\n", purses.len());
            for p in purses {
                let runs: Vec<String> = p.extents.iter().map(|e| format!("{}+{}", e.0, e.1)).collect();
                let runs = if runs.is_empty() { "-".to_string() } else { runs.join(",") };
                text += &format!("{} {} {runs}\n", hex(&p.name), p.size);
            }
            text
        }
    }
}

/// An empty box.
pub fn empty(blocks: usize) -> Vec<u8> {
    let mut image = vec![0; blocks * BLOCK];
    image[TABLE * BLOCK..RECORDS * BLOCK].fill(0xff);
    for b in DATA..blocks {
        image[TABLE * BLOCK + b / 8] &= !(1 << (b % 8));
    }
    image
}

pub fn is_free(image: &[u8], b: usize) -> bool {
    image[TABLE * BLOCK + b / 8] >> (b % 8) & 1 == 0
}

fn lowest_free(image: &[u8]) -> usize {
    (DATA..image.len() / BLOCK).find(|&b| is_free(image, b)).expect("a free block")
}

/// Adds a purse in these blocks of the image (all of them free), or in the lowest free ones. Its extent blocks are the lowest free ones behind.
pub fn add(image: &mut [u8], n: Name, bytes: &[u8], places: Option<&[usize]>) {
    let wanted = bytes.len().div_ceil(BLOCK);
    let take = |image: &mut [u8], b: usize| {
        assert!(is_free(image, b), "block {b} is taken");
        image[TABLE * BLOCK + b / 8] |= 1 << (b % 8);
    };
    let mut own = Vec::new();
    for i in 0..wanted {
        let b = places.map_or_else(|| lowest_free(image), |p| p[i]);
        take(image, b);
        own.push(b);
        let piece = &bytes[i * BLOCK..bytes.len().min((i + 1) * BLOCK)];
        image[b * BLOCK..(b + 1) * BLOCK].fill(0);
        image[b * BLOCK..b * BLOCK + piece.len()].copy_from_slice(piece);
    }
    let mut runs: Vec<(usize, usize)> = Vec::new();
    for b in own {
        match runs.last_mut() {
            Some(r) if r.0 + r.1 == b => r.1 += 1,
            _ => runs.push((b, 1)),
        }
    }
    let slot = |s: (usize, usize)| [s.0 as u8, (s.0 >> 8) as u8, s.1 as u8, (s.1 >> 8) as u8];
    let deep = runs.len() > 4;
    let mut top = runs.clone();
    if deep {
        top.clear();
        for part in runs.chunks(128) {
            let node = lowest_free(image);
            take(image, node);
            image[node * BLOCK..(node + 1) * BLOCK].fill(0);
            for (k, &s) in part.iter().enumerate() {
                image[node * BLOCK + 4 * k..][..4].copy_from_slice(&slot(s));
            }
            top.push((node, part.iter().map(|s| s.1).sum()));
        }
    }
    let at = (0..128).map(|i| RECORDS * BLOCK + 32 * i).find(|&at| image[at..at + 8] == [0; 8]).expect("an empty record");
    image[at..at + 8].copy_from_slice(&n);
    image[at + 8..at + 12].copy_from_slice(&(bytes.len() as u32).to_le_bytes());
    image[at + 12] = deep as u8;
    for (k, &s) in top.iter().enumerate() {
        image[at + 16 + 4 * k..][..4].copy_from_slice(&slot(s));
    }
}

/// The image with a log pending whose recovery makes it `after`: the blocks of `after` from 33 on that differ. `done` of them are stored already.
pub fn pending(before: &[u8], after: &[u8], done: usize) -> Vec<u8> {
    let mut image = before.to_vec();
    let differ: Vec<usize> = (TABLE..before.len() / BLOCK).filter(|&b| block(before, b) != block(after, b)).collect();
    assert!(!differ.is_empty() && differ.len() <= 32, "{} blocks in a log", differ.len());
    for (i, &t) in differ.iter().enumerate() {
        image[(1 + i) * BLOCK..(2 + i) * BLOCK].copy_from_slice(block(after, t));
        image[16 * i..16 * i + 2].copy_from_slice(&(t as u16).to_le_bytes());
        if i < done {
            image[t * BLOCK..(t + 1) * BLOCK].copy_from_slice(block(after, t));
        }
    }
    image
}
