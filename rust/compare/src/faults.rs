//! Faults of sound devices that open has to tell, each by its kind: document 02, A2. Several come together, below
//! and above each other. What is damaged then, `verdict` tells.

use crate::image::{bit, name_of, nodes_of, number2, put_slots, record_place, records, runs, set_bit, slots, File};
use crate::rng::Rng;
use crate::verdict::{bit_due, file_of, times_reached};
use plain::{Extent, BLOCK};

const DATA: usize = 42;

/// One fault or a few. Once in a while nothing is left but zeros.
pub fn several(rng: &mut Rng, d: &mut [u8]) {
    if rng.one_in(200) {
        d.fill(0);
    }
    for _ in 0..rng.pick(&[1, 1, 1, 2, 2, 3, 5]) {
        one(rng, d);
    }
    if rng.one_in(2) {
        right_bits(rng, d);
    }
}

/// One fault, where the device has a place for it.
fn one(rng: &mut Rng, d: &mut [u8]) {
    match rng.below(20) {
        0..=2 => equal_names(rng, d),
        3 => stray_byte(rng, d),
        4 => slot_outside(rng, d),
        5..=6 => doubled(rng, d),
        7 => node_as_data(rng, d),
        8 => twin(rng, d),
        9 => long_sum(rng, d),
        10 => two_depths(rng, d),
        11 => other_pieces(rng, d),
        12 => split(rng, d),
        13 => tail(rng, d),
        14..=15 => field(rng, d),
        16 => count(rng, d),
        _ => any_bit(rng, d),
    }
}

// ---- places

fn blocks(d: &[u8]) -> usize {
    d.len() / BLOCK
}

fn any_data(rng: &mut Rng, d: &[u8]) -> usize {
    rng.range(DATA as u64, blocks(d) as u64 - 1) as usize
}

fn record(d: &[u8], i: usize) -> &[u8] {
    &d[record_place(i)]
}

/// The records that are empty, or the others.
fn choice(d: &[u8], empty: bool) -> Vec<usize> {
    let numbers = records(d).enumerate();
    numbers.filter(|(_, r)| (r[..8] == [0; 8]) == empty).map(|(i, _)| i).collect()
}

fn used(rng: &mut Rng, d: &[u8]) -> Option<usize> {
    any(rng, &choice(d, false))
}

fn empty(rng: &mut Rng, d: &[u8]) -> Option<usize> {
    any(rng, &choice(d, true))
}

fn any<T: Copy>(rng: &mut Rng, from: &[T]) -> Option<T> {
    (!from.is_empty()).then(|| rng.pick(from))
}

/// A used record that is right by itself, and its file.
fn file(rng: &mut Rng, d: &[u8]) -> Option<(usize, File)> {
    let i = used(rng, d)?;
    Some((i, file_of(d, record(d, i))?))
}

/// The bytes at which the used slots of some bytes begin.
fn slot_places(d: &[u8], from: usize, to: usize) -> impl Iterator<Item = usize> {
    (0..slots(&d[from..to]).len()).map(move |k| from + 4 * k)
}

/// The slots of a used record: those of its extents, or of its extent blocks.
fn top_places(d: &[u8], deep: bool) -> Vec<usize> {
    let of_depth = choice(d, false).into_iter().filter(|&i| (record(d, i)[12] != 0) == deep);
    of_depth.map(record_place).flat_map(|r| slot_places(d, r.start + 16, r.end)).collect()
}

/// The slots of all extents.
fn extent_places(d: &[u8]) -> Vec<usize> {
    let leaves = nodes_of(d).into_iter().filter(|&b| b >= DATA).flat_map(|b| slot_places(d, b * BLOCK, (b + 1) * BLOCK));
    top_places(d, false).into_iter().chain(leaves).collect()
}

fn any_slot(rng: &mut Rng, d: &[u8]) -> Option<usize> {
    let deep = top_places(d, true);
    if rng.one_in(4) && !deep.is_empty() {
        return any(rng, &deep);
    }
    any(rng, &extent_places(d))
}

fn put2(d: &mut [u8], at: usize, x: usize) {
    d[at..at + 2].copy_from_slice(&(x as u16).to_le_bytes());
}

/// A name that no other record has.
fn fresh_name(rng: &mut Rng) -> [u8; 8] {
    name_of(1000 + rng.index(1 << 32))
}

// ---- S2

/// One or two other records get the name of a file; an empty one is then an empty file.
fn equal_names(rng: &mut Rng, d: &mut [u8]) {
    let Some(i) = used(rng, d) else { return };
    let name: [u8; 8] = record(d, i)[..8].try_into().unwrap();
    for _ in 0..rng.range(1, 2) {
        let other = if rng.one_in(2) { used(rng, d) } else { Some(rng.index(128)) };
        d[record_place(other.unwrap_or(i))][..8].copy_from_slice(&name);
    }
}

fn stray_byte(rng: &mut Rng, d: &mut [u8]) {
    if let Some(i) = empty(rng, d) {
        d[record_place(i)][8 + rng.index(24)] = rng.range(1, 255) as u8;
    }
}

// ---- S4 and S7

fn slot_outside(rng: &mut Rng, d: &mut [u8]) {
    let Some(at) = any_slot(rng, d) else { return };
    let (n, count) = (blocks(d), number2(d, at + 2));
    // The last place is just right for an extent, and the one behind it is not.
    let last = n.saturating_sub(count);
    put2(d, at, rng.pick(&[0, 1, 33, 40, 41, 42, last, last + 1, n - 1, n, 4095, 4096, 65_535]));
}

/// An extent is moved to blocks that a file has already: its own, or another's.
fn doubled(rng: &mut Rng, d: &mut [u8]) {
    let places = extent_places(d);
    let (Some(to), Some(from)) = (any(rng, &places), any(rng, &places)) else { return };
    let (first, behind) = (number2(d, from), number2(d, from) + number2(d, from + 2));
    let start = if rng.one_in(3) { first + rng.index(behind - first) } else { first };
    put2(d, to, start.min(blocks(d).saturating_sub(number2(d, to + 2))));
}

/// An extent begins at an extent block, or a slot of a record names another's extent block.
fn node_as_data(rng: &mut Rng, d: &mut [u8]) {
    let (nodes, extents, deep) = (nodes_of(d), extent_places(d), top_places(d, true));
    let places = if rng.one_in(4) { deep } else { extents };
    let (Some(b), Some(at)) = (any(rng, &nodes), any(rng, &places)) else { return };
    put2(d, at, b);
}

/// A second record of another name has all blocks of a file.
fn twin(rng: &mut Rng, d: &mut [u8]) {
    let (Some(i), Some(j)) = (used(rng, d), empty(rng, d)) else { return };
    d.copy_within(record_place(i), record_place(j).start);
    d[record_place(j)][..8].copy_from_slice(&fresh_name(rng));
}

// ---- S5 and S6

/// The same blocks again and again, for the longest file or longer ones, and for a sum past 65,536.
fn long_sum(rng: &mut Rng, d: &mut [u8]) {
    let Some(i) = used(rng, d).or(Some(0)) else { return };
    let n = blocks(d) - DATA;
    let length = rng.pick(&[2047, 2048, 2048, 2049, 2050, 4096, 65_536 + 5]);
    let short = if rng.one_in(2) { n } else { n.min(513) };
    let (blocks, extents) = ((0..length).map(|k| DATA + k % short).collect(), length.div_ceil(short));
    let size = if length < 65_536 { rng.pick(&[1_048_576, 512 * length]) } else { 5 * 512 };
    let nodes = (0..if extents > 4 { extents.div_ceil(128) } else { 0 }).map(|_| any_data(rng, d)).collect();
    if extents <= 512 {
        File { name: fresh_name(rng), size, blocks, nodes }.put(d, i);
    }
}

/// A file of one stretch, the first block of which reads as an extent block of as many single blocks.
fn two_depths(rng: &mut Rng, d: &mut [u8]) {
    let (Some(i), count) = (empty(rng, d), rng.range(5, 11) as usize) else { return };
    let n = blocks(d);
    let first = rng.range(DATA as u64, (n - count) as u64) as usize;
    let step = rng.range(2, ((n - DATA) / count) as u64) as usize;
    let start = DATA + rng.index(n - DATA - step * (count - 1));
    let below: Vec<Extent> = (0..count).map(|k| Extent { first: (start + step * k) as u32, count: 1 }).collect();
    File { name: fresh_name(rng), size: count * BLOCK, blocks: (first..first + count).collect(), nodes: vec![] }.put(d, i);
    d[first * BLOCK..][..BLOCK].fill(0);
    put_slots(&mut d[first * BLOCK..][..BLOCK], &below);
    d[record_place(i)][12] = rng.below(2) as u8;
}

/// A file's extents are dealt to extent blocks in pieces of another length; four are enough for the most of them.
fn other_pieces(rng: &mut Rng, d: &mut [u8]) {
    let Some((i, file)) = file(rng, d) else { return };
    let list = runs(&file.blocks);
    let piece = rng.range(list.len().div_ceil(4).max(1) as u64, list.len().clamp(1, 128) as u64) as usize;
    let mut top = Vec::new();
    for (k, extents) in list.chunks(piece).enumerate() {
        let b = file.nodes.get(k).copied().unwrap_or_else(|| any_data(rng, d));
        d[b * BLOCK..][..BLOCK].fill(0);
        put_slots(&mut d[b * BLOCK..][..BLOCK], extents);
        top.push(Extent { first: b as u32, count: extents.iter().map(|e| e.count).sum() });
    }
    let r = &mut d[record_place(i)];
    r[12] = 1;
    r[16..].fill(0);
    put_slots(&mut r[16..], &top);
}

/// An extent becomes two that touch each other.
fn split(rng: &mut Rng, d: &mut [u8]) {
    let Some((i, file)) = file(rng, d) else { return };
    let r = record_place(i);
    let (from, to) = match any(rng, &file.nodes) {
        Some(b) => (b * BLOCK, (b + 1) * BLOCK),
        None => (r.start + 16, r.end),
    };
    let long: Vec<usize> = slot_places(d, from, to).filter(|&at| number2(d, at + 2) > 1 && at + 8 <= to).collect();
    let Some(at) = any(rng, &long) else { return };
    let (first, count) = (number2(d, at), number2(d, at + 2));
    let front = rng.range(1, count as u64 - 1) as usize;
    d.copy_within(at..to - 4, at + 4);
    put2(d, at + 2, front);
    put2(d, at + 4, first + front);
    put2(d, at + 6, count - front);
}

fn count(rng: &mut Rng, d: &mut [u8]) {
    let Some(at) = any_slot(rng, d) else { return };
    let count = number2(d, at + 2);
    put2(d, at + 2, rng.pick(&[0, count - 1, count + 1, 2048, 2049, 65_535]));
}

// ---- S3 and S8

/// Size, depth, or the zeros behind them.
fn field(rng: &mut Rng, d: &mut [u8]) {
    let Some(i) = used(rng, d) else { return };
    let r = &mut d[record_place(i)];
    let size = u32::from_le_bytes(r[8..12].try_into().unwrap());
    let near =
        [size.wrapping_sub(1), size.wrapping_add(1), size.wrapping_add(511) / 512 * 512, size.wrapping_add(512), size.wrapping_sub(512)];
    match rng.below(8) {
        0..=2 => r[8..12].copy_from_slice(&rng.pick(&near).to_le_bytes()),
        3 => r[8..12].copy_from_slice(&rng.pick(&[0, 1, 1_048_576, 1_048_577, u32::MAX]).to_le_bytes()),
        4..=5 => r[12] ^= 1,
        6 => r[12] = rng.pick(&[2, 3, 128, 255]),
        _ => r[13 + rng.index(3)] = rng.range(1, 255) as u8,
    }
}

/// A byte behind the size, mostly the first one, else the last one; once in a while the last byte of the file.
fn tail(rng: &mut Rng, d: &mut [u8]) {
    let Some((_, file)) = file(rng, d) else { return };
    let tail = file.tail();
    if !tail.is_empty() {
        d[rng.pick(&[tail.start, tail.start, tail.end - 1, tail.start - 1])] ^= 1;
    }
}

// ---- bits

fn any_bit(rng: &mut Rng, d: &mut [u8]) {
    let n = blocks(d);
    let b = match rng.below(8) {
        0 => rng.index(DATA),
        1 => rng.pick(&[0, 7, 8, 33, 41, 42, n - 1, 4095]),
        2 if n < 4096 => rng.range(n as u64, 4095) as usize,
        3 if n < 4096 => rng.pick(&[n, n + 1, 4095]).min(4095),
        _ => any_data(rng, d),
    };
    set_bit(d, b, !bit(d, b));
}

/// All bits as the files ask for, if no record is damaged; then mostly one of them is changed, or those of the
/// blocks that are reached twice are cleared.
fn right_bits(rng: &mut Rng, d: &mut [u8]) {
    let Some(times) = times_reached(d) else { return };
    (0..4096).for_each(|b| set_bit(d, b, bit_due(&times, b, blocks(d))));
    let twice: Vec<usize> = (0..4096).filter(|&b| times[b] > 1).collect();
    match (rng.below(4), any(rng, &twice)) {
        (0, _) => {}
        (1, Some(b)) => set_bit(d, b, false),
        (2, Some(_)) => twice.iter().for_each(|&b| set_bit(d, b, false)),
        _ => any_bit(rng, d),
    }
}

// ---- logs

/// A device with a log that leads to another one. Of each block in which the two differ, the log and the device
/// have either content, mostly the log the other one's; blocks that find no place in the log are the other one's.
pub fn with_log(rng: &mut Rng, from: &[u8], to: &[u8]) -> Vec<u8> {
    let mut d = to.to_vec();
    let at = |b: usize| b * BLOCK..(b + 1) * BLOCK;
    let mut targets: Vec<usize> = (33..blocks(d.as_slice())).filter(|&b| from[at(b)] != to[at(b)]).collect();
    targets.extend((0..rng.range(1, 3)).map(|_| rng.range(33, blocks(to) as u64 - 1) as usize));
    (1..targets.len()).for_each(|i| targets.swap(i, rng.index(i + 1)));
    let mut distinct: Vec<usize> = Vec::new();
    targets.into_iter().for_each(|b| {
        if !distinct.contains(&b) {
            distinct.push(b)
        }
    });
    d[at(0)].fill(0);
    for (i, &b) in distinct.iter().take(32).enumerate() {
        let (image, there) = (if rng.one_in(6) { from } else { to }, if rng.one_in(6) { to } else { from });
        d[at(1 + i)].copy_from_slice(&image[at(b)]);
        d[at(b)].copy_from_slice(&there[at(b)]);
        put2(&mut d, 16 * i, b);
    }
    d
}
