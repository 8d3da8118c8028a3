//! The records of a damaged box, read one by one without the rest of it, for `salvage` and for what is told of the damage.
//!
//! This only gathers which blocks a record claims. Whether a record is sound is the library's to say: it is shown the
//! record alone, in an image whose bit table fits it.

use purse::{BLOCK_SIZE, RECORDS};

use crate::name::Name;

const BIT_TABLE: usize = 33;
const RECORD_AREA: usize = 34;
const DATA_AREA: usize = 42;
const RECORD_SIZE: usize = 32;

/// A record that is not empty.
pub struct Record<'i> {
    pub number: usize,
    pub bytes: &'i [u8],
    /// None: there is no name, but other bytes.
    pub name: Option<Name>,
    pub size: u32,
    /// The blocks that its tree claims, as far as it can be read, ascending.
    pub claims: Vec<usize>,
    /// Those of them that it claims more than once.
    pub again: Vec<usize>,
}

impl Record<'_> {
    pub fn claims(&self, block: usize) -> bool {
        self.claims.binary_search(&block).is_ok()
    }
}

/// The records that are not empty.
pub fn records(image: &[u8]) -> Vec<Record<'_>> {
    (0..RECORDS).filter_map(|number| record(image, number)).collect()
}

fn record(image: &[u8], number: usize) -> Option<Record<'_>> {
    let bytes = &image[place(number)..][..RECORD_SIZE];
    if bytes.iter().all(|&b| b == 0) {
        return None;
    }
    let name = Name([bytes[0], bytes[1], bytes[2], bytes[3], bytes[4], bytes[5], bytes[6], bytes[7]]);
    let size = u32::from_le_bytes([bytes[8], bytes[9], bytes[10], bytes[11]]);
    let times = claimed(image, bytes[12], &bytes[16..]);
    let above = |n| (0..times.len()).filter(|&b| times[b] > n).collect();
    Some(Record { number, bytes, name: (name.0 != [0; 8]).then_some(name), size, claims: above(0), again: above(1) })
}

fn place(number: usize) -> usize {
    RECORD_AREA * BLOCK_SIZE + number * RECORD_SIZE
}

/// How often each block is claimed by the tree below some slots. A depth that is neither 0 nor 1 is read both ways.
fn claimed(image: &[u8], depth: u8, slots: &[u8]) -> Vec<u8> {
    let mut times = vec![0; image.len() / BLOCK_SIZE];
    if depth != 1 {
        used(slots).for_each(|(first, count)| claim(&mut times, first, count));
    }
    if depth != 0 {
        for (node, _) in used(slots).filter(|&(node, _)| (DATA_AREA..image.len() / BLOCK_SIZE).contains(&node)) {
            claim(&mut times, node, 1);
            used(&image[node * BLOCK_SIZE..][..BLOCK_SIZE]).for_each(|(first, count)| claim(&mut times, first, count));
        }
    }
    times
}

/// One claim more for each block of an extent that is in the data area.
fn claim(times: &mut [u8], first: usize, count: usize) {
    let end = times.len().min(first + count);
    times.iter_mut().take(end).skip(first.max(DATA_AREA)).for_each(|n| *n = n.saturating_add(1));
}

/// The slots that are not zero: a block and a count.
fn used(slots: &[u8]) -> impl Iterator<Item = (usize, usize)> + '_ {
    let number = |low, high| usize::from(u16::from_le_bytes([low, high]));
    slots.chunks_exact(4).map(move |s| (number(s[0], s[1]), number(s[2], s[3]))).filter(|&slot| slot != (0, 0))
}

/// The image with this record alone: no log, no other record, and a bit table for the blocks that it claims.
pub fn alone(image: &[u8], record: &Record) -> Vec<u8> {
    let mut lone = image.to_vec();
    let blocks = image.len() / BLOCK_SIZE;
    lone[..BLOCK_SIZE].fill(0);
    lone[BIT_TABLE * BLOCK_SIZE..DATA_AREA * BLOCK_SIZE].fill(0);
    let at = place(record.number);
    lone[at..at + RECORD_SIZE].copy_from_slice(&image[at..at + RECORD_SIZE]);
    let table = &mut lone[BIT_TABLE * BLOCK_SIZE..RECORD_AREA * BLOCK_SIZE];
    let outside = (0..DATA_AREA).chain(blocks..8 * BLOCK_SIZE);
    for b in outside.chain(record.claims.iter().copied()) {
        table[b / 8] |= 1 << (b % 8);
    }
    lone
}

/// The first block that two records claim, and the number of the other record.
pub fn contest(records: &[Record], one: &Record) -> Option<(usize, usize)> {
    let claims = |block: &usize| records.iter().find(|r| r.number != one.number && r.claims(*block));
    one.claims.iter().find_map(|block| Some((*block, claims(block)?.number)))
}

#[cfg(test)]
mod tests {
    use super::*;
    use purse::{Store, WORK_SIZE};

    const A: &[u8] = b"card000A";
    const B: &[u8] = b"card000B";

    /// A box whose two purses grew in turn, so that both have an extent block.
    fn grown() -> Vec<u8> {
        let (mut image, mut work) = (vec![0; 64 * 512], vec![0; WORK_SIZE]);
        let mut store = Store::new(&mut image, &mut work);
        store.format().unwrap();
        store.open().unwrap();
        store.create(A).unwrap();
        store.create(B).unwrap();
        for k in 1..=5 {
            store.set_size(A, 512 * k).unwrap();
            store.set_size(B, 512 * k).unwrap();
            store.commit_in_memory().unwrap();
        }
        image
    }

    fn opens(image: &mut [u8]) -> bool {
        let mut work = vec![0; WORK_SIZE];
        Store::new(image, &mut work).open().is_ok()
    }

    #[test]
    fn records_of_a_sound_box_stand_alone() {
        let image = grown();
        let all = records(&image);
        assert_eq!(all.len(), 2);
        assert_eq!(all[0].claims, [42, 44, 46, 48, 50, 51]);
        for record in &all {
            assert!(opens(&mut alone(&image, record)));
            assert_eq!(contest(&all, record), None);
        }
    }

    #[test]
    fn one_damaged_record_leaves_the_other() {
        let mut image = grown();
        image[place(0) + 9] ^= 1;
        assert!(!opens(&mut image));
        let all = records(&image);
        assert!(!opens(&mut alone(&image, &all[0])));
        assert!(opens(&mut alone(&image, &all[1])));
    }

    #[test]
    fn a_block_with_two_owners_is_told() {
        let mut image = grown();
        // The first slot of B's extent block names A's first block.
        let node = usize::from(image[place(1) + 16]);
        image[node * BLOCK_SIZE] = 42;
        let all = records(&image);
        assert_eq!(contest(&all, &all[0]), Some((42, 1)));
        assert_eq!(contest(&all, &all[1]), Some((42, 0)));
    }

    #[test]
    fn a_block_that_a_record_has_more_than_once_is_told() {
        let mut image = grown();
        let node = usize::from(image[place(1) + 16]);
        image[node * BLOCK_SIZE] = node as u8;
        let all = records(&image);
        assert_eq!((&all[0].again[..], &all[1].again[..]), (&[][..], &[node][..]));
        assert!(all[1].claims(node) && !all[1].claims(43));
        // Neither depth 0 nor 1: as data and as an extent block.
        image[place(0) + 12] = 7;
        assert_eq!(records(&image)[0].again, [51]);
    }

    #[test]
    fn any_bytes_are_read() {
        for fill in [1, 42, 63, 0xff] {
            let mut image = vec![fill; 64 * 512];
            image[place(3) + 12] = 0;
            let all = records(&image);
            assert_eq!(all.len(), RECORDS);
            all.iter().for_each(|r| assert!(alone(&image, r).len() == image.len()));
        }
    }
}
