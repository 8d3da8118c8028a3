//! What is wrong with a damaged box. The library names the record or the block; this only says what else the image shows of it, for the
//! person who has to act on it.

use purse::{Refusal, BLOCK_SIZE, FEWEST_BLOCKS, MOST_BLOCKS};

use crate::report::Trouble;
use crate::rules::broken;
use crate::scan::{records, Record};

const BIT_TABLE: usize = 33;
const DATA_AREA: usize = 42;
const LISTED_SIZE: usize = 16;

/// A refusal of an image, with what the image shows of the damage.
pub fn refused(image: &[u8], refusal: Refusal) -> Trouble {
    Trouble::Refused(refusal, explain(image, refusal))
}

/// What an image shows of the record or block that a refusal of it names, to stand behind the sentence; nothing where it shows nothing.
pub fn explain(image: &[u8], refusal: Refusal) -> String {
    if !(FEWEST_BLOCKS..=MOST_BLOCKS).contains(&(image.len() / BLOCK_SIZE)) {
        return String::new();
    }
    let shown = match refusal {
        Refusal::BadHeader(record) => place(record).and_then(|i| of_list(image, i)),
        Refusal::DamagedRecord(record) => place(record).and_then(|i| of_record(image, i)),
        Refusal::DamagedBlock(block) => place(block).and_then(|b| of_block(image, b)),
        _ => None,
    };
    shown.map_or(String::new(), |words| format!("; {words}"))
}

fn place(number: u64) -> Option<usize> {
    usize::try_from(number).ok()
}

/// Of record i in the list of block 0.
fn of_list(image: &[u8], i: usize) -> Option<String> {
    let listed: Vec<&[u8]> = image[..BLOCK_SIZE].chunks_exact(LISTED_SIZE).collect();
    let target = |record: &[u8]| usize::from(u16::from_le_bytes([record[0], record[1]]));
    let (record, blocks) = (*listed.get(i)?, image.len() / BLOCK_SIZE);
    let before = |wanted| listed[..i].iter().position(|r| target(r) == wanted);
    let block = target(record);
    if block != 0 {
        if !(BIT_TABLE..blocks).contains(&block) {
            return Some(format!("its target is block {block}, and only {BIT_TABLE} to {} can be one", blocks - 1));
        }
        if let Some(other) = before(block) {
            return Some(format!("its target is block {block}, which record {other} has too"));
        }
        if let Some(other) = before(0) {
            return Some(format!("record {other} before it is empty"));
        }
    }
    record[2..].iter().any(|&b| b != 0).then(|| "it has other bytes than a target".into())
}

/// Of file record i. Of equal names the later one counts as damaged.
fn of_record(image: &[u8], i: usize) -> Option<String> {
    let all = records(image);
    let record = all.iter().find(|r| r.number == i)?;
    let Some(name) = record.name else {
        return Some("it has no name, but other bytes".into());
    };
    if let Some(first) = all.iter().find(|r| r.number < i && r.name == Some(name)) {
        return Some(format!("its name is {name}, which record {} has too", first.number));
    }
    Some(match broken(image, record.bytes) {
        Some(rule) => format!("its name is {name}; {rule}"),
        None => format!("its name is {name}"),
    })
}

/// Of block b, where all records are sound.
fn of_block(image: &[u8], b: usize) -> Option<String> {
    let table = &image[BIT_TABLE * BLOCK_SIZE..][..BLOCK_SIZE];
    let free = table.get(b / 8)? >> (b % 8) & 1 == 0;
    if !(DATA_AREA..image.len() / BLOCK_SIZE).contains(&b) {
        let whose = if b < DATA_AREA { "it belongs to the store itself" } else { "it lies behind the end of the box" };
        return free.then(|| format!("{whose}, but is marked free"));
    }
    let all = records(image);
    let owners: Vec<&Record> = all.iter().filter(|r| r.claims(b)).collect();
    match owners[..] {
        [] => (!free).then(|| "it is marked in use, but no purse has it".into()),
        [one] if one.again.contains(&b) => Some(format!("{} has it more than once", called(one))),
        [one] => free.then(|| format!("it is marked free, but {} has it", called(one))),
        [one, other] => Some(format!("{} and {} both have it", called(one), called(other))),
        [one, other, ..] => Some(format!("{}, {} and {} more have it", called(one), called(other), owners.len() - 2)),
    }
}

/// A record by number and name.
fn called(record: &Record) -> String {
    match record.name {
        Some(name) => format!("record {} ({name})", record.number),
        None => format!("record {}", record.number),
    }
}

#[cfg(test)]
mod tests {
    use super::*;
    use Refusal::{BadHeader, DamagedBlock, DamagedRecord};

    const RECORD_AREA: usize = 34;

    /// Byte k of file record i.
    fn at(i: usize, k: usize) -> usize {
        RECORD_AREA * BLOCK_SIZE + 32 * i + k
    }

    fn set(image: &mut [u8], place: usize, bytes: &[u8]) {
        image[place..place + bytes.len()].copy_from_slice(bytes);
    }

    fn mark(image: &mut [u8], b: usize, used: bool) {
        let byte = &mut image[BIT_TABLE * BLOCK_SIZE + b / 8];
        *byte = *byte & !(1 << (b % 8)) | u8::from(used) << (b % 8);
    }

    /// 64 blocks: record 2 has 42 and 43, record 5 the blocks 44, 46, 48, 50 and 52 and the extent block 54, record 9 none.
    fn sound() -> Vec<u8> {
        let mut image = vec![0; 64 * BLOCK_SIZE];
        set(&mut image, at(2, 0), &[1, 2, 3, 4, 5, 6, 7, 8, 88, 2, 0, 0, 0, 0, 0, 0, 42, 0, 2, 0]);
        set(&mut image, at(5, 0), &[0x42, 0x42, 0x42, 0x42, 0x42, 0x42, 0x42, 0x42, 0, 10, 0, 0, 1, 0, 0, 0, 54, 0, 5, 0]);
        set(&mut image, at(9, 0), &[0x43; 8]);
        set(&mut image, 54 * BLOCK_SIZE, &[44, 0, 1, 0, 46, 0, 1, 0, 48, 0, 1, 0, 50, 0, 1, 0, 52, 0, 1, 0]);
        for b in (0..44).chain([44, 46, 48, 50, 52, 54]).chain(64..8 * BLOCK_SIZE) {
            mark(&mut image, b, true);
        }
        image
    }

    /// What is shown of the sound box with a change.
    fn shown(refusal: Refusal, change: impl FnOnce(&mut [u8])) -> String {
        let mut image = sound();
        change(&mut image);
        explain(&image, refusal)
    }

    #[test]
    fn records_are_shown() {
        let name = |image: &mut [u8], i| set(image, at(i, 0), &[1, 2, 3, 4, 5, 6, 7, 8]);
        let twice = "; its name is 0102030405060708, which record 2 has too";
        assert_eq!(shown(DamagedRecord(5), |image| name(image, 5)), twice);
        assert_eq!(shown(DamagedRecord(9), |image| [5, 9].into_iter().for_each(|i| name(image, i))), twice);
        assert_eq!(shown(DamagedRecord(3), |image| image[at(3, 20)] = 1), "; it has no name, but other bytes");
        assert_eq!(shown(DamagedRecord(2), |_| ()), "; its name is 0102030405060708");
        assert_eq!(shown(DamagedRecord(3), |_| ()), "");
    }

    #[test]
    fn broken_rules_are_shown() {
        let of_a = |change: &dyn Fn(&mut [u8])| shown(DamagedRecord(2), change).replace("; its name is 0102030405060708; ", "");
        let slots = |bytes: &'static [u8]| move |image: &mut [u8]| set(image, at(2, 16), bytes);
        assert_eq!(of_a(&|image| image[at(2, 10)] = 16), "its size is 1049176, more than 1048576");
        assert_eq!(of_a(&|image| image[at(2, 12)] = 2), "its depth is 2, neither 0 nor 1");
        assert_eq!(of_a(&|image| image[at(2, 15)] = 1), "its bytes 13 to 15 are not zero");
        assert_eq!(of_a(&|image| image[at(2, 20)] = 50), "slot 1 of the record has no count");
        assert_eq!(of_a(&|image| image[at(2, 24)] = 50), "slot 2 of the record is behind an unused one");
        assert_eq!(of_a(&|image| image[at(2, 16)] = 41), "it has block 41, outside of 42 to 63");
        assert_eq!(of_a(&|image| image[at(2, 16)] = 63), "it has block 64, outside of 42 to 63");
        assert_eq!(of_a(&|image| image[at(2, 17)] = 1), "it has block 298, outside of 42 to 63");
        assert_eq!(of_a(&|image| image[at(2, 18)] = 1), "it has 1 block, and its size of 600 asks for 2");
        assert_eq!(of_a(&slots(&[42, 0, 1, 0, 43, 0, 1, 0])), "two of its extents touch at block 43");
        assert_eq!(of_a(&|image| image[43 * BLOCK_SIZE + 88] = 1), "bytes behind its end, in block 43, are not zero");
        assert_eq!(of_a(&|image| image[44 * BLOCK_SIZE - 1] = 1), "bytes behind its end, in block 43, are not zero");
        let last_blocks = |image: &mut [u8]| (set(image, at(2, 16), &[62]), image[63 * BLOCK_SIZE + 88] = 1).1;
        assert_eq!(of_a(&last_blocks), "bytes behind its end, in block 63, are not zero");
        let of_b = |change: &dyn Fn(&mut [u8])| shown(DamagedRecord(5), change).replace("; its name is 4242424242424242; ", "");
        assert_eq!(of_b(&|image| image[at(5, 16)] = 41), "its extent block 41 is outside of 42 to 63");
        assert_eq!(of_b(&|image| image[at(5, 17)] = 1), "its extent block 310 is outside of 42 to 63");
        assert_eq!(of_b(&|image| image[at(5, 18)] = 6), "its extent block 54 lists 5 blocks, and its record 6");
        assert_eq!(of_b(&|image| image[54 * BLOCK_SIZE + 24] = 50), "slot 6 of extent block 54 is behind an unused one");
        assert_eq!(of_b(&|image| image[54 * BLOCK_SIZE + 20] = 50), "slot 5 of extent block 54 has no count");
        assert_eq!(of_b(&|image| image[54 * BLOCK_SIZE] = 64), "it has block 64, outside of 42 to 63");
        assert_eq!(of_b(&|image| image[at(5, 9)] = 12), "it has 5 blocks, and its size of 3072 asks for 6");
        let two_blocks = |image: &mut [u8]| {
            set(image, at(5, 16), &[54, 0, 3, 0, 55, 0, 2, 0]);
            set(image, 54 * BLOCK_SIZE + 12, &[0; 8]);
            set(image, 55 * BLOCK_SIZE, &[50, 0, 1, 0, 52, 0, 1, 0]);
        };
        assert_eq!(of_b(&two_blocks), "its extent block 54 has 3 extents, and is not the last");
        let one_extent = |image: &mut [u8]| set(image, 54 * BLOCK_SIZE, &[44, 0, 5, 0, 0, 0, 0, 0, 0, 0, 0, 0, 0, 0, 0, 0, 0, 0, 0, 0]);
        assert_eq!(of_b(&one_extent), "it has 1 extent, and its depth is 1");
        // Read at depth 0 it is one extent from 54 on, and fine.
        assert_eq!(of_b(&|image| image[at(5, 12)] = 0), "; its name is 4242424242424242");
    }

    #[test]
    fn blocks_are_shown() {
        let (a, b) = ("record 2 (0102030405060708)", "record 5 (4242424242424242)");
        let twice = |image: &mut [u8]| set(image, at(2, 16), &[43, 0, 1, 0, 43, 0, 1, 0]);
        assert_eq!(shown(DamagedBlock(42), twice), "; it is marked in use, but no purse has it");
        assert_eq!(shown(DamagedBlock(43), twice), format!("; {a} has it more than once"));
        let node = |image: &mut [u8]| image[54 * BLOCK_SIZE] = 54;
        assert_eq!(shown(DamagedBlock(44), node), "; it is marked in use, but no purse has it");
        assert_eq!(shown(DamagedBlock(54), node), format!("; {b} has it more than once"));
        let shared = |image: &mut [u8]| image[54 * BLOCK_SIZE] = 43;
        assert_eq!(shown(DamagedBlock(43), shared), format!("; {a} and {b} both have it"));
        let thrice = |image: &mut [u8]| {
            shared(image);
            set(image, at(9, 8), &[0, 2, 0, 0, 0, 0, 0, 0, 43, 0, 1, 0]);
        };
        assert_eq!(shown(DamagedBlock(43), thrice), format!("; {a}, {b} and 1 more have it"));
        assert_eq!(shown(DamagedBlock(43), |image| mark(image, 43, false)), format!("; it is marked free, but {a} has it"));
        assert_eq!(shown(DamagedBlock(54), |image| mark(image, 54, false)), format!("; it is marked free, but {b} has it"));
        assert_eq!(shown(DamagedBlock(60), |image| mark(image, 60, true)), "; it is marked in use, but no purse has it");
        for b in [0, 41] {
            assert_eq!(
                shown(DamagedBlock(b), |image| mark(image, b as usize, false)),
                "; it belongs to the store itself, but is marked free"
            );
        }
        for b in [64, 100, 4095] {
            let wanted = "; it lies behind the end of the box, but is marked free";
            assert_eq!(shown(DamagedBlock(b), |image| mark(image, b as usize, false)), wanted);
        }
    }

    #[test]
    fn lists_are_shown() {
        let list = |targets: &[(usize, u8)]| {
            let mut image = sound();
            targets.iter().for_each(|&(i, target)| image[LISTED_SIZE * i] = target);
            image
        };
        let shown = |targets: &[(usize, u8)], i| explain(&list(targets), BadHeader(i));
        assert_eq!(shown(&[(0, 33), (1, 33)], 1), "; its target is block 33, which record 0 has too");
        assert_eq!(shown(&[(0, 32)], 0), "; its target is block 32, and only 33 to 63 can be one");
        assert_eq!(shown(&[(0, 33), (1, 64)], 1), "; its target is block 64, and only 33 to 63 can be one");
        assert_eq!(shown(&[(0, 33), (2, 34)], 2), "; record 1 before it is empty");
        let mut image = list(&[(0, 33)]);
        image[LISTED_SIZE + 15] = 1;
        assert_eq!(explain(&image, BadHeader(1)), "; it has other bytes than a target");
        assert_eq!(explain(&image, BadHeader(0)), "");
    }

    #[test]
    fn nothing_is_shown_where_there_is_nothing() {
        for number in 0..8 * BLOCK_SIZE as u64 {
            let shown = [BadHeader(number), DamagedBlock(number)].map(|refusal| explain(&sound(), refusal));
            assert_eq!(shown, ["", ""], "{number}");
        }
        for number in [4096, u64::MAX] {
            let refusals = [BadHeader(number), DamagedRecord(number), DamagedBlock(number)];
            assert_eq!(refusals.map(|refusal| explain(&sound(), refusal)), ["", "", ""]);
        }
        assert_eq!(explain(&sound(), Refusal::NoSpace), "");
    }

    #[test]
    fn any_bytes_are_explained() {
        let mut image = vec![0; MOST_BLOCKS * BLOCK_SIZE + 1];
        for fill in [0, 1, 42, 63, 0xff] {
            image.fill(fill);
            for length in [0, 1, 512, 63 * BLOCK_SIZE, 64 * BLOCK_SIZE, 64 * BLOCK_SIZE + 1, image.len() - 1, image.len()] {
                for number in [0, 41, 42, 63, 64, 127, 4095, u64::MAX] {
                    for refusal in [BadHeader(number), DamagedRecord(number), DamagedBlock(number)] {
                        explain(&image[..length], refusal);
                    }
                }
            }
        }
    }
}
