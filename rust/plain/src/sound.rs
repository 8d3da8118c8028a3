//! "A sound device": S1 to S8, and which record or block is damaged (document 02, A2).

use crate::bits::Bits;
use crate::mutant;
use crate::tree::{all_slots, blocks_for, is_deep, nodes_for, size_of, top, used_slots, Record, TOP_SLOTS};
use crate::types::*;
use crate::view::{block_of, View};

/// The rule that is broken. `Log`: "Block 0 is all zero" does not hold.
#[derive(Clone, Copy, Debug, PartialEq, Eq)]
pub enum Rule {
    Log,
    S1,
    S2,
    S3,
    S4,
    S5,
    S6,
    S7,
    S8,
}

/// What is damaged, and a rule that is broken there.
#[derive(Clone, Copy, Debug, PartialEq, Eq)]
pub enum Damage {
    /// "If some record breaks S2 to S6 or S8 we want the lowest such record"
    Record(usize, Rule),
    /// "If all records are fine but S1 or S7 fails, we want the lowest block whose bit is wrong or which is
    /// reached twice."
    Block(usize, Rule),
}

impl Damage {
    /// 22 and 23.
    pub fn refusal(self) -> Refusal {
        match self {
            Damage::Record(i, _) => Refusal::DamagedRecord(i),
            Damage::Block(b, _) => Refusal::DamagedBlock(b),
        }
    }
}

type Names = [u64; RECORD_COUNT];

fn require(holds: bool, rule: Rule) -> Result<(), Rule> {
    if holds {
        Ok(())
    } else {
        Err(rule)
    }
}

fn all_zero(bytes: &[u8]) -> bool {
    bytes.iter().fold(0, |a, b| a | b) == 0
}

/// All of "A sound device".
pub fn check_whole(device: &[u8]) -> Result<(), Damage> {
    require(all_zero(block_of(device, 0)), Rule::Log).map_err(|rule| Damage::Block(0, rule))?;
    check(device)
}

/// S1 to S8. "22 comes before 23": first the records in order, then the blocks.
pub fn check(device: &[u8]) -> Result<(), Damage> {
    let blocks = device.len() / BLOCK;
    let view = View::bare(device);
    let names: Names = std::array::from_fn(|i| name_of(view.record(i)));
    for i in 0..RECORD_COUNT {
        check_record(view, blocks, &names, i).map_err(|rule| Damage::Record(i, rule))?;
    }
    match damaged_block(view, blocks) {
        Some(b) if (DATA as usize..blocks).contains(&b) => Err(Damage::Block(b, Rule::S7)),
        Some(b) => Err(Damage::Block(b, Rule::S1)),
        None => Ok(()),
    }
}

/// The name as a number, 0 if the record is empty.
fn name_of(record: &Record) -> u64 {
    u64::from_le_bytes(*record.first_chunk().expect("a name of 8 bytes"))
}

/// S2 to S6 and S8 of one record.
fn check_record(view: View, blocks: usize, names: &Names, i: usize) -> Result<(), Rule> {
    let record = view.record(i);
    if names[i] == 0 {
        return require(all_zero(record), Rule::S2);
    }
    require(!is_later_one(names, i), Rule::S2)?;
    check_file(view, record, blocks)
}

/// S2: "Names differ pairwise"; "for equal names it is the later one".
fn is_later_one(names: &Names, i: usize) -> bool {
    let others = if mutant::on(17) { &names[i + 1..] } else { &names[..i] };
    others.contains(&names[i])
}

/// S3 to S6 and S8 of one file.
fn check_file(view: View, record: &Record, blocks: usize) -> Result<(), Rule> {
    let size = size_of(record);
    require(size <= MAX_FILE_SIZE && record[12] <= 1 && record[13..16] == [0; 3], Rule::S3)?;
    packed(top(record))?;
    let mut seen = Seen { blocks, count: 0, sum: 0, end: 0 };
    if is_deep(record) {
        deep(view, record, &mut seen)?;
    } else {
        seen.extents(top(record))?;
    }
    require(seen.sum == blocks_for(size), Rule::S5)?;
    let nodes = if is_deep(record) { used_slots(top(record)).count() } else { 0 };
    require(is_deep(record) == (seen.count > TOP_SLOTS) && nodes == nodes_for(seen.count), Rule::S6)?;
    let tail = size as usize % BLOCK;
    require(tail == 0 || all_zero(&view.block(seen.end - 1)[tail..]), Rule::S8)
}

/// S4: "Used slots come first and have a count of at least 1; the others are zero."
fn packed(slots: &[u8]) -> Result<(), Rule> {
    let used = used_slots(slots).count();
    require(all_zero(&slots[used * 4..]), Rule::S4)
}

/// What was seen of a file's extents so far.
struct Seen {
    blocks: usize,
    count: usize,
    sum: usize,
    /// The block behind the last extent.
    end: u32,
}

impl Seen {
    /// "Extents and extent blocks stay within 42 to N-1."
    fn inside(&self, e: Extent) -> Result<(), Rule> {
        require(e.first >= DATA && (e.first + e.count) as usize <= self.blocks, Rule::S4)
    }

    /// The extents of one list of slots: S4, and S6's "No extent begins where the one before it ends."
    fn extents(&mut self, slots: &[u8]) -> Result<(), Rule> {
        for e in used_slots(slots) {
            self.inside(e)?;
            require(e.first != self.end, Rule::S6)?;
            self.end = e.first + e.count;
            self.count += 1;
            self.sum += e.count as usize;
        }
        Ok(())
    }
}

/// Depth 1: S4 and S5 of each extent block, and "packed, 128 to each but the last".
fn deep(view: View, record: &Record, seen: &mut Seen) -> Result<(), Rule> {
    let nodes = used_slots(top(record)).count();
    for (i, node) in used_slots(top(record)).enumerate() {
        seen.inside(extent_block(node))?;
        let (slots, before) = (view.block(node.first), seen.sum);
        packed(slots)?;
        seen.extents(slots)?;
        require(seen.sum - before == node.count as usize, Rule::S5)?;
        require(i + 1 == nodes || all_slots(slots).all(|e| e.count > 0), Rule::S6)?;
    }
    Ok(())
}

/// The extent block that a slot names: its count is of the data blocks below.
fn extent_block(node: Extent) -> Extent {
    Extent { first: node.first, count: 1 }
}

/// S1 and S7 where all records are fine: "the lowest block whose bit is wrong or which is reached twice".
fn damaged_block(view: View, blocks: usize) -> Option<usize> {
    let (mut due, mut twice) = (Bits::outside(blocks), Bits::empty());
    each_extent(view, |e| due.claim(e.first as usize, e.count as usize, &mut twice));
    let mut wrong = Bits::load(view.block(BIT_TABLE)).differing(&due);
    if mutant::on(18) {
        return twice.lowest().or(wrong.lowest());
    }
    if mutant::on(19) {
        wrong.clear(0, DATA as usize);
    }
    wrong.join(&twice);
    wrong.lowest()
}

/// All stretches of blocks that the files reach, "as data or extent block".
fn each_extent(view: View, mut reach: impl FnMut(Extent)) {
    for record in (0..RECORD_COUNT).map(|i| view.record(i)) {
        if is_deep(record) {
            for node in used_slots(top(record)) {
                reach(extent_block(node));
                used_slots(view.block(node.first)).for_each(&mut reach);
            }
        } else {
            used_slots(top(record)).for_each(&mut reach);
        }
    }
}
