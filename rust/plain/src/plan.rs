//! A change of one call: planned on local values, staged only when no refusal is left.

use crate::bits::Bits;
use crate::mutant;
use crate::tree::{all_slots, blocks_for, nodes_for, put_slots, size_of, Record, Tree};
use crate::types::*;
use crate::view::{block_of, record_place, View};

/// Why a block is staged, which tells its new content.
#[derive(Clone, Copy)]
enum Edit {
    /// A data block that the file had, at this place of it.
    Held(usize),
    /// A new data block, at this place of the file.
    New(usize),
    /// The last kept block.
    Tail,
    /// The extent block of this number in the file.
    Node(usize),
    Table,
    Record,
}

impl Edit {
    /// Whether a part of the old content stays.
    fn keeps(self) -> bool {
        matches!(self, Edit::Held(_) | Edit::Tail | Edit::Record)
    }
}

/// The blocks that a call stages, each once. "More than 32 blocks would be staged" is told at once.
struct Edits {
    list: [(u32, Edit); LOG_LENGTH],
    count: usize,
    /// Staged before, and by this call.
    staged: usize,
}

impl Edits {
    fn new(view: View) -> Self {
        Edits { list: [(0, Edit::Table); LOG_LENGTH], count: 0, staged: view.staged_count() }
    }

    fn add(&mut self, view: View, block: u32, edit: Edit) -> Result<(), Refusal> {
        // Damaged trees only: a block of several uses gets the content that comes last (open case 2).
        if let Some(cell) = self.list[..self.count].iter_mut().find(|c| c.0 == block) {
            cell.1 = edit;
            return Ok(());
        }
        self.staged += !view.is_staged(block) as usize;
        if self.staged > LOG_LENGTH {
            return Err(Refusal::TooManyStaged);
        }
        self.list[self.count] = (block, edit);
        self.count += 1;
        Ok(())
    }

    /// "Image i of the work space is that of the i-th block staged, within a call ascending"
    fn stage(&mut self, device: &[u8], work: &mut [u8], session: &mut Session, draw: impl Fn(Edit, &mut [u8])) {
        // Tampered sessions only: a count past 32 becomes 32 (open case 1).
        session.count = session.staged().len();
        let list = &mut self.list[..self.count];
        list.sort_unstable_by_key(|c| c.0);
        for &(block, edit) in list.iter() {
            let before = session.staged().iter().position(|&s| s == block);
            let i = before.unwrap_or(session.count);
            let image = &mut work[i * BLOCK..(i + 1) * BLOCK];
            if before.is_none() {
                session.staged[i] = block;
                session.count += 1;
                if edit.keeps() {
                    image.copy_from_slice(block_of(device, block as usize));
                }
            }
            draw(edit, image);
        }
    }
}

fn put_record(image: &mut [u8], index: usize, record: &Record) {
    let (_, at) = record_place(index);
    image[at..at + RECORD_SIZE].copy_from_slice(record);
}

/// Gives a record other bytes and changes nothing else.
pub fn set_record(device: &[u8], work: &mut [u8], session: &mut Session, index: usize, record: Record) -> Result<(), Refusal> {
    let view = View::new(device, work, session);
    let mut edits = Edits::new(view);
    if *view.record(index) != record {
        edits.add(view, record_place(index).0, Edit::Record)?;
    }
    edits.stage(device, work, session, |_, image| put_record(image, index, &record));
    Ok(())
}

/// What write, set-size and remove ask of a file.
pub struct Wish<'a> {
    pub index: usize,
    /// The size afterwards; none: the file goes.
    pub size: Option<u64>,
    pub x: usize,
    pub data: &'a [u8],
}

/// The file as it will be.
struct Plan<'a> {
    wish: &'a Wish<'a>,
    record: Record,
    tree: Tree,
    bits: Bits,
    /// Data and extent blocks that the file has before and after; those behind are new.
    held: usize,
    held_nodes: usize,
}

/// Plans and stages a change of a file's size or bytes.
pub fn change(device: &[u8], work: &mut [u8], session: &mut Session, wish: &Wish) -> Result<(), Refusal> {
    let view = View::new(device, work, session);
    let plan = Plan::new(view, wish)?;
    let mut edits = plan.edits(view)?;
    edits.stage(device, work, session, |edit, image| plan.draw(edit, image));
    Ok(())
}

impl<'a> Plan<'a> {
    fn new(view: View, wish: &'a Wish) -> Result<Self, Refusal> {
        let old = view.record(wish.index);
        let (tree, bits) = (Tree::new(view, old), Bits::load(view.block(BIT_TABLE)));
        let mut plan = Plan { wish, record: [0; RECORD_SIZE], held: 0, held_nodes: 0, tree, bits };
        let blocks = blocks_for(wish.size.unwrap_or(0));
        plan.held = plan.tree.blocks().min(blocks);
        plan.lengthen(blocks)?;
        plan.shorten(blocks);
        if let Some(size) = wish.size {
            plan.record[..8].copy_from_slice(&old[..8]);
            plan.record[8..12].copy_from_slice(&(size as u32).to_le_bytes());
            plan.tree.put(&mut plan.record);
        }
        Ok(plan)
    }

    /// "New blocks: first the data blocks in file order, each the lowest free one in the working bit
    /// table, then extent blocks likewise."
    fn lengthen(&mut self, blocks: usize) -> Result<(), Refusal> {
        self.held_nodes = self.tree.nodes().len();
        let lacking = blocks.saturating_sub(self.tree.blocks());
        if lacking == 0 {
            return Ok(());
        }
        let free = self.bits.free();
        if lacking > free {
            return Err(Refusal::NoSpace);
        }
        let mut low = 0;
        for _ in 0..lacking {
            self.tree.grow(self.bits.take(&mut low));
        }
        let held = if mutant::on(8) { 0 } else { self.held_nodes };
        let wanted = nodes_for(self.tree.extent_count());
        if lacking + wanted.saturating_sub(held) > free {
            return Err(Refusal::NoSpace);
        }
        if self.tree.extent_count() > MAX_EXTENTS {
            return Err(Refusal::TooManyExtents);
        }
        for _ in self.held_nodes..wanted {
            self.tree.push_node(self.bits.take(&mut low));
        }
        Ok(())
    }

    /// "Remove and set-size give back every data and extent block no longer needed."
    fn shorten(&mut self, blocks: usize) {
        let bits = &mut self.bits;
        self.tree.cut(blocks, |e| bits.clear(e.first as usize, e.count as usize));
        let wanted = nodes_for(self.tree.extent_count());
        if wanted < self.tree.nodes().len() {
            self.tree.nodes()[wanted..].iter().for_each(|&b| bits.clear(b as usize, 1));
            self.tree.cut_nodes(wanted);
        }
        self.held_nodes = self.held_nodes.min(wanted);
    }

    /// The clauses of "A call stages". Their order counts only where a block has several uses.
    fn edits(&self, view: View) -> Result<Edits, Refusal> {
        let (mut edits, wish) = (Edits::new(view), self.wish);
        let old = view.record(wish.index);
        if self.record != *old {
            edits.add(view, record_place(wish.index).0, Edit::Record)?;
        }
        if !self.bits.same_as(view.block(BIT_TABLE)) {
            edits.add(view, BIT_TABLE, Edit::Table)?;
        }
        for (i, &b) in self.tree.nodes().iter().enumerate() {
            if i >= self.held_nodes || self.leaf_changes(view, i) {
                edits.add(view, b, Edit::Node(i))?;
            }
        }
        if !wish.data.is_empty() {
            let end = (wish.x + wish.data.len()).div_ceil(BLOCK);
            self.places(&mut edits, view, wish.x / BLOCK, end.min(self.held), Edit::Held)?;
        }
        self.places(&mut edits, view, self.held, self.tree.blocks(), Edit::New)?;
        if wish.size.is_some_and(|s| s < size_of(old) && s % BLOCK as u64 != 0) {
            self.places(&mut edits, view, self.tree.blocks() - 1, self.held, |_| Edit::Tail)?;
        }
        Ok(edits)
    }

    /// Adds the data blocks at some places.
    fn places(&self, edits: &mut Edits, view: View, from: usize, end: usize, edit: impl Fn(usize) -> Edit) -> Result<(), Refusal> {
        if from >= end {
            return Ok(());
        }
        self.tree.places(from, end).try_for_each(|(p, b)| edits.add(view, b, edit(p)))
    }

    /// "each extent block whose content changes"
    fn leaf_changes(&self, view: View, i: usize) -> bool {
        let unused = std::iter::repeat(Extent::default());
        let new = self.tree.leaf(i).iter().copied().chain(unused).take(NODE_SLOTS);
        !all_slots(view.block(self.tree.nodes()[i])).eq(new)
    }

    /// Turns the old content of a block into the new one.
    fn draw(&self, edit: Edit, image: &mut [u8]) {
        match edit {
            Edit::Held(place) => self.lay_over(place, image),
            Edit::New(place) => {
                image.fill(0);
                self.lay_over(place, image);
            }
            Edit::Tail if mutant::on(3) => {}
            Edit::Tail => image[(self.wish.size.unwrap_or(0) % BLOCK as u64) as usize..].fill(0),
            Edit::Node(i) => put_slots(image, self.tree.leaf(i).iter().copied()),
            Edit::Table => self.bits.store(image),
            Edit::Record => put_record(image, self.wish.index, &self.record),
        }
    }

    /// Lays the part of the data that belongs to a place over the block's bytes.
    fn lay_over(&self, place: usize, image: &mut [u8]) {
        let (x, data, start) = (self.wish.x, self.wish.data, place * BLOCK);
        let (from, to) = (x.max(start), (x + data.len()).min(start + BLOCK));
        if from < to {
            image[from - start..to - start].copy_from_slice(&data[from - x..to - x]);
        }
    }
}
