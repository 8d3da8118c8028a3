//! Commit and recovery: the sequence of stores and the list in block 0.

use crate::mutant;
use crate::types::*;
use crate::view::{block_of, Block};

const LIST_RECORD: usize = 16;

/// "Bytes 0 and 1 of record i are a target block; the other 14 are zero."
fn target(record: &[u8]) -> u32 {
    u16::from_le_bytes([record[0], record[1]]) as u32
}

/// Targets in ascending order, or in record order.
struct Targets {
    list: [u32; LOG_LENGTH],
    count: usize,
}

impl Targets {
    fn list(&self) -> &[u32] {
        &self.list[..self.count]
    }

    /// "images in ascending order of target"
    fn staged(session: &Session) -> Self {
        let mut targets = Targets { list: session.staged, count: session.staged().len() };
        if !mutant::on(7) {
            targets.list[..targets.count].sort_unstable();
        }
        targets
    }

    /// "Target 0 means empty."
    fn listed(block: &Block) -> Self {
        let mut targets = Targets { list: [0; LOG_LENGTH], count: 0 };
        for t in block.chunks_exact(LIST_RECORD).map(target).take_while(|&t| t != 0) {
            targets.list[targets.count] = t;
            targets.count += 1;
        }
        targets
    }

    /// Whether a log may list them: at least one, within 33 to N-1, none twice.
    fn allowed(&self, blocks: usize) -> bool {
        let inside = |t: &u32| *t >= BIT_TABLE && (*t as usize) < blocks;
        let list = self.list();
        let distinct = list.windows(2).all(|w| w[0] < w[1]) || (1..list.len()).all(|i| !list[..i].contains(&list[i]));
        !list.is_empty() && list.iter().all(inside) && distinct
    }
}

/// 10: "Commit block wrong, with the lowest record that is"; otherwise how many records are used.
pub fn used_records(device: &[u8]) -> Result<usize, Refusal> {
    let blocks = device.len() / BLOCK;
    let (mut seen, mut count) = ([0; LOG_LENGTH], 0);
    for (i, record) in block_of(device, 0).chunks_exact(LIST_RECORD).enumerate() {
        let t = target(record);
        let inside = t >= BIT_TABLE && (t as usize) < blocks;
        let used_right = t == 0 || (inside && count == i && !seen[..count].contains(&t));
        if !used_right || record[2..].iter().any(|&x| x != 0) {
            return Err(Refusal::BadHeader(i));
        }
        if t != 0 {
            seen[count] = t;
            count += 1;
        }
    }
    Ok(count)
}

/// Makes the store at the place reached, if there is one, and moves on.
pub fn advance(device: &mut [u8], work: &[u8], session: &mut Session) -> Option<Store> {
    let (targets, place) = match session.phase {
        Phase::Closed | Phase::Ready => return None,
        Phase::Committing(place) => (Targets::staged(session), place),
        Phase::Recovering(place) => (Targets::listed(block_of(device, 0)), place),
    };
    if !targets.allowed(session.blocks) {
        return None;
    }
    let k = targets.count;
    match session.phase {
        Phase::Committing(_) if place < 2 * k + 2 => {
            let block = commit_store(device, work, session, &targets, place);
            let next = if place == 2 * k + 1 { Phase::Ready } else { Phase::Committing(place + 1) };
            Some(report(session, block, place, next))
        }
        Phase::Recovering(_) if place <= k => {
            let block = redo(device, targets.list(), place);
            let next = if place == k { Phase::Closed } else { Phase::Recovering(place + 1) };
            Some(report(session, block, place, next))
        }
        _ => None,
    }
}

/// "the block stored, whether it was the last, and the number of stores since the commit or open began"
fn report(session: &mut Session, block: u32, place: usize, next: Phase) -> Store {
    let last = matches!(next, Phase::Ready | Phase::Closed);
    if last && !mutant::on(10) {
        *session = Session::fresh(session.blocks, next);
    }
    session.phase = next;
    Store { block, last, number: place + 1 }
}

/// "images in ascending order of target to 1, 2, and so on; block 0 with the list; each target; block 0
/// cleared"
fn commit_store(device: &mut [u8], work: &[u8], session: &Session, targets: &Targets, place: usize) -> u32 {
    let k = targets.count;
    if place < k {
        let image = session.staged().iter().position(|&s| s == targets.list[place]).unwrap_or(0);
        put(device, 1 + place as u32, block_of(work, image));
        return 1 + place as u32;
    }
    if place > k {
        return redo(device, targets.list(), place - k - 1);
    }
    let list = &mut device[..BLOCK];
    list.fill(0);
    for (record, t) in list.chunks_exact_mut(LIST_RECORD).zip(targets.list()) {
        record[..2].copy_from_slice(&(*t as u16).to_le_bytes());
    }
    0
}

/// Step `i` of "k targets in record order and the clearing".
fn redo(device: &mut [u8], targets: &[u32], i: usize) -> u32 {
    let k = targets.len();
    let i = if mutant::on(6) && i + 1 >= k { 2 * k - 1 - i } else { i };
    match targets.get(i) {
        Some(&t) => {
            let at = (1 + i) * BLOCK;
            device.copy_within(at..at + BLOCK, t as usize * BLOCK);
            t
        }
        None => {
            device[..BLOCK].fill(0);
            0
        }
    }
}

fn put(device: &mut [u8], block: u32, content: &Block) {
    let at = block as usize * BLOCK;
    device[at..at + BLOCK].copy_from_slice(content);
}
