//! The calls. "Tests go in the order of these numbers."

use crate::bits::Bits;
use crate::journal;
use crate::mutant;
use crate::plan::{change, set_record, Wish};
use crate::sound::{self, Damage};
use crate::tree::{self, size_of, Record, Runs};
use crate::types::*;
use crate::view::View;

type Done = Result<(), Refusal>;
type Name = [u8; 8];

pub(crate) fn require(holds: bool, refusal: Refusal) -> Done {
    if holds {
        Ok(())
    } else {
        Err(refusal)
    }
}

/// 1: "not 512 times an allowed N"
fn length(device: &[u8]) -> Result<usize, Refusal> {
    let blocks = device.len() / BLOCK;
    let allowed = device.len().is_multiple_of(BLOCK) && (FEWEST_BLOCKS..=MOST_BLOCKS).contains(&blocks);
    require(allowed, Refusal::DeviceSize)?;
    Ok(blocks)
}

/// 1 and 2.
pub(crate) fn lent(device: &[u8], work: &[u8], session: &Session) -> Done {
    require(length(device)? == session.blocks, Refusal::DeviceSize)?;
    require(work.len() == WORK_SIZE, Refusal::WorkSize)
}

/// 3: "Name not 8 bytes, or all zero"
fn named(name: &[u8]) -> Result<Name, Refusal> {
    name.try_into().ok().filter(|n| *n != [0; 8]).ok_or(Refusal::BadName)
}

/// 12: "Session not ready"
fn ready(session: &Session) -> Done {
    require(session.phase == Phase::Ready, Refusal::NotReady)
}

/// 13: "Name unknown"
fn known(view: View, name: Name) -> Result<usize, Refusal> {
    view.find(name).ok_or(Refusal::Unknown)
}

/// 1, 2, 3, 12 and 13: the view and the record of a file.
fn file<'a>(device: &'a [u8], work: &'a [u8], session: &'a Session, name: &[u8]) -> Result<(View<'a>, usize), Refusal> {
    lent(device, work, session)?;
    let name = named(name)?;
    ready(session)?;
    let view = View::new(device, work, session);
    Ok((view, known(view, name)?))
}

/// Makes an empty store, all zero but the bit table, and a closed session.
pub fn format(device: &mut [u8], session: &mut Session) -> Done {
    let blocks = length(device)?;
    device.fill(0);
    let at = BIT_TABLE as usize * BLOCK;
    Bits::outside(blocks).store(&mut device[at..at + BLOCK]);
    *session = Session::fresh(blocks, Phase::Closed);
    Ok(())
}

/// "recovering if block 0 has a used record, else ready"
pub fn open(device: &[u8], session: &mut Session) -> Done {
    let blocks = length(device)?;
    let phase = if journal::used_records(device)? > 0 {
        Phase::Recovering(0)
    } else {
        sound::check(device).map_err(Damage::refusal)?;
        Phase::Ready
    };
    *session = Session::fresh(blocks, phase);
    Ok(())
}

/// "Each advance stores exactly one block"; none if nothing is under way.
pub fn advance(device: &mut [u8], work: &[u8], session: &mut Session) -> Result<Option<Store>, Refusal> {
    lent(device, work, session)?;
    Ok(journal::advance(device, work, session))
}

/// "Commit of k staged blocks starts 2k+2 stores and answers that number"
pub fn commit(device: &[u8], work: &[u8], session: &mut Session) -> Result<usize, Refusal> {
    lent(device, work, session)?;
    ready(session)?;
    match session.staged().len() {
        0 => Ok(0),
        k => {
            session.phase = Phase::Committing(0);
            Ok(2 * k + 2)
        }
    }
}

/// "Abort empties the transaction."
pub fn abort(device: &[u8], work: &[u8], session: &mut Session) -> Done {
    lent(device, work, session)?;
    ready(session)?;
    *session = Session::fresh(session.blocks, Phase::Ready);
    Ok(())
}

/// "Create takes the lowest empty record."
pub fn create(device: &[u8], work: &mut [u8], session: &mut Session, name: &[u8]) -> Done {
    lent(device, work, session)?;
    let name = named(name)?;
    ready(session)?;
    let view = View::new(device, work, session);
    require(view.find(name).is_none(), Refusal::Taken)?;
    let index = view.find([0; 8]).ok_or(Refusal::NoRecord)?;
    let mut record: Record = [0; RECORD_SIZE];
    record[..8].copy_from_slice(&name);
    set_record(device, work, session, index, record)
}

/// "Remove and set-size give back every data and extent block no longer needed."
pub fn remove(device: &[u8], work: &mut [u8], session: &mut Session, name: &[u8]) -> Done {
    let (_, index) = file(device, work, session, name)?;
    change(device, work, session, &Wish { index, size: None, x: 0, data: &[] })
}

/// "Rename keeps the record in its place."
pub fn rename(device: &[u8], work: &mut [u8], session: &mut Session, name: &[u8], new: &[u8]) -> Done {
    lent(device, work, session)?;
    let (name, new) = (named(name)?, named(new)?);
    ready(session)?;
    let view = View::new(device, work, session);
    if mutant::on(1) {
        require(view.find(new).is_none(), Refusal::Taken)?;
    }
    let index = known(view, name)?;
    require(view.find(new).is_none(), Refusal::Taken)?;
    let mut record = *view.record(index);
    record[..8].copy_from_slice(&new);
    set_record(device, work, session, index, record)
}

/// "the size becomes the larger of the old size and x plus the data length, a gap is zeros"
pub fn write(device: &[u8], work: &mut [u8], session: &mut Session, name: &[u8], x: u64, data: &[u8]) -> Done {
    lent(device, work, session)?;
    let name = named(name)?;
    let end = x.checked_add(data.len() as u64).filter(|&end| end <= MAX_FILE_SIZE).ok_or(Refusal::TooLarge)?;
    ready(session)?;
    let view = View::new(device, work, session);
    let index = known(view, name)?;
    let size = size_of(view.record(index)).max(end);
    change(device, work, session, &Wish { index, size: Some(size), x: x as usize, data })
}

/// Cuts a file, or lengthens it by zeros.
pub fn set_size(device: &[u8], work: &mut [u8], session: &mut Session, name: &[u8], size: u64) -> Done {
    lent(device, work, session)?;
    let name = named(name)?;
    require(size <= MAX_FILE_SIZE, Refusal::TooLarge)?;
    ready(session)?;
    let index = known(View::new(device, work, session), name)?;
    change(device, work, session, &Wish { index, size: Some(size), x: 0, data: &[] })
}

/// Copies bytes from place `x` on; "the rest of the buffer is unchanged, the number is the answer".
pub fn read(device: &[u8], work: &[u8], session: &Session, name: &[u8], x: u64, buffer: &mut [u8]) -> Result<usize, Refusal> {
    let (view, index) = file(device, work, session, name)?;
    Ok(tree::read(view, view.record(index), x, buffer))
}

pub fn size(device: &[u8], work: &[u8], session: &Session, name: &[u8]) -> Result<u64, Refusal> {
    let (view, index) = file(device, work, session, name)?;
    Ok(size_of(view.record(index)))
}

/// The free blocks: zero bits of the working table.
pub fn free_count(device: &[u8], work: &[u8], session: &Session) -> Result<usize, Refusal> {
    lent(device, work, session)?;
    ready(session)?;
    Ok(Bits::load(View::new(device, work, session).block(BIT_TABLE)).free())
}

/// Record i: "name and size, or empty, also past 127".
pub fn record_at(device: &[u8], work: &[u8], session: &Session, i: u64) -> Result<Option<File>, Refusal> {
    lent(device, work, session)?;
    ready(session)?;
    if i >= RECORD_COUNT as u64 {
        return Ok(None);
    }
    let record = View::new(device, work, session).record(i as usize);
    let file = named(&record[..8]).map(|name| File { name, size: size_of(record) as u32 });
    Ok(file.ok())
}

/// The run list of a stretch; "places after the last are unchanged, and their number is the answer".
pub fn run_list(
    device: &[u8],
    work: &[u8],
    session: &Session,
    name: &[u8],
    from: u64,
    count: u64,
    list: &mut [Extent],
) -> Result<usize, Refusal> {
    let (view, index) = file(device, work, session, name)?;
    let runs = || Runs::new(view, view.record(index), from, count);
    let n = runs().count();
    require(n <= list.len(), Refusal::ListShort)?;
    list.iter_mut().zip(runs()).for_each(|(cell, e)| *cell = e);
    Ok(n)
}

/// The n-th extent of a run list, counted from 0; "past the last it answers none".
pub fn nth_extent(
    device: &[u8],
    work: &[u8],
    session: &Session,
    name: &[u8],
    from: u64,
    count: u64,
    n: u64,
) -> Result<Option<Extent>, Refusal> {
    let (view, index) = file(device, work, session, name)?;
    let n = n.min(usize::MAX as u64) as usize;
    Ok(Runs::new(view, view.record(index), from, count).nth(n))
}
