//! What can be saved from a box that is refused. Its image is only read.

use std::path::Path;

use purse::{Phase, Refusal, Store, BLOCK_SIZE, FEWEST_BLOCKS, MOST_BLOCKS, WORK_SIZE};

use crate::commands::look::read;
use crate::damage::explain;
use crate::image::Image;
use crate::name::Name;
use crate::output::{folder_for, give, make_file, sync_folder, tell};
use crate::report::{Answer, Trouble};
use crate::rules::broken;
use crate::scan::{alone, contest, records, Record};

/// Saves each purse whose record is sound and whose blocks no other record claims, and tells of each.
pub fn salvage(path: &Path, dir: &Path) -> Answer {
    let mut image = Image::to_read(path)?;
    let bytes = prepared(&mut image)?;
    let all = records(&bytes);
    folder_for(dir)?;
    let (mut text, mut saved) = (String::new(), 0);
    for record in &all {
        let verdict = match sound(&bytes, &all, record) {
            Ok((name, content)) => {
                let file = file_name(&all, record, name);
                make_file(&dir.join(&file), &content)?;
                saved += 1;
                format!("saved as {file}")
            }
            Err(why) => format!("lost: {why}"),
        };
        let name = record.name.map_or("no name".into(), |name| name.to_string());
        text.push_str(&format!("record {} {name} {} {verdict}\n", record.number, record.size));
    }
    sync_folder(dir).map_err(|e| Trouble::file(dir, &e))?;
    text.push_str(&format!("saved {saved} lost {}\n", all.len() - saved));
    give(text.as_bytes())
}

/// The image to look at: whole blocks, and with the log redone in memory where there is one that open accepts.
fn prepared(image: &mut Image) -> Answer<Vec<u8>> {
    let blocks = (image.bytes.len() / BLOCK_SIZE).min(MOST_BLOCKS);
    if blocks < FEWEST_BLOCKS {
        return Err(Refusal::DeviceSize.into());
    }
    if image.bytes.len() != blocks * BLOCK_SIZE {
        tell(format_args!("the image is no whole number of blocks, or too long: the first {blocks} blocks are looked at"));
        image.bytes.truncate(blocks * BLOCK_SIZE);
    }
    let mut store = image.store();
    match store.open() {
        Ok(()) if store.phase() == Phase::Ready => {}
        Ok(()) => return Ok(redone(&image.bytes)),
        Err(refusal) => {
            let more = explain(&image.bytes, refusal);
            let log = match refusal {
                Refusal::BadHeader(_) => "; the box is looked at without its log: the last change may be there in part",
                _ => "",
            };
            tell(format_args!("{refusal}{more}{log}"));
        }
    }
    Ok(std::mem::take(&mut image.bytes))
}

/// A pending log redone in memory. If what comes out is not sound, but the box before the change is, that one is taken.
fn redone(bytes: &[u8]) -> Vec<u8> {
    let (mut with, mut without, mut work) = (bytes.to_vec(), bytes.to_vec(), vec![0; WORK_SIZE]);
    without[..BLOCK_SIZE].fill(0);
    let opens = Store::new(&mut with, &mut work).open_in_memory();
    let opened_before = Store::new(&mut without, &mut work).open();
    let Err(refusal) = opens else {
        tell(format_args!("a log is pending, and is redone in memory: recover does so in the box"));
        return with;
    };
    let more = explain(&with, refusal);
    match opened_before {
        Err(_) => {
            tell(format_args!("a log is pending, and is redone in memory: {refusal}{more}"));
            with
        }
        Ok(()) => {
            tell(format_args!(
                "a log is pending and leads to no sound box: {refusal}{more}; the box is looked at as it was before that change"
            ));
            without
        }
    }
}

/// The bytes of a record's purse, if the library opens a box with this record alone and no other claims its blocks.
fn sound(image: &[u8], all: &[Record], record: &Record) -> Result<(Name, Vec<u8>), String> {
    let name = record.name.ok_or("the record has no name")?;
    let (mut lone, mut work) = (alone(image, record), vec![0; WORK_SIZE]);
    let mut store = Store::new(&mut lone, &mut work);
    store.open().map_err(|refusal| match (refusal, broken(image, record.bytes)) {
        // The bit table fits the record's tree, so it can only be a block that is used twice.
        (Refusal::DamagedBlock(block), _) => format!("it has block {block} more than once (refused 23)"),
        (_, Some(rule)) => format!("its record is not sound (refused {}): {rule}", refusal.number()),
        (_, None) => format!("its record is not sound (refused {})", refusal.number()),
    })?;
    if let Some((block, other)) = contest(all, record) {
        return Err(format!("block {block} is claimed by record {other} too"));
    }
    let bytes = read(&store, name).map_err(|refusal| refusal.to_string())?;
    Ok((name, bytes))
}

/// The name of the purse, with the record's number where several records have it.
fn file_name(all: &[Record], record: &Record, name: Name) -> String {
    let several = all.iter().any(|r| r.name == Some(name) && r.number != record.number);
    match several {
        true => format!("{name}.record{}", record.number),
        false => name.to_string(),
    }
}
