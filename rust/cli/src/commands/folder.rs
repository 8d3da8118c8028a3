//! Purses as files of a folder, there and back.

use std::fs;
use std::path::{Path, PathBuf};

use purse::{Refusal, RECORDS};

use crate::commands::look::{hinted, read};
use crate::image::{open, read_whole, Image};
use crate::name::{Name, SECOND};
use crate::output::{folder_for, give, give_stored, make_file, sync_folder, tell};
use crate::put::{perform, rehearse};
use crate::report::{Answer, Trouble};

/// Each purse into a new file of its name.
pub fn dump(path: &Path, dir: &Path) -> Answer {
    let mut image = Image::to_read(path)?;
    let mut store = image.store();
    open(&mut store)?;
    let names: Result<Vec<_>, _> = store.files().map(|f| f.map(|f| Name(f.name))).collect();
    let names = names.map_err(|r| hinted(&store, r))?;
    folder_for(dir)?;
    for &name in &names {
        make_file(&dir.join(name.to_string()), &read(&store, name)?)?;
    }
    sync_folder(dir).map_err(|e| Trouble::file(dir, &e))?;
    give(format!("files {}\n", names.len()).as_bytes())
}

/// The files of a folder that have the name of a purse, by name. Others are told.
fn named_files(dir: &Path) -> Answer<Vec<(Name, PathBuf)>> {
    let failed = |e: std::io::Error| Trouble::file(dir, &e);
    let entries: Result<Vec<_>, _> = fs::read_dir(dir).map_err(failed)?.collect();
    let mut paths: Vec<PathBuf> = entries.map_err(failed)?.iter().map(fs::DirEntry::path).collect();
    paths.sort();
    let mut files = Vec::new();
    for path in paths {
        let left = |why: &str| tell(format_args!("left: {}, {why}", path.display()));
        match path.file_name().and_then(Name::of) {
            None => left("not the name of a purse"),
            Some(SECOND) => left("the reserved name"),
            // A file that cannot be looked at must not be left out.
            Some(name) => match fs::metadata(&path).map_err(|e| Trouble::file(&path, &e))?.is_file() {
                true => files.push((name, path)),
                false => left("not a regular file"),
            },
        }
    }
    files.sort();
    Ok(files)
}

/// All files read, before anything is stored.
fn loaded(dir: &Path) -> Answer<Vec<(Name, Vec<u8>)>> {
    let files = named_files(dir)?;
    if let Some(twice) = files.windows(2).find(|pair| pair[0].0 == pair[1].0) {
        let cause = format!("{} and {} are one purse", twice[0].1.display(), twice[1].1.display());
        return Err(Trouble::Words(cause, "restore DIR IMAGE".into()));
    }
    if files.len() > RECORDS {
        return Err(Refusal::NoRecord.into());
    }
    files.iter().map(|(name, path)| Ok((*name, read_whole(path)?))).collect()
}

/// Puts each file of a folder that has the name of a purse. If one would be refused, nothing is stored.
pub fn restore(dir: &Path, path: &Path) -> Answer {
    let purses = loaded(dir).map_err(|t| t.at("nothing was restored"))?;
    let mut image = Image::to_store(path)?;
    let (mut store, mut device) = image.ready()?;
    let mut copy = store.image().to_vec();
    let mut totals = Vec::new();
    for (name, bytes) in &purses {
        totals.push(rehearse(&mut copy, *name, bytes).map_err(|t| t.at(&name.to_string()))?);
    }
    let mut stores = 0;
    for (i, ((name, bytes), total)) in purses.iter().zip(totals).enumerate() {
        let place = || format!("purse {name}, {i} of {} were restored before it", purses.len());
        stores += perform(&mut store, &mut device, path, *name, bytes, total).map_err(|t| t.at(&place()))?;
    }
    give_stored(&format!("files {}\nstores {stores}\n", purses.len()))
}
