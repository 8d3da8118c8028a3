//! Commands that change a box. A FILE is read whole before the image is opened.

use std::path::Path;

use purse::{Refusal, Store};

use crate::batch::{lines_of, Line};
use crate::image::{read_whole, Image};
use crate::name::Name;
use crate::output::give_stored;
use crate::put::{perform, rehearse};
use crate::report::{Answer, Force, Trouble};

/// One change as one transaction.
pub fn change(path: &Path, stage: impl FnOnce(&mut Store) -> Result<(), Refusal>) -> Answer {
    transaction(path, |store| Ok(stage(store)?))
}

fn transaction(path: &Path, stage: impl FnOnce(&mut Store) -> Answer) -> Answer {
    let mut image = Image::to_store(path)?;
    let (mut store, mut device) = image.ready()?;
    stage(&mut store)?;
    let stores = store.commit_on(&mut device).map_err(|f| Trouble::commit(path, f))?;
    give_stored(&format!("stores {stores}\n"))
}

/// Brings a commit to its end that was broken off.
pub fn recover(path: &Path) -> Answer {
    let mut image = Image::to_store(path)?;
    let (_, _, stores) = image.opened(Force::Standing)?;
    give_stored(&format!("stores {stores}\n"))
}

/// Bytes laid over those of a purse.
pub fn write(path: &Path, name: Name, offset: u64, file: &Path) -> Answer {
    let bytes = read_whole(file)?;
    change(path, |store| store.write(&name.0, offset, &bytes))
}

/// Bytes behind those of a purse.
pub fn append(path: &Path, name: Name, file: &Path) -> Answer {
    let bytes = read_whole(file)?;
    change(path, |store| {
        let size = store.size(&name.0)?;
        store.write(&name.0, size, &bytes)
    })
}

/// New bytes for a purse, of any size.
pub fn put(path: &Path, name: Name, file: &Path) -> Answer {
    let bytes = read_whole(file)?;
    let mut image = Image::to_store(path)?;
    let (mut store, mut device) = image.ready()?;
    let total = rehearse(&mut store.image().to_vec(), name, &bytes)?;
    let stores = perform(&mut store, &mut device, path, name, &bytes, total)?;
    give_stored(&format!("stores {stores}\n"))
}

/// All changes of a file as one transaction.
pub fn batch(path: &Path, file: &Path) -> Answer {
    let wrong = |cause| Trouble::Words(cause, "batch IMAGE FILE".into());
    let text = read_whole(file)?;
    if text.len() > purse::FILE_MOST {
        return Err(wrong(format!("{} is longer than {} bytes", file.display(), purse::FILE_MOST)));
    }
    let mut read = vec![file.to_owned()];
    let mut changes: Vec<Line<Vec<u8>>> = Vec::new();
    for (number, change) in lines_of(&text).map_err(wrong)? {
        let loaded = change.load(|file| {
            if file.as_os_str() == "-" && read.iter().any(|f| f == file) {
                return Err(wrong(format!("line {number}: standard input is read already")));
            }
            read.push(file.to_owned());
            read_whole(file).map_err(|t| t.at(&format!("line {number}")))
        })?;
        changes.push((number, loaded));
    }
    transaction(path, |store| {
        let refused = |number, refusal| Trouble::Refused(refusal, format!(", line {number}"));
        changes.iter().try_for_each(|(number, change)| change.stage(store).map_err(|r| refused(number, r)))
    })
}
