//! A new box.

use std::fs::{File, OpenOptions};
use std::io::{self, ErrorKind, Write};
use std::path::Path;

use purse::{Store, BLOCK_SIZE, MOST_BLOCKS, WORK_SIZE};

use crate::image::{busy, try_locked};
use crate::output::{removed, sync_folder};
use crate::report::{Answer, Trouble};

/// Makes a new image file. One that could not be made whole is removed.
pub fn format(path: &Path, blocks: u64) -> Answer {
    // One block more than a device may have is refused like any number above it.
    let blocks = usize::try_from(blocks).unwrap_or(usize::MAX).min(MOST_BLOCKS + 1);
    let (mut image, mut work) = (vec![0; blocks * BLOCK_SIZE], vec![0; WORK_SIZE]);
    Store::new(&mut image, &mut work).format()?;
    let file = OpenOptions::new().read(true).write(true).create_new(true).open(path).map_err(|e| Trouble::file(path, &e))?;
    match try_locked(&file, File::try_lock) {
        Ok(true) => {}
        // Who found the new file empty and locked it may be making a box of it: it is theirs, and stays.
        Ok(false) => return Err(busy(path)),
        Err(e) => return Err(removed(path, &e)),
    }
    match file.metadata() {
        Ok(about) if about.len() > 0 => Err(Trouble::file(path, &ErrorKind::AlreadyExists.into())),
        Ok(_) => fill(&file, path, &image).map_err(|e| removed(path, &e)),
        Err(e) => Err(Trouble::file(path, &e)),
    }
}

/// The whole image, safe on the disk, and its name in the folder too.
fn fill(mut file: &File, path: &Path, image: &[u8]) -> io::Result<()> {
    file.write_all(image)?;
    file.sync_all()?;
    sync_folder(path.parent().unwrap_or(Path::new("")))
}
