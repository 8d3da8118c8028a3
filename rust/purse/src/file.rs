//! A device in a file.

use std::fs::File;
use std::io::{self, ErrorKind};
use std::os::unix::fs::FileExt;
use std::vec::Vec;

use crate::device::{Block, Device};
use crate::{BLOCK_SIZE, MOST_BLOCKS};

/// A device in a file: a block is written by `pwrite`, as a whole or it fails, and flushed by `fdatasync`.
///
/// No commit and no recovery lengthens or cuts the file. Lock it (`File::try_lock`) before its image is read, and as long as the
/// store is in use: of two programs that store at once one would undo what the other did.
///
/// A new file outlives a power cut when the folder that has its name was flushed too (`File::sync_all` of the folder).
///
/// ```no_run
/// use purse::{FileDevice, Store, WORK_SIZE};
/// use std::fs::OpenOptions;
///
/// let file = OpenOptions::new().read(true).write(true).open("box.img")?;
/// file.try_lock()?;
/// let mut device = FileDevice::new(&file);
/// let mut image = device.read_image()?;
/// let mut work = vec![0; WORK_SIZE];
/// let mut store = Store::new(&mut image, &mut work);
/// store.open_on(&mut device)?;
/// store.write(b"card0001", 0, b"12.50")?;
/// store.commit_on(&mut device)?;
/// # Ok::<(), Box<dyn std::error::Error>>(())
/// ```
#[derive(Debug)]
pub struct FileDevice<'f> {
    file: &'f File,
}

impl<'f> FileDevice<'f> {
    /// A device that is this file, which must be open to be read and written.
    pub fn new(file: &'f File) -> Self {
        FileDevice { file }
    }

    /// What the file holds, from its first byte on. Of a file longer than a device can be, one byte more than that is
    /// read: open refuses such an image.
    pub fn read_image(&self) -> io::Result<Vec<u8>> {
        let mut image = std::vec![0; MOST_BLOCKS * BLOCK_SIZE + 1];
        let mut done = 0;
        while done < image.len() {
            match self.file.read_at(&mut image[done..], done as u64) {
                Ok(0) => break,
                Ok(n) => done += n,
                Err(e) if e.kind() == ErrorKind::Interrupted => {}
                Err(e) => return Err(e),
            }
        }
        image.truncate(done);
        Ok(image)
    }
}

impl Device for FileDevice<'_> {
    type Error = io::Error;

    fn write_block(&mut self, block: u64, bytes: &Block) -> io::Result<()> {
        self.file.write_all_at(bytes, block.saturating_mul(BLOCK_SIZE as u64))
    }

    fn flush(&mut self) -> io::Result<()> {
        self.file.sync_data()
    }
}
