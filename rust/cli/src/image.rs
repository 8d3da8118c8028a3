//! The image file: locked, read once, and written block by block.

use std::fs::{self, File, OpenOptions, TryLockError};
use std::io::{self, ErrorKind, Read, Write};
use std::os::fd::AsFd;
use std::os::unix::fs::{FileTypeExt, MetadataExt};
use std::path::{Path, PathBuf};

use purse::{Failure, FileDevice, Phase, Refusal, Standing, Store, FILE_MOST, WORK_SIZE};

use crate::damage::{explain, refused};
use crate::output::tell;
use crate::report::{counted, Answer, Force, Trouble};

/// The number of the device /dev/null.
const NULL_DEVICE: u64 = 0x103;

/// The image of a box, read under a lock that is held as long as this is.
pub struct Image {
    path: PathBuf,
    file: File,
    /// The image as it was read, and as the stores made since then left it.
    pub bytes: Vec<u8>,
    work: Vec<u8>,
}

impl Image {
    /// For a command that stores nothing: others may read at the same time.
    pub fn to_read(path: &Path) -> Answer<Image> {
        Image::open(path, OpenOptions::new().read(true), File::try_lock_shared)
    }

    /// For a command that may store: nobody else may read or store.
    pub fn to_store(path: &Path) -> Answer<Image> {
        Image::open(path, OpenOptions::new().read(true).write(true), File::try_lock)
    }

    fn open(path: &Path, options: &OpenOptions, lock: fn(&File) -> Result<(), TryLockError>) -> Answer<Image> {
        let failed = |e: io::Error| Trouble::file(path, &e);
        // A pipe must not even be opened: that would wait for its other end.
        regular(path, &fs::metadata(path).map_err(failed)?)?;
        let file = options.open(path).map_err(failed)?;
        locked(path, &file, lock)?;
        let about = file.metadata().map_err(failed)?;
        regular(path, &about)?;
        // What is stored in a file that has lost its name to another one is lost.
        let named = fs::metadata(path).map_err(failed)?;
        if (named.dev(), named.ino()) != (about.dev(), about.ino()) {
            return Err(Trouble::about(path, "the file was replaced in between"));
        }
        let bytes = FileDevice::new(&file).read_image().map_err(failed)?;
        Ok(Image { path: path.into(), file, bytes, work: vec![0; WORK_SIZE] })
    }

    /// The store of the image in memory alone.
    pub fn store(&mut self) -> Store<'_> {
        Store::new(&mut self.bytes, &mut self.work)
    }

    /// The store opened and its log recovered in the file, where one is pending; the file; and how many stores that took.
    /// `force`: what is in force if the file fails in the recovery, by how the recovered change then stands.
    pub fn opened(&mut self, force: impl Fn(Standing) -> Force) -> Answer<(Store<'_>, FileDevice<'_>, u64)> {
        let mut device = FileDevice::new(&self.file);
        let mut store = Store::new(&mut self.bytes, &mut self.work);
        open(&mut store)?;
        let pending = store.phase() != Phase::Ready;
        match store.open_on(&mut device) {
            Ok(stores) => Ok((store, device, stores)),
            Err(Failure::Refused(refusal)) if pending => Err(no_redo(&redone(store.image()), refusal)),
            Err(Failure::Device(broken)) => Err(Trouble::broken(&self.path, &broken, force(broken.standing()))),
            Err(other) => Err(Trouble::commit(&self.path, other)),
        }
    }

    /// The same for a change: a recovery is told.
    pub fn ready(&mut self) -> Answer<(Store<'_>, FileDevice<'_>)> {
        let (store, device, stores) = self.opened(|_| Force::NotAndPending)?;
        if stores > 0 {
            tell(format_args!("recovered an earlier change first: {stores} stores"));
        }
        Ok((store, device))
    }
}

/// Opens the store in memory; a refusal is told with what the image shows of the damage.
pub fn open(store: &mut Store) -> Answer {
    store.open().map_err(|refusal| refused(store.image(), refusal))
}

/// Why a log is left as it is: the refusal of the image that its redo makes.
pub fn no_redo(redone: &[u8], refusal: Refusal) -> Trouble {
    let more = explain(redone, refusal);
    Trouble::Refused(refusal, more + "; the pending log does not lead to a sound box, so nothing was stored")
}

/// An image with its pending log redone, as far as it can be.
fn redone(image: &[u8]) -> Vec<u8> {
    let (mut image, mut work) = (image.to_vec(), vec![0; WORK_SIZE]);
    // What comes out is refused: that is why it is asked for.
    let _ = Store::new(&mut image, &mut work).open_in_memory();
    image
}

/// What to do about a pending log, behind refusal 12.
pub fn pending(store: &Store) -> String {
    match store.phase() {
        Phase::Recovering(_) => format!("; a log of {} is pending: run purse recover first", counted(store.logged().count(), "block")),
        _ => String::new(),
    }
}

fn regular(path: &Path, about: &fs::Metadata) -> Answer {
    match about.is_file() {
        true => Ok(()),
        false => Err(Trouble::about(path, "not a regular file, so no image of a box")),
    }
}

/// Takes a lock, or says at once that the box is in use.
fn locked(path: &Path, file: &File, lock: fn(&File) -> Result<(), TryLockError>) -> Answer {
    match try_locked(file, lock) {
        Ok(true) => Ok(()),
        Ok(false) => Err(busy(path)),
        Err(e) => Err(Trouble::system(format_args!("{}: lock", path.display()), &e)),
    }
}

/// Takes a lock; false: another program has one.
pub fn try_locked(file: &File, lock: fn(&File) -> Result<(), TryLockError>) -> io::Result<bool> {
    loop {
        return match lock(file) {
            Ok(()) => Ok(true),
            Err(TryLockError::WouldBlock) => Ok(false),
            Err(TryLockError::Error(e)) if e.kind() == ErrorKind::Interrupted => continue,
            Err(TryLockError::Error(e)) => Err(e),
        };
    }
}

/// Another program has the lock.
pub fn busy(path: &Path) -> Trouble {
    Trouble::about(path, "the box is in use by another program")
}

/// A FILE to be read, `-` for standard input.
pub fn open_file(path: &Path) -> io::Result<File> {
    match path.as_os_str() == "-" {
        true => standard_input(),
        false => File::open(path),
    }
}

/// Standard input as a file of its own: the library's would take one that cannot be read for an empty one.
fn standard_input() -> io::Result<File> {
    let mut file = io::stdin().as_fd().try_clone_to_owned().map(File::from)?;
    // Where it is closed, Rust opens /dev/null in its place, and for writing too: nothing was given, and that is not an empty FILE.
    let about = file.metadata()?;
    let is_null = about.file_type().is_char_device() && about.rdev() == NULL_DEVICE;
    match is_null && file.write(&[]).is_ok() {
        true => Err(io::Error::other("standard input is closed")),
        false => Ok(file),
    }
}

/// The bytes of a FILE: read whole, or it fails. Of one that is too long for a purse one byte too many is read, so that the
/// store refuses it.
pub fn read_whole(path: &Path) -> Answer<Vec<u8>> {
    let mut bytes = Vec::new();
    let limit = FILE_MOST as u64 + 1;
    match open_file(path).and_then(|file| file.take(limit).read_to_end(&mut bytes)) {
        Ok(_) => Ok(bytes),
        Err(e) => Err(Trouble::file(path, &e)),
    }
}
