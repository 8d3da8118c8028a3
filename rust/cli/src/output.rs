//! What is written: results on standard output, everything else on standard error, and files for dumps and pictures.

use std::fmt::Arguments;
use std::fs::{self, File, OpenOptions};
use std::io::{self, IsTerminal, Write};
use std::os::fd::AsFd;
use std::path::Path;

use crate::report::{Answer, Force, Trouble};

/// Says a line on standard error. There is nobody to tell if that fails.
pub fn tell(line: Arguments) {
    let _ = writeln!(io::stderr(), "{line}");
}

/// A word over the last one on standard error, where that is a terminal.
pub fn progress(line: Arguments) {
    if io::stderr().is_terminal() {
        let _ = write!(io::stderr(), "\r\x1b[K{line}");
    }
}

/// Standard output as a file of its own: nothing is held back, and every failure is told.
fn write_out(bytes: &[u8]) -> io::Result<()> {
    let mut out = File::from(io::stdout().as_fd().try_clone_to_owned()?);
    out.write_all(bytes)
}

/// A result on standard output, of a command that stores nothing.
pub fn give(bytes: &[u8]) -> Answer {
    write_out(bytes).map_err(|e| Trouble::system("standard output", &e))
}

/// A whole file on standard output. Where that fails, a part of it may be there.
pub fn give_file(bytes: &[u8]) -> Answer {
    write_out(bytes).map_err(|e| Trouble::System(format!("standard output: {e}; the output is not whole"), None))
}

/// A result on standard output, behind a change that is in force.
pub fn give_stored(text: &str) -> Answer {
    write_out(text.as_bytes()).map_err(|e| Trouble::System(format!("standard output: {e}"), Some(Force::Now)))
}

/// Whether the result goes to a terminal that shows colours.
pub fn coloured() -> bool {
    let plain = std::env::var_os("NO_COLOR").is_some() || std::env::var_os("TERM").is_some_and(|t| t == "dumb");
    !plain && io::stdout().is_terminal()
}

/// A new file with these bytes, safe on its disk. No file is overwritten, and one that fails is removed.
pub fn make_file(path: &Path, bytes: &[u8]) -> Answer {
    let file = OpenOptions::new().write(true).create_new(true).open(path).map_err(|e| Trouble::file(path, &e))?;
    fill(&file, bytes).map_err(|e| removed(path, &e))
}

fn fill(mut file: &File, bytes: &[u8]) -> io::Result<()> {
    file.write_all(bytes)?;
    file.sync_all()
}

/// A file that could not be made is taken away again.
pub fn removed(path: &Path, error: &io::Error) -> Trouble {
    match fs::remove_file(path) {
        Ok(()) => Trouble::file(path, error),
        Err(e) => Trouble::System(format!("{}: {error}; it could not be removed: {e}", path.display()), None),
    }
}

/// The names in a folder, safe on its disk.
pub fn sync_folder(folder: &Path) -> io::Result<()> {
    let folder = if folder.as_os_str().is_empty() { Path::new(".") } else { folder };
    File::open(folder)?.sync_all()
}

/// The folder for a dump: made if it is not there.
pub fn folder_for(folder: &Path) -> Answer {
    match fs::create_dir(folder) {
        Err(e) if e.kind() == io::ErrorKind::AlreadyExists && folder.is_dir() => Ok(()),
        made => made.map_err(|e| Trouble::file(folder, &e)),
    }
}
