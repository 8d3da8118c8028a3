//! The commands.

mod change;
mod convert;
mod folder;
mod format;
mod load;
mod look;
mod salvage;

use crate::output::give;
use crate::report::Answer;
use crate::words::{help, Command};

/// Does what a command says.
pub fn run(command: Command) -> Answer {
    use Command::*;
    match command {
        Help => give(help().as_bytes()),
        Version => give(concat!("purse ", env!("CARGO_PKG_VERSION"), "\n").as_bytes()),
        Format { image, blocks } => format::format(&image, blocks),
        List { image, json } => look::list(&image, json),
        Check { image } => look::check(&image),
        Map { image, svg } => look::map(&image, svg.as_deref()),
        Get { image, name } => look::get(&image, name),
        Recover { image } => change::recover(&image),
        Put { image, name, file } => change::put(&image, name, &file),
        Append { image, name, file } => change::append(&image, name, &file),
        Write { image, name, offset, file } => change::write(&image, name, offset, &file),
        Resize { image, name, size } => change::change(&image, |store| store.set_size(&name.0, size)),
        Remove { image, name } => change::change(&image, |store| store.remove(&name.0)),
        Rename { image, name, new } => change::change(&image, |store| store.rename(&name.0, &new.0)),
        Batch { image, file } => change::batch(&image, &file),
        Load { image, file, line } => load::load(&image, &file, line),
        Convert { wanted, file } => convert::convert(wanted, &file),
        Dump { image, dir } => folder::dump(&image, &dir),
        Restore { dir, image } => folder::restore(&dir, &image),
        Salvage { image, dir } => salvage::salvage(&image, &dir),
    }
}
