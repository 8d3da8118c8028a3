//! The program purse: keeps a till box in an image file.
//!
//! The proved library decides every byte; this program reads, writes, flushes, locks and talks. docs/PURSE.md has all commands.

#![forbid(unsafe_code)]
#![warn(missing_docs)]

mod batch;
mod commands;
mod damage;
mod image;
mod name;
mod output;
mod picture;
mod put;
mod report;
mod rules;
mod scan;
mod words;

use std::process::ExitCode;

fn main() -> ExitCode {
    let words: Vec<_> = std::env::args_os().skip(1).collect();
    match words::command_of(&words) {
        Ok(command) => {
            let changes = command.changes();
            report::status(commands::run(command), changes)
        }
        Err(trouble) => report::status(Err(trouble), false),
    }
}
