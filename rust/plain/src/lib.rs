//! A purse store in plain Rust, written from documents 01 and 02 and docs/DECISIONS.md alone. Of document
//! 02 it has A1, the load, A2, which record or block is damaged, and A6, the converter.
//!
//! It shares no line with the proved store, of which neither the code nor the definitions were read for
//! it. It serves as the second opinion in the differential tests and as the baseline when speed is
//! measured.
//!
//! Two cases that both papers leave open, on tampered sessions and damaged devices only, were taken over
//! from what the proved library does: an accepted call that changes files sets a session's count past 32
//! to 32; and where one call gives a block several new contents, because the block has more than one use,
//! the last of record, bit table, extent blocks, data blocks in file order stands. Both places in `plan`
//! say so.
//!
//! ```
//! let mut device = vec![0u8; 64 * 512];
//! let mut work = vec![0u8; plain::WORK_SIZE];
//! let mut session = plain::Session::never_opened();
//! plain::format(&mut device, &mut session).unwrap();
//! plain::open(&device, &mut session).unwrap();
//! plain::create(&device, &mut work, &mut session, b"card0001").unwrap();
//! plain::write(&device, &mut work, &mut session, b"card0001", 0, b"12.50").unwrap();
//! assert_eq!(plain::commit(&device, &work, &mut session), Ok(8));
//! while plain::advance(&mut device, &work, &mut session).unwrap().is_some() {}
//! assert_eq!(plain::size(&device, &work, &session, b"card0001"), Ok(5));
//! ```

mod bits;
mod calls;
mod cards;
mod convert;
mod journal;
mod load;
mod mutant;
mod plan;
pub mod sound;
mod tree;
mod types;
mod view;

pub use calls::*;
pub use cards::Spelling;
pub use convert::*;
pub use load::*;
pub use types::*;
