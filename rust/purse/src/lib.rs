//! The proved purse store, for Rust programs.
//!
//! A [`Store`] lives in two byte slices that the caller lends it: an image of the device, 64 to 4,096 blocks of 512 bytes,
//! and a work space of [`WORK_SIZE`] bytes. Changes gather in a transaction. [`Store::commit_on`] brings it to a [`Device`]
//! block by block, each flushed before the next; [`Store::open_on`] recovers there what a power cut broke off. The
//! proved library decides every byte and the order; this crate only hands them on.
//!
//! ```
//! use purse::{MemoryDevice, Store, WORK_SIZE};
//!
//! // What keeps the blocks while the power is off; here a piece of memory.
//! let mut kept = vec![0u8; 64 * 512];
//! let mut device = MemoryDevice::new(&mut kept);
//!
//! let (mut image, mut work) = (vec![0u8; 64 * 512], vec![0u8; WORK_SIZE]);
//! let mut store = Store::new(&mut image, &mut work);
//! store.format_on(&mut device)?;
//! store.open_on(&mut device)?;
//!
//! // One sale: a new card with a balance, in one transaction.
//! store.create(b"card0001")?;
//! store.write(b"card0001", 0, b"12.50")?;
//! assert_eq!(store.commit_on(&mut device)?, 8);
//!
//! // The plug is pulled: image, session and work space are lost, the device is not.
//! let mut image = kept.clone();
//! let mut device = MemoryDevice::new(&mut kept);
//! let mut store = Store::new(&mut image, &mut work);
//! store.open_on(&mut device)?;
//! let mut balance = [0u8; 5];
//! assert_eq!(store.read(b"card0001", 0, &mut balance)?, 5);
//! assert_eq!(&balance, b"12.50");
//! # Ok::<(), purse::Failure<purse::OutsideDevice>>(())
//! ```
//!
//! # The Monday file
//!
//! [`Store::load_on`] fills a store from the card printer's file: a line is a serial, a letter and an amount, and makes a purse of
//! 8 bytes in a transaction of its own. [`Load`] is the place in the text that was come to.
//!
//! ```
//! # use purse::{Load, MemoryDevice, Store, WORK_SIZE};
//! # let (mut kept, mut image, mut work) = (vec![0u8; 64 * 512], vec![0u8; 64 * 512], vec![0u8; WORK_SIZE]);
//! # let mut device = MemoryDevice::new(&mut kept);
//! # let mut store = Store::new(&mut image, &mut work);
//! # store.format_on(&mut device).unwrap();
//! # store.open_on(&mut device).unwrap();
//! let mut load = Load::new(b"04A1B2C3;H;1250\n3283263749;D;500\n");
//! for line in store.load_on(&mut device, &mut load) {
//!     line?;
//! }
//! let mut cents = [0u8; 8];
//! store.read(&[4, 0x04, 0xa1, 0xb2, 0xc3, 0, 0, 0], 0, &mut cents).unwrap();
//! assert_eq!(u64::from_le_bytes(cents), 1250);
//! # Ok::<(), purse::LoadFailure<purse::OutsideDevice>>(())
//! ```
//!
//! # The two spellings
//!
//! [`convert`] respells a whole file of H lines as D lines, or of D lines as H lines, from one slice into another. It needs no store.
//!
//! ```
//! use purse::{convert, Spelling};
//!
//! let mut out = [0u8; 40];
//! let n = convert(Spelling::Decimal, b"04A1B2C3;H;1250\n04A1B2C3D4E5F6;H;0\n", &mut out)?;
//! assert_eq!(&out[..n], b"3283263748;D;1250\n69495546249912580;D;0\n");
//! # Ok::<(), purse::ConvertRefusal>(())
//! ```
//!
//! # When the device fails
//!
//! A write or a flush that fails leaves the image in memory ahead of the device. The store then refuses every further call
//! with [`Refusal::NotReady`]; [`Broken`] tells which store of how many failed and, by [`Broken::standing`], whether the
//! transaction counts. Read the image back from the device and open it with a new store.
//!
//! # Features
//!
//! `std`, on by default, has [`FileDevice`]. Without it the crate needs neither an operating system nor a heap.

#![no_std]
#![warn(missing_docs, missing_debug_implementations)]

#[cfg(feature = "std")]
extern crate std;

mod convert;
mod device;
mod failure;
mod ffi;
#[cfg(all(feature = "std", unix))]
mod file;
mod load;
mod refusal;
mod store;
mod through;

pub use convert::{convert, ConvertRefusal, Spelling};
pub use device::{Block, Device, MemoryDevice, OutsideDevice};
pub use failure::{Broken, Failure, Run, Standing, Step};
pub use ffi::{Extent, RawSession};
#[cfg(all(feature = "std", unix))]
pub use file::FileDevice;
pub use load::{Load, LoadFailure, LoadRefusal, LoadStep, LoadedLine, LINE_MOST, LOAD_ENOUGH};
pub use refusal::Refusal;
pub use store::{BlockStore, File, Phase, Store, Stores};

/// The bytes of a block.
pub const BLOCK_SIZE: usize = 512;

/// The blocks of the smallest device.
pub const FEWEST_BLOCKS: usize = 64;

/// The blocks of the largest device.
pub const MOST_BLOCKS: usize = 4096;

/// The length of the work space.
pub const WORK_SIZE: usize = 16_384;

/// The file records of a device: so many files, at most.
pub const RECORDS: usize = 128;

/// The bytes of a file, at most.
pub const FILE_MOST: usize = 1_048_576;

/// The pieces that a file lies in, at most.
pub const EXTENTS_MOST: usize = 512;

/// The blocks that one transaction changes, at most.
pub const STAGED_MOST: usize = 32;
