//! Devices: where the blocks of a store are kept when the power is off.

use core::error::Error;
use core::fmt;

use crate::BLOCK_SIZE;

/// The bytes of one block.
pub type Block = [u8; BLOCK_SIZE];

/// What keeps the blocks: a disk, a flash chip, a file, for tests a piece of memory.
///
/// The cut rule rests on two things that an implementation must keep: a block is written whole or
/// not at all, and a flush returns only when every block written before it is safe from a power cut.
///
/// ```
/// use purse::{Block, Device};
///
/// /// Counts what a commit costs.
/// #[derive(Default)]
/// struct Meter(usize);
///
/// impl Device for Meter {
///     type Error = std::convert::Infallible;
///     fn write_block(&mut self, _: u64, _: &Block) -> Result<(), Self::Error> {
///         self.0 += 1;
///         Ok(())
///     }
///     fn flush(&mut self) -> Result<(), Self::Error> {
///         Ok(())
///     }
/// }
/// ```
pub trait Device {
    /// How a write or a flush fails.
    type Error;

    /// Writes a block at byte `512 * block`: all of it, or it fails.
    fn write_block(&mut self, block: u64, bytes: &Block) -> Result<(), Self::Error>;

    /// Returns when all blocks written so far are safe from a power cut.
    fn flush(&mut self) -> Result<(), Self::Error>;
}

impl<D: Device + ?Sized> Device for &mut D {
    type Error = D::Error;

    fn write_block(&mut self, block: u64, bytes: &Block) -> Result<(), D::Error> {
        (**self).write_block(block, bytes)
    }

    fn flush(&mut self) -> Result<(), D::Error> {
        (**self).flush()
    }
}

/// A device in memory, as memory that a battery keeps; for tests too.
///
/// ```
/// use purse::{Device, MemoryDevice};
///
/// let mut bytes = vec![0u8; 64 * 512];
/// let mut device = MemoryDevice::new(&mut bytes);
/// device.write_block(2, &[7; 512])?;
/// assert!(device.write_block(64, &[7; 512]).is_err());
/// assert_eq!(bytes[1023..1025], [0, 7]);
/// # Ok::<(), purse::OutsideDevice>(())
/// ```
pub struct MemoryDevice<'m> {
    bytes: &'m mut [u8],
}

impl<'m> MemoryDevice<'m> {
    /// A device that is these bytes.
    pub fn new(bytes: &'m mut [u8]) -> Self {
        MemoryDevice { bytes }
    }
}

impl Device for MemoryDevice<'_> {
    type Error = OutsideDevice;

    fn write_block(&mut self, block: u64, bytes: &Block) -> Result<(), OutsideDevice> {
        let place = usize::try_from(block).ok().and_then(|b| b.checked_mul(BLOCK_SIZE));
        let end = place.and_then(|p| p.checked_add(BLOCK_SIZE));
        let held = place.zip(end).and_then(|(p, e)| self.bytes.get_mut(p..e));
        held.ok_or(OutsideDevice(block))?.copy_from_slice(bytes);
        Ok(())
    }

    fn flush(&mut self) -> Result<(), OutsideDevice> {
        Ok(())
    }
}

impl fmt::Debug for MemoryDevice<'_> {
    fn fmt(&self, f: &mut fmt::Formatter) -> fmt::Result {
        f.debug_struct("MemoryDevice").field("len", &self.bytes.len()).finish()
    }
}

/// A block, by its number, that the device in memory does not have.
#[derive(Clone, Copy, Debug, PartialEq, Eq)]
pub struct OutsideDevice(pub u64);

impl fmt::Display for OutsideDevice {
    fn fmt(&self, f: &mut fmt::Formatter) -> fmt::Result {
        write!(f, "the device has no block {}", self.0)
    }
}

impl Error for OutsideDevice {}
