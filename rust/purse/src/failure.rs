//! What went wrong where blocks were to reach a device, and what is in force then.

use core::error::Error;
use core::fmt;

use crate::{BlockStore, Refusal};

/// Why a call that writes through to a device did not come to its end.
#[non_exhaustive]
#[derive(Clone, Copy, Debug, PartialEq, Eq)]
pub enum Failure<E> {
    /// The store refused. Nothing was written to the device.
    Refused(Refusal),
    /// The device failed. The image in memory is ahead of it: the store refuses all further calls.
    Device(Broken<E>),
}

/// A store of a block that did not reach the device.
///
/// The stores before it are safe on the device; of this one, nothing is known. Read the image back and open it
/// with a new [`Store`](crate::Store): [`Store::open_on`](crate::Store::open_on) recovers what is to be recovered.
#[non_exhaustive]
#[derive(Clone, Copy, Debug, PartialEq, Eq)]
pub struct Broken<E> {
    /// What the device said.
    pub error: E,
    /// Whether the write or the flush failed.
    pub step: Step,
    /// What was under way.
    pub run: Run,
    /// The store that failed; number 0: block 0, written as it was read before the first one.
    pub store: BlockStore,
    /// How many stores there were to be.
    pub stores: u64,
}

/// A step of a block's way to the device.
#[derive(Clone, Copy, Debug, PartialEq, Eq)]
pub enum Step {
    /// The block was being written.
    Write,
    /// The block was written and was being made safe.
    Flush,
}

/// What stores are made for.
#[derive(Clone, Copy, Debug, PartialEq, Eq)]
pub enum Run {
    /// A new, empty store.
    Format,
    /// A commit: k images, the list, k targets, the clearing of the list.
    Commit,
    /// A recovery: k targets, the clearing of the list.
    Recovery,
}

/// Whether the transaction counts, where its stores were broken off.
#[derive(Clone, Copy, Debug, PartialEq, Eq)]
pub enum Standing {
    /// The list had not been reached: the device is as before the transaction.
    NotInForce,
    /// The store of the list itself failed: it is there or it is not. The next open tells.
    MayBeInForce,
    /// The list is safe on the device: the next recovery brings the transaction about.
    InForceAfterRecovery,
}

impl<E> Broken<E> {
    /// Whether the transaction counts: for a recovery, the one whose log is recovered. A format that failed is not in
    /// force, whatever was on the device before.
    ///
    /// A commit of k blocks has 2k+2 stores, and the list is number k+1.
    pub fn standing(&self) -> Standing {
        let list = self.stores / 2;
        match self.run {
            Run::Format => Standing::NotInForce,
            // Block 0 as it was read did not reach the device: whether its list is there is not known.
            Run::Recovery if self.store.number == 0 => Standing::MayBeInForce,
            Run::Recovery => Standing::InForceAfterRecovery,
            Run::Commit if self.store.number < list => Standing::NotInForce,
            Run::Commit if self.store.number == list => Standing::MayBeInForce,
            Run::Commit => Standing::InForceAfterRecovery,
        }
    }

    /// The same with another error.
    pub fn map<F>(self, f: impl FnOnce(E) -> F) -> Broken<F> {
        Broken { error: f(self.error), step: self.step, run: self.run, store: self.store, stores: self.stores }
    }
}

impl fmt::Display for Standing {
    fn fmt(&self, f: &mut fmt::Formatter) -> fmt::Result {
        f.write_str(match self {
            Standing::NotInForce => "not in force",
            Standing::MayBeInForce => "may be in force: recover tells",
            Standing::InForceAfterRecovery => "in force after recover",
        })
    }
}

impl<E: fmt::Display> fmt::Display for Broken<E> {
    fn fmt(&self, f: &mut fmt::Formatter) -> fmt::Result {
        let step = match self.step {
            Step::Write => "write",
            Step::Flush => "flush",
        };
        let run = match self.run {
            Run::Format => "format",
            Run::Commit => "commit",
            Run::Recovery => "recovery",
        };
        let (s, n) = (self.store, self.stores);
        match s.number {
            0 => write!(f, "before store 1 of {n} of the {run}")?,
            number => write!(f, "store {number} of {n} of the {run}")?,
        }
        write!(f, ", block {}: the {step} failed: {}", s.block, self.error)
    }
}

impl<E: fmt::Display> fmt::Display for Failure<E> {
    fn fmt(&self, f: &mut fmt::Formatter) -> fmt::Result {
        match self {
            Failure::Refused(refusal) => refusal.fmt(f),
            Failure::Device(broken) => write!(f, "{broken}; {}", broken.standing()),
        }
    }
}

impl<E: Error + 'static> Error for Broken<E> {
    fn source(&self) -> Option<&(dyn Error + 'static)> {
        Some(&self.error)
    }
}

impl<E: Error + 'static> Error for Failure<E> {
    fn source(&self) -> Option<&(dyn Error + 'static)> {
        match self {
            Failure::Refused(refusal) => Some(refusal),
            Failure::Device(broken) => Some(&broken.error),
        }
    }
}

impl<E> From<Refusal> for Failure<E> {
    fn from(refusal: Refusal) -> Self {
        Failure::Refused(refusal)
    }
}
