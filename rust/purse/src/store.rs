//! The store: lent memory, a session, and the calls.

use core::fmt;

use crate::ffi::{self, Extent, RawSession};
use crate::{Refusal, BLOCK_SIZE, RECORDS};

/// What a session is about to do. The place is the number of stores made so far.
#[derive(Clone, Copy, Debug, PartialEq, Eq)]
pub enum Phase {
    /// Not opened, or closed by the end of a recovery.
    Closed,
    /// Calls that read and change files are accepted.
    Ready,
    /// A commit is being stored.
    Committing(u64),
    /// A log is being recovered.
    Recovering(u64),
}

/// One block store of a commit or recovery.
#[derive(Clone, Copy, Debug, PartialEq, Eq)]
pub struct BlockStore {
    /// The block stored.
    pub block: u64,
    /// Whether it was the last one.
    pub last: bool,
    /// The number of stores since the commit or open began, this one included.
    pub number: u64,
}

/// A used file record.
#[derive(Clone, Copy, Debug, PartialEq, Eq)]
pub struct File {
    /// Its name.
    pub name: [u8; 8],
    /// Its size in bytes.
    pub size: u64,
}

/// A purse store in lent memory.
pub struct Store<'a> {
    pub(crate) image: &'a mut [u8],
    pub(crate) work: &'a mut [u8],
    pub(crate) session: RawSession,
    /// A block was stored in the image and is not known to be on the device.
    pub(crate) ahead: bool,
    /// Block 0 is known to be on the device as it is in the image.
    pub(crate) anchored: bool,
    /// Blocks were stored in the image alone.
    pub(crate) apart: bool,
}

impl fmt::Debug for Store<'_> {
    fn fmt(&self, f: &mut fmt::Formatter) -> fmt::Result {
        let blocks = self.image.len() / BLOCK_SIZE;
        f.debug_struct("Store")
            .field("blocks", &blocks)
            .field("phase", &self.phase())
            .field("changed", &self.session.count)
            .field("ahead", &self.ahead)
            .finish_non_exhaustive()
    }
}

/// A slice as the header wants it: a pointer to as many elements as its length says. That of an empty slice points to none, and is not NULL.
#[inline]
pub(crate) fn lend(bytes: &[u8]) -> (*const u8, usize) {
    (bytes.as_ptr(), bytes.len())
}

/// The same for a slice that the store writes.
#[inline]
pub(crate) fn lend_mut<T>(items: &mut [T]) -> (*mut T, usize) {
    (items.as_mut_ptr(), items.len())
}

/// The number of a refusal as a result; `fault` is the record or block of refusals 10, 22 and 23.
#[inline]
pub(crate) fn settle<T>(number: u32, fault: u64, value: T) -> Result<T, Refusal> {
    match number {
        0 => Ok(value),
        n => Err(Refusal::of(n, fault)),
    }
}

impl<'a> Store<'a> {
    /// With a session never opened. `image` holds what the device holds: call [`Store::open_on`] or [`Store::format_on`]
    /// next.
    pub fn new(image: &'a mut [u8], work: &'a mut [u8]) -> Self {
        Store::resume(image, work, RawSession::NEVER_OPENED)
    }

    /// Goes on with a session that [`Store::session`] gave. A session that does not belong to this
    /// image and work space is harmless to memory, but what it changes is not what was meant.
    pub fn resume(image: &'a mut [u8], work: &'a mut [u8], session: RawSession) -> Self {
        Store { image, work, session, ahead: false, anchored: false, apart: false }
    }

    /// The session as the last call left it.
    pub fn session(&self) -> RawSession {
        self.session
    }

    /// The image of the device as the stores made so far left it.
    pub fn image(&self) -> &[u8] {
        self.image
    }

    /// One block of the image, empty outside of it.
    pub fn block(&self, block: u64) -> &[u8] {
        usize::try_from(block).ok().and_then(|b| self.image.chunks(BLOCK_SIZE).nth(b)).unwrap_or(&[])
    }

    /// What the session is about to do.
    pub fn phase(&self) -> Phase {
        match self.session.phase {
            1 => Phase::Ready,
            2 => Phase::Committing(self.session.place),
            3 => Phase::Recovering(self.session.place),
            _ => Phase::Closed,
        }
    }

    /// Nothing reaches a device: opens the store, with a recovery and the second open where they are due, in the lent
    /// image alone. A change stored on a device behind a recovery that is not would spoil the device: there use
    /// [`Store::open_on`]. A store that has stored anything in memory alone refuses to go on with a device.
    pub fn open_in_memory(&mut self) -> Result<(), Refusal> {
        self.open()?;
        if self.phase() != Phase::Ready {
            self.stores_in_memory().try_for_each(|s| s.map(|_| ()))?;
            self.open()?;
        }
        Ok(())
    }

    /// Nothing reaches a device: starts a commit and makes all its stores in the lent image alone; answers how many.
    /// For a device use [`Store::commit_on`].
    pub fn commit_in_memory(&mut self) -> Result<u64, Refusal> {
        let stores = self.commit()?;
        self.stores_in_memory().try_for_each(|s| s.map(|_| ()))?;
        Ok(stores)
    }

    /// Nothing reaches a device: the stores of the commit or recovery under way, one block of the lent image for each
    /// step. For a device use [`Store::commit_on`] or [`Store::each_store`].
    pub fn stores_in_memory(&mut self) -> Stores<'_, 'a> {
        Stores { store: self, over: false }
    }

    /// All files, in record order.
    ///
    /// ```
    /// # let (mut image, mut work) = (vec![0u8; 64 * 512], vec![0u8; 16_384]);
    /// # let mut store = purse::Store::new(&mut image, &mut work);
    /// # store.format()?;
    /// # store.open()?;
    /// store.create(b"card0001")?;
    /// store.set_size(b"card0001", 600)?;
    /// for file in store.files() {
    ///     assert_eq!(file?.size, 600);
    /// }
    /// # Ok::<(), purse::Refusal>(())
    /// ```
    pub fn files(&self) -> impl Iterator<Item = Result<File, Refusal>> + use<'_, 'a> {
        (0..RECORDS as u64).filter_map(|i| self.record(i).transpose())
    }

    /// A store whose image is ahead of its device must not go on.
    #[inline]
    pub(crate) fn settled(&self) -> Result<(), Refusal> {
        match self.ahead {
            true => Err(Refusal::NotReady),
            false => Ok(()),
        }
    }
}

// The calls themselves. Safety of each: a slice is lent as its own pointer and length, for the time
// of the call only; image and work space are lent mutably where the store may write; no two slices
// overlap. The store is proved to stay inside them whatever they and the session hold. They are thin,
// so they go where they are called.
impl Store<'_> {
    /// Makes an empty store of the image. The session is closed: open it next. Nothing reaches a device: there use
    /// [`Store::format_on`].
    #[inline]
    pub fn format(&mut self) -> Result<(), Refusal> {
        self.settled()?;
        let (d, n) = lend_mut(self.image);
        let (s, c) = self.session.parts_mut();
        let answer = unsafe { ffi::purse_format_v(d, n, s, c) };
        self.apart |= answer.refusal == 0;
        settle(answer.refusal, answer.fault, ())
    }

    /// Opens the store and stores nothing. If [`Store::phase`] is then recovering, a commit was cut short: make its stores
    /// and open again. [`Store::open_on`] does all of this.
    ///
    /// A device whose tables are damaged is refused with [`Refusal::BadHeader`], [`Refusal::DamagedRecord`] or
    /// [`Refusal::DamagedBlock`], which name the lowest record or block that is; image and session are then as before.
    ///
    /// ```
    /// use purse::{Refusal, Store, WORK_SIZE};
    ///
    /// # let (mut image, mut work) = (vec![0u8; 64 * 512], vec![0u8; WORK_SIZE]);
    /// Store::new(&mut image, &mut work).format()?;
    /// image[33 * 512 + 7] |= 1 << 4; // block 60 is marked as used, and no file has it
    /// assert_eq!(Store::new(&mut image, &mut work).open(), Err(Refusal::DamagedBlock(60)));
    /// image[34 * 512 + 5 * 32 + 20] = 1; // record 5 is empty but for one byte: records come before blocks
    /// assert_eq!(Store::new(&mut image, &mut work).open(), Err(Refusal::DamagedRecord(5)));
    /// # Ok::<(), Refusal>(())
    /// ```
    #[inline]
    pub fn open(&mut self) -> Result<(), Refusal> {
        self.settled()?;
        let (d, n) = lend(self.image);
        let (s, c) = self.session.parts_mut();
        let answer = unsafe { ffi::purse_open_v(d, n, s, c) };
        settle(answer.refusal, answer.fault, ())
    }

    /// Stores one block of the commit or recovery under way in the image; none if nothing is. Write it to the device and
    /// flush it there before the next call, as [`Store::each_store`] does.
    #[inline]
    pub fn advance(&mut self) -> Result<Option<BlockStore>, Refusal> {
        self.settled()?;
        let ((d, n), (w, m)) = (lend_mut(self.image), lend(self.work));
        let (s, c) = self.session.parts_mut();
        let answer = unsafe { ffi::purse_advance_v(d, n, w, m, s, c) };
        let store = BlockStore { block: answer.block, last: answer.last != 0, number: answer.number };
        settle(answer.refusal, 0, (answer.number != 0).then_some(store))
    }

    /// Starts the commit of k changed blocks and answers 2k+2, the number of stores; 0 if nothing is changed. The
    /// transaction counts once its list is stored, in the middle of them. [`Store::commit_on`] makes them too.
    #[inline]
    pub fn commit(&mut self) -> Result<u64, Refusal> {
        let ((d, n), (w, m)) = (lend(self.image), lend(self.work));
        let (s, c) = self.session.parts_mut();
        let answer = unsafe { ffi::purse_commit_v(d, n, w, m, s, c) };
        settle(answer.refusal, 0, answer.stores)
    }

    /// Empties the transaction.
    #[inline]
    pub fn abort(&mut self) -> Result<(), Refusal> {
        let ((d, n), (w, m)) = (lend(self.image), lend(self.work));
        let (s, c) = self.session.parts_mut();
        let answer = unsafe { ffi::purse_abort_v(d, n, w, m, s, c) };
        settle(answer.refusal, answer.fault, ())
    }

    /// A new empty file. A name is 8 bytes, not all zero.
    #[inline]
    pub fn create(&mut self, name: &[u8]) -> Result<(), Refusal> {
        let ((d, n), (w, m), (a, l)) = (lend(self.image), lend_mut(self.work), lend(name));
        let (s, c) = self.session.parts_mut();
        let answer = unsafe { ffi::purse_create_v(d, n, w, m, s, c, a, l) };
        settle(answer.refusal, answer.fault, ())
    }

    /// Removes a file and gives its blocks back.
    #[inline]
    pub fn remove(&mut self, name: &[u8]) -> Result<(), Refusal> {
        let ((d, n), (w, m), (a, l)) = (lend(self.image), lend_mut(self.work), lend(name));
        let (s, c) = self.session.parts_mut();
        let answer = unsafe { ffi::purse_remove_v(d, n, w, m, s, c, a, l) };
        settle(answer.refusal, answer.fault, ())
    }

    /// Gives a file another name.
    #[inline]
    pub fn rename(&mut self, name: &[u8], new: &[u8]) -> Result<(), Refusal> {
        let ((d, n), (w, m)) = (lend(self.image), lend_mut(self.work));
        let ((a, l), (b, k)) = (lend(name), lend(new));
        let (s, c) = self.session.parts_mut();
        let answer = unsafe { ffi::purse_rename_v(d, n, w, m, s, c, a, l, b, k) };
        settle(answer.refusal, answer.fault, ())
    }

    /// Lays bytes over a file from place `x` on. The file grows where needed; a gap is zeros.
    #[inline]
    pub fn write(&mut self, name: &[u8], x: u64, bytes: &[u8]) -> Result<(), Refusal> {
        let ((d, n), (w, m)) = (lend(self.image), lend_mut(self.work));
        let ((a, l), (b, k)) = (lend(name), lend(bytes));
        let (s, c) = self.session.parts_mut();
        let answer = unsafe { ffi::purse_write_v(d, n, w, m, s, c, a, l, x, b, k) };
        settle(answer.refusal, answer.fault, ())
    }

    /// Cuts a file off or lengthens it by zeros.
    #[inline]
    pub fn set_size(&mut self, name: &[u8], size: u64) -> Result<(), Refusal> {
        let ((d, n), (w, m), (a, l)) = (lend(self.image), lend_mut(self.work), lend(name));
        let (s, c) = self.session.parts_mut();
        let answer = unsafe { ffi::purse_set_size_v(d, n, w, m, s, c, a, l, size) };
        settle(answer.refusal, answer.fault, ())
    }

    /// Copies bytes from place `x` of a file on and answers how many; the rest of the buffer is
    /// unchanged.
    #[inline]
    pub fn read(&self, name: &[u8], x: u64, buffer: &mut [u8]) -> Result<usize, Refusal> {
        let ((d, n), (w, m)) = (lend(self.image), lend(self.work));
        let ((a, l), (b, k)) = (lend(name), lend_mut(buffer));
        let (s, c) = self.session.parts();
        let answer = unsafe { ffi::purse_read_v(d, n, w, m, s, a, l, c, x, b, k) };
        settle(answer.refusal, 0, answer.count as usize)
    }

    /// The size of a file in bytes.
    #[inline]
    pub fn size(&self, name: &[u8]) -> Result<u64, Refusal> {
        let ((d, n), (w, m), (a, l)) = (lend(self.image), lend(self.work), lend(name));
        let (s, c) = self.session.parts();
        let answer = unsafe { ffi::purse_size_v(d, n, w, m, s, a, l, c) };
        settle(answer.refusal, 0, answer.count)
    }

    /// The number of free blocks.
    #[inline]
    pub fn free_count(&self) -> Result<u64, Refusal> {
        let ((d, n), (w, m)) = (lend(self.image), lend(self.work));
        let (s, c) = self.session.parts();
        let answer = unsafe { ffi::purse_free_count_v(d, n, w, m, s, c) };
        settle(answer.refusal, 0, answer.count)
    }

    /// Name and size of record `i`, none if it is empty or past 127.
    #[inline]
    pub fn record(&self, i: u64) -> Result<Option<File>, Refusal> {
        let mut name = [0; 8];
        let ((d, n), (w, m)) = (lend(self.image), lend(self.work));
        let (s, c) = self.session.parts();
        let answer = unsafe { ffi::purse_record_v(d, n, w, m, s, i, c, &mut name) };
        let file = File { name, size: answer.size };
        settle(answer.refusal, 0, (answer.used != 0).then_some(file))
    }

    /// The k-th of the largest extents that hold `count` blocks of a file from block place `from` on,
    /// counted from 0; none past the last.
    #[inline]
    pub fn nth_extent(&self, name: &[u8], from: u64, count: u64, k: u64) -> Result<Option<Extent>, Refusal> {
        let ((d, n), (w, m), (a, l)) = (lend(self.image), lend(self.work), lend(name));
        let (s, c) = self.session.parts();
        let answer = unsafe { ffi::purse_nth_extent_v(d, n, w, m, s, a, l, c, from, count, k) };
        let extent = Extent { first: answer.first, count: answer.count };
        settle(answer.refusal, 0, (answer.count != 0).then_some(extent))
    }

    /// Those extents put into a lent list; answers how many. Places after the last are unchanged.
    #[inline]
    pub fn run_list(&self, name: &[u8], from: u64, count: u64, list: &mut [Extent]) -> Result<usize, Refusal> {
        let ((d, n), (w, m)) = (lend(self.image), lend(self.work));
        let ((a, l), (e, k)) = (lend(name), lend_mut(list));
        // An extent is two cells of 32 bits, first and count.
        let (s, c) = self.session.parts();
        let answer = unsafe { ffi::purse_run_list_v(d, n, w, m, s, a, l, c, from, count, e.cast(), 2 * k) };
        settle(answer.refusal, 0, answer.count as usize)
    }
}

/// The stores of a commit or recovery in memory: each step stores one block of the lent image.
#[derive(Debug)]
pub struct Stores<'s, 'a> {
    store: &'s mut Store<'a>,
    over: bool,
}

impl Stores<'_, '_> {
    /// One block of the image as the steps made so far left it, empty outside of it.
    ///
    /// ```
    /// # let (mut image, mut work) = (vec![0u8; 64 * 512], vec![0u8; 16_384]);
    /// # let mut store = purse::Store::new(&mut image, &mut work);
    /// # store.format()?;
    /// # store.open()?;
    /// store.create(b"card0001")?;
    /// store.commit()?;
    /// let mut stores = store.stores_in_memory();
    /// while let Some(s) = stores.next() {
    ///     assert_eq!(stores.block(s?.block).len(), 512);
    /// }
    /// # Ok::<(), purse::Refusal>(())
    /// ```
    pub fn block(&self, block: u64) -> &[u8] {
        self.store.block(block)
    }
}

impl Iterator for Stores<'_, '_> {
    type Item = Result<BlockStore, Refusal>;

    #[inline]
    fn next(&mut self) -> Option<Self::Item> {
        if self.over {
            return None;
        }
        let step = self.store.advance().transpose();
        self.store.apart |= matches!(step, Some(Ok(_)));
        self.over = !matches!(step, Some(Ok(BlockStore { last: false, .. })));
        step
    }
}
