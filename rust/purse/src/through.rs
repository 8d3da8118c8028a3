//! Blocks on their way to a device.

use crate::device::{Block, Device};
use crate::failure::{Broken, Failure, Run, Step};
use crate::{BlockStore, Phase, RawSession, Refusal, Store, BLOCK_SIZE, STAGED_MOST, WORK_SIZE};

/// One block's way to a device: written, then flushed.
fn put<D: Device>(device: &mut D, block: u64, bytes: &Block) -> Result<(), (Step, D::Error)> {
    device.write_block(block, bytes).map_err(|e| (Step::Write, e))?;
    device.flush().map_err(|e| (Step::Flush, e))
}

// The lent image must hold what was read from the device. Each store is made in the image, written to the device and flushed there before the
// next is made.
impl Store<'_> {
    /// Makes an empty store in the image and on the device, whatever was there, and opens nothing yet.
    ///
    /// All blocks are written, then flushed. A cut or a failure within it leaves nothing of use.
    pub fn format_on<D: Device>(&mut self, device: &mut D) -> Result<(), Failure<D::Error>> {
        self.format()?;
        let stores = self.image().len() as u64 / BLOCK_SIZE as u64;
        self.ahead = true;
        for block in 0..stores {
            let store = BlockStore { block, last: block + 1 == stores, number: block + 1 };
            let bytes = self.bytes_of(block);
            let mut done = device.write_block(block, bytes).map_err(|e| (Step::Write, e));
            if done.is_ok() && store.last {
                done = device.flush().map_err(|e| (Step::Flush, e));
            }
            done.map_err(|(step, error)| Failure::Device(Broken { error, step, run: Run::Format, store, stores }))?;
        }
        (self.ahead, self.apart, self.anchored) = (false, false, true);
        Ok(())
    }

    /// Opens the store and, if a commit was cut short, recovers it on the device. Answers how many stores that took; 0
    /// if there was nothing to recover.
    ///
    /// The recovery is first made in memory, and what comes out opened: if that is refused, no byte was written, and
    /// image and session are as before. The work space is used for it.
    ///
    /// After a [`Failure::Device`] the store refuses every call with [`Refusal::NotReady`]: read the image back from the
    /// device and open it with a new store.
    ///
    /// ```
    /// use purse::{MemoryDevice, Store, WORK_SIZE};
    ///
    /// # let (mut kept, mut work) = (vec![0u8; 64 * 512], vec![0u8; WORK_SIZE]);
    /// # Store::new(&mut kept, &mut work).format()?;
    /// let mut image = kept.clone();
    /// let mut device = MemoryDevice::new(&mut kept);
    /// let mut store = Store::new(&mut image, &mut work);
    /// assert_eq!(store.open_on(&mut device)?, 0);
    /// # Ok::<(), purse::Failure<purse::OutsideDevice>>(())
    /// ```
    pub fn open_on<D: Device>(&mut self, device: &mut D) -> Result<u64, Failure<D::Error>> {
        self.together()?;
        let before = self.session;
        self.open()?;
        if !matches!(self.phase(), Phase::Recovering(_)) {
            return Ok(0);
        }
        if let Err(refusal) = self.try_redo() {
            self.session = before;
            return Err(refusal.into());
        }
        let stores = self.through_on(device)?;
        self.open()?;
        Ok(stores)
    }

    /// Commits the transaction on the device. Answers how many stores that took: 2k+2 for k changed blocks, 0 if
    /// nothing was changed.
    ///
    /// A [`Failure::Refused`] leaves device, image and transaction as they were. After a [`Failure::Device`],
    /// [`Broken::standing`] says what is in force, and the store refuses every call with [`Refusal::NotReady`]: read the
    /// image back from the device and open it with a new store.
    ///
    /// ```
    /// use purse::{MemoryDevice, Store, WORK_SIZE};
    ///
    /// # let (mut kept, mut work) = (vec![0u8; 64 * 512], vec![0u8; WORK_SIZE]);
    /// # Store::new(&mut kept, &mut work).format()?;
    /// # let mut image = kept.clone();
    /// # let mut device = MemoryDevice::new(&mut kept);
    /// # let mut store = Store::new(&mut image, &mut work);
    /// # store.open_on(&mut device)?;
    /// store.create(b"card0001")?;
    /// assert_eq!(store.commit_on(&mut device)?, 4);
    /// assert_eq!(image, kept);
    /// # Ok::<(), purse::Failure<purse::OutsideDevice>>(())
    /// ```
    pub fn commit_on<D: Device>(&mut self, device: &mut D) -> Result<u64, Failure<D::Error>> {
        self.together()?;
        self.commit()?;
        self.through_on(device)
    }

    /// Makes the stores of the commit or recovery under way and hands each to `put`, with the bytes of its block. What
    /// `put` has to do is what a [`Device`] does: it returns when the block is safe. Answers how many stores were made.
    ///
    /// Where `put` fails the store refuses every further call, as after [`Store::commit_on`].
    ///
    /// ```
    /// # let (mut image, mut work) = (vec![0u8; 64 * 512], vec![0u8; 16_384]);
    /// let mut store = purse::Store::new(&mut image, &mut work);
    /// store.format()?;
    /// store.open()?;
    /// store.create(b"card0001")?;
    /// store.commit()?;
    /// let mut kept = vec![];
    /// store.each_store(|s, bytes| {
    ///     kept.push((s.block, bytes.to_vec()));
    ///     Ok::<(), std::convert::Infallible>(())
    /// })?;
    /// assert_eq!(kept.iter().map(|k| k.0).collect::<Vec<_>>(), [1, 0, 34, 0]);
    /// assert_eq!(kept[0].1[..8], *b"card0001");
    /// # Ok::<(), purse::Failure<std::convert::Infallible>>(())
    /// ```
    pub fn each_store<E>(&mut self, mut put: impl FnMut(BlockStore, &Block) -> Result<(), E>) -> Result<u64, Failure<E>> {
        self.through(|store, bytes| put(store, bytes).map_err(|e| (Step::Write, e)))
    }

    /// The stores under way, on a device. Block 0 is written once more before the first store since the image was read: a
    /// program before this one may have been stopped between its write and its flush, or its flush may have failed, and
    /// what was read is then not what a power cut leaves.
    pub(crate) fn through_on<D: Device>(&mut self, device: &mut D) -> Result<u64, Failure<D::Error>> {
        let (run, stores) = self.under_way();
        if stores > 0 && !self.anchored {
            if let Err((step, error)) = put(device, 0, self.bytes_of(0)) {
                self.spend();
                let store = BlockStore { block: 0, last: false, number: 0 };
                return Err(Failure::Device(Broken { error, step, run, store, stores }));
            }
            self.anchored = true;
        }
        self.through(|store, bytes| put(device, store.block, bytes))
    }

    /// What is under way, and how many stores it has in all; 0 for nothing.
    fn under_way(&self) -> (Run, u64) {
        match self.phase() {
            Phase::Recovering(_) => (Run::Recovery, self.logged().count() as u64 + 1),
            Phase::Committing(_) => (Run::Commit, 2 * self.session.count.min(STAGED_MOST as u64) + 2),
            Phase::Closed | Phase::Ready => (Run::Commit, 0),
        }
    }

    /// An image in which blocks were stored that the device never got must not be brought to it in part.
    pub(crate) fn together(&self) -> Result<(), Refusal> {
        match self.apart {
            true => Err(Refusal::NotReady),
            false => Ok(()),
        }
    }

    /// The device failed: nothing may build on this image.
    fn spend(&mut self) {
        self.ahead = true;
        self.session = RawSession { blocks: self.session.blocks, ..RawSession::NEVER_OPENED };
    }

    /// The stores under way, each handed on before the next is made.
    fn through<E>(&mut self, mut put: impl FnMut(BlockStore, &Block) -> Result<(), (Step, E)>) -> Result<u64, Failure<E>> {
        let (run, stores) = self.under_way();
        let mut made = 0;
        while let Some(store) = self.advance()? {
            // Until the block is safe the image is ahead of the device, also if `put` panics.
            self.ahead = true;
            if let Err((step, error)) = put(store, self.bytes_of(store.block)) {
                self.spend();
                return Err(Failure::Device(Broken { error, step, run, store, stores }));
            }
            self.ahead = false;
            made += 1;
            if store.last {
                break;
            }
        }
        Ok(made)
    }

    /// Makes the recovery in memory, opens what comes out, and takes it back: blocks that it changes wait in the work
    /// space, which holds exactly as many as a log may list.
    fn try_redo(&mut self) -> Result<(), Refusal> {
        if self.work.len() != WORK_SIZE {
            return Err(Refusal::WorkSize);
        }
        let (before, apart) = (self.session, self.apart);
        let list = *self.bytes_of(0);
        for (kept, target) in self.work.chunks_mut(BLOCK_SIZE).zip(targets(&list)) {
            kept.copy_from_slice(block_in(self.image, target));
        }
        let opened = self.open_in_memory();
        for (kept, target) in self.work.chunks(BLOCK_SIZE).zip(targets(&list)) {
            self.image[BLOCK_SIZE * target as usize..][..BLOCK_SIZE].copy_from_slice(kept);
        }
        self.image[..BLOCK_SIZE].copy_from_slice(&list);
        (self.session, self.apart) = (before, apart);
        opened
    }

    /// The blocks that the list in block 0 names: those that a recovery stores, once open has accepted the list. None
    /// if there is no log.
    ///
    /// ```
    /// # let (mut image, mut work) = (vec![0u8; 64 * 512], vec![0u8; 16_384]);
    /// # let mut store = purse::Store::new(&mut image, &mut work);
    /// # store.format()?;
    /// # store.open()?;
    /// store.create(b"card0001")?;
    /// store.commit()?;
    /// // The plug is pulled behind the second of four stores.
    /// store.stores_in_memory().take(2).count();
    /// assert!(store.logged().eq([34]));
    /// # Ok::<(), purse::Refusal>(())
    /// ```
    pub fn logged(&self) -> impl Iterator<Item = u64> + '_ {
        self.image.first_chunk().into_iter().flat_map(targets)
    }

    /// A block that the store named: it lies in the image.
    fn bytes_of(&self, block: u64) -> &Block {
        block_in(self.image, block)
    }
}

/// The targets of a list: two bytes of each record of 16 bytes, up to the first that is empty.
fn targets(list: &Block) -> impl Iterator<Item = u64> + '_ {
    list.chunks_exact(16).map(|record| u64::from(u16::from_le_bytes([record[0], record[1]]))).take_while(|&target| target != 0)
}

fn block_in(image: &[u8], block: u64) -> &Block {
    let place = BLOCK_SIZE * block as usize;
    image[place..].first_chunk().expect("the store names blocks of the image only")
}
