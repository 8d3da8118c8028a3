//! The Monday file: a purse for each line of a text, one transaction each.

use core::error::Error;
use core::fmt;

use crate::device::Device;
use crate::failure::{Failure, Standing};
use crate::ffi;
use crate::store::{lend, lend_mut, settle};
use crate::{BlockStore, Refusal, Store};

/// What a step of a load did.
#[derive(Clone, Copy, Debug, PartialEq, Eq)]
pub enum LoadStep {
    /// It took up a line. So many steps store it: 8.
    Started(u64),
    /// It stored one block of a line, or of a commit that no load began.
    Stored(BlockStore),
    /// A commit was under way that had nothing to store. No store of its own makes such a session.
    Idle,
    /// No line is left.
    NoneLeft,
}

/// Why a step of a load was refused. It changes nothing, and leaves the load at its place.
///
/// ```
/// use purse::{LoadRefusal, Refusal};
///
/// let refused = LoadRefusal { line: Some(3), refusal: Refusal::Taken };
/// assert_eq!(refused.to_string(), "refused 14: a file has this name, line 3");
/// ```
#[derive(Clone, Copy, Debug, PartialEq, Eq)]
pub struct LoadRefusal {
    /// The line, counted from 1. None with 1, 2 and 12, which come before any line.
    pub line: Option<u64>,
    /// Why.
    pub refusal: Refusal,
}

impl fmt::Display for LoadRefusal {
    fn fmt(&self, f: &mut fmt::Formatter) -> fmt::Result {
        self.refusal.fmt(f)?;
        self.line.map_or(Ok(()), |line| write!(f, ", line {line}"))
    }
}

impl Error for LoadRefusal {
    fn source(&self) -> Option<&(dyn Error + 'static)> {
        Some(&self.refusal)
    }
}

// The calls themselves; for their safety see those in `store`.
impl Store<'_> {
    /// Whether a load may begin: the session is ready and nothing is staged, else it gives [`Refusal::NotReady`]. It changes nothing.
    #[inline]
    pub fn load_begin(&self) -> Result<(), Refusal> {
        let ((d, n), (w, m)) = (lend(self.image), lend(self.work));
        let (s, c) = self.session.parts();
        let answer = unsafe { ffi::purse_load_begin_v(d, n, w, m, s, c) };
        settle(answer.refusal, answer.fault, ())
    }

    /// One step of a load. On a ready session with nothing staged it takes up the line at `place`, one transaction that
    /// makes a purse, and moves `place` behind it. On a committing one it stores one block in the image, as
    /// [`Store::advance`] does: write it to the device and flush it there before the next step.
    /// [`Store::load_line_on`] does all of this for a line.
    ///
    /// A load is its place in the text, first 0, and nothing else; any place is taken. After a cut it must not go on at a
    /// place that has passed a line which is not in the store.
    #[inline]
    pub fn load_step(&mut self, text: &[u8], place: &mut usize) -> Result<LoadStep, LoadRefusal> {
        let refused = |refusal| LoadRefusal { line: None, refusal };
        self.settled().map_err(refused)?;
        let ((d, n), (w, m), (t, l)) = (lend_mut(self.image), lend_mut(self.work), lend(text));
        let (s, c) = self.session.parts_mut();
        let answer = unsafe { ffi::purse_load_step_v(d, n, w, m, s, c, t, l, *place as u64) };
        let line = (answer.line != 0).then_some(answer.line);
        settle(answer.refusal, 0, ()).map_err(|refusal| LoadRefusal { line, refusal })?;
        *place = answer.next as usize;
        Ok(match (answer.kind, answer.number) {
            (1, _) => LoadStep::Started(answer.stores),
            (2, 0) => LoadStep::Idle,
            (2, number) => LoadStep::Stored(BlockStore { block: answer.block, last: answer.last != 0, number }),
            _ => LoadStep::NoneLeft,
        })
    }
}

/// A load: a text, and the place in it of the next line.
///
/// ```
/// use purse::Load;
///
/// let mut load = Load::new(b"04A1B2C3;H;1250\n3283263749;D;500\n");
/// assert_eq!((load.place(), load.line()), (0, 1));
/// assert!(load.skip_line());
/// assert_eq!((load.place(), load.line()), (16, 2));
/// ```
#[derive(Clone, PartialEq, Eq)]
pub struct Load<'t> {
    text: &'t [u8],
    place: usize,
    line: u64,
}

impl<'t> Load<'t> {
    /// From the first line of a text on.
    pub fn new(text: &'t [u8]) -> Self {
        Load::of_part(text, 1)
    }

    /// The same where the text is a part of a file and begins with this line of it, counted from 1. The first
    /// [`LOAD_ENOUGH`] bytes of a part are enough: a load ends within them, or is refused there.
    pub fn of_part(text: &'t [u8], first: u64) -> Self {
        Load { text, place: 0, line: first }
    }

    /// The text.
    pub fn text(&self) -> &'t [u8] {
        self.text
    }

    /// Where in the text the next line begins.
    pub fn place(&self) -> usize {
        self.place
    }

    /// The number of the next line.
    pub fn line(&self) -> u64 {
        self.line
    }

    /// Passes over the next line, whatever it is; false if none is left.
    pub fn skip_line(&mut self) -> bool {
        let rest = &self.text[self.place..];
        if rest.is_empty() {
            return false;
        }
        self.place += rest.iter().position(|&b| b == b'\n').map_or(rest.len(), |feed| feed + 1);
        self.line = self.line.saturating_add(1);
        true
    }
}

impl fmt::Debug for Load<'_> {
    fn fmt(&self, f: &mut fmt::Formatter) -> fmt::Result {
        f.debug_struct("Load").field("place", &self.place).field("line", &self.line).finish_non_exhaustive()
    }
}

/// Bytes of a text that are enough to load: no more than 128 lines of at most 65 bytes are taken, and the first 65 bytes
/// behind them settle what the next one is refused with.
pub const LOAD_ENOUGH: usize = 16_384;

/// Bytes of a line that is loaded or converted, at most, without its feed.
pub const LINE_MOST: usize = 64;

const _: () = assert!((crate::RECORDS + 1) * (LINE_MOST + 1) <= LOAD_ENOUGH);

/// A line that is stored and in force.
#[derive(Clone, Copy, Debug, PartialEq, Eq)]
pub struct LoadedLine {
    /// Its number.
    pub line: u64,
    /// How many stores it took.
    pub stores: u64,
}

/// Where and why a load stopped. The lines that it loaded before are in force.
#[non_exhaustive]
#[derive(Clone, Copy, Debug, PartialEq, Eq)]
pub struct LoadFailure<E> {
    /// The line that was refused, or that a store failed of. None where no line was come to.
    pub line: Option<u64>,
    /// Why. A refused line leaves nothing.
    pub failure: Failure<E>,
}

impl<E> LoadFailure<E> {
    /// The line at which to go on: behind the one named where that is in force, else at that one. Where it may be in
    /// force, it is found taken then (14) if it is.
    pub fn go_on(&self) -> Option<u64> {
        self.line.map(|line| line.saturating_add(u64::from(in_force(&self.failure))))
    }
}

/// Whether the line counts all the same.
fn in_force<E>(failure: &Failure<E>) -> bool {
    matches!(failure, Failure::Device(broken) if broken.standing() == Standing::InForceAfterRecovery)
}

impl<E: fmt::Display> fmt::Display for LoadFailure<E> {
    fn fmt(&self, f: &mut fmt::Formatter) -> fmt::Result {
        if let Some(line) = self.line {
            write!(f, "line {line}: ")?;
        }
        self.failure.fmt(f)
    }
}

impl<E: Error + 'static> Error for LoadFailure<E> {
    fn source(&self) -> Option<&(dyn Error + 'static)> {
        Some(&self.failure)
    }
}

impl<'a> Store<'a> {
    /// Loads one line on the device: takes it up, and writes each of its stores through. None: no line is left. It begins on
    /// a ready session with nothing staged, else it is refused with 12.
    ///
    /// The load moves behind a line that is in force, and stays at one that is refused, that is not in force or that may be:
    /// a line that was passed over would be lost. After a [`Failure::Device`] the store refuses every call with
    /// [`Refusal::NotReady`]: read the image back, open it with a new store, and go on with the same load there.
    ///
    /// ```
    /// use purse::{Load, MemoryDevice, Store, WORK_SIZE};
    ///
    /// # let (mut kept, mut work) = (vec![0u8; 64 * 512], vec![0u8; WORK_SIZE]);
    /// # Store::new(&mut kept, &mut work).format().unwrap();
    /// # let mut image = kept.clone();
    /// # let mut device = MemoryDevice::new(&mut kept);
    /// # let mut store = Store::new(&mut image, &mut work);
    /// # store.open_on(&mut device).unwrap();
    /// let mut load = Load::new(b"04A1B2C3;H;1250\n3283263749;D;500\n");
    /// while let Some(done) = store.load_line_on(&mut device, &mut load)? {
    ///     println!("line {}: {} stores", done.line, done.stores);
    /// }
    /// assert_eq!(store.size(&[4, 0x04, 0xa1, 0xb2, 0xc3, 0, 0, 0]), Ok(8));
    /// # Ok::<(), purse::LoadFailure<purse::OutsideDevice>>(())
    /// ```
    pub fn load_line_on<D: Device>(&mut self, device: &mut D, load: &mut Load) -> Result<Option<LoadedLine>, LoadFailure<D::Error>> {
        let begun = self.together().and_then(|()| self.load_begin());
        begun.map_err(|refusal| LoadFailure { line: None, failure: refusal.into() })?;
        let (line, mut place) = (load.line, load.place);
        match self.load_step(load.text, &mut place) {
            Ok(LoadStep::Started(_)) => {}
            // A load that has begun advances nothing: none is left.
            Ok(_) => return Ok(None),
            Err(LoadRefusal { line: named, refusal }) => {
                return Err(LoadFailure { line: named.map(|_| line), failure: refusal.into() });
            }
        }
        let stored = self.through_on(device);
        if stored.as_ref().err().is_none_or(in_force) {
            (load.place, load.line) = (place, line.saturating_add(1));
        }
        match stored {
            Ok(stores) => Ok(Some(LoadedLine { line, stores })),
            Err(failure) => Err(LoadFailure { line: Some(line), failure }),
        }
    }

    /// Loads all lines that are left on the device, one for each step of the iterator, as [`Store::load_line_on`] does. It
    /// ends behind the last line, or behind the first failure.
    ///
    /// ```
    /// use purse::{Failure, Load, MemoryDevice, Refusal, Store, WORK_SIZE};
    ///
    /// # let (mut kept, mut work) = (vec![0u8; 64 * 512], vec![0u8; WORK_SIZE]);
    /// # Store::new(&mut kept, &mut work).format().unwrap();
    /// # let mut image = kept.clone();
    /// # let mut device = MemoryDevice::new(&mut kept);
    /// # let mut store = Store::new(&mut image, &mut work);
    /// # store.open_on(&mut device).unwrap();
    /// // The third line is the card of the first.
    /// let mut load = Load::new(b"04A1B2C3;H;1250\n69495546249912580;D;5\n3283263748;D;9\n");
    /// let lines: Vec<_> = store.load_on(&mut device, &mut load).collect();
    /// assert_eq!(lines.iter().filter(|line| line.is_ok()).count(), 2);
    /// let stopped = lines[2].unwrap_err();
    /// assert_eq!((stopped.line, stopped.failure), (Some(3), Failure::Refused(Refusal::Taken)));
    /// assert_eq!(load.line(), 3);
    /// ```
    pub fn load_on<'s, 't, D: Device>(
        &'s mut self,
        device: &'s mut D,
        load: &'s mut Load<'t>,
    ) -> impl Iterator<Item = Result<LoadedLine, LoadFailure<D::Error>>> + use<'s, 'a, 't, D> {
        let mut over = false;
        core::iter::from_fn(move || {
            if over {
                return None;
            }
            let line = self.load_line_on(device, load).transpose();
            over = !matches!(line, Some(Ok(_)));
            line
        })
    }
}
