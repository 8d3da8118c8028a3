//! Limits, sessions, refusals and answers.

pub const BLOCK: usize = 512;
pub const FEWEST_BLOCKS: usize = 64;
pub const MOST_BLOCKS: usize = 4096;
pub const LOG_LENGTH: usize = 32;
pub const WORK_SIZE: usize = LOG_LENGTH * BLOCK;
pub const BIT_TABLE: u32 = 33;
pub const RECORDS: u32 = 34;
pub const RECORD_COUNT: usize = 128;
pub const RECORD_SIZE: usize = 32;
pub const DATA: u32 = 42;
pub const NODE_SLOTS: usize = 128;
pub const MAX_FILE_SIZE: u64 = 1_048_576;
pub const MAX_FILE_BLOCKS: usize = 2048;
pub const MAX_EXTENTS: usize = 512;

/// What a session is about to do. The place is the number of stores made so far.
#[derive(Clone, Copy, Debug, PartialEq, Eq)]
pub enum Phase {
    Closed,
    Ready,
    Committing(usize),
    Recovering(usize),
}

/// The caller keeps it between calls. The first `count` cells of `staged` are in use.
#[derive(Clone, Debug, PartialEq, Eq)]
pub struct Session {
    pub blocks: usize,
    pub phase: Phase,
    pub staged: [u32; LOG_LENGTH],
    pub count: usize,
}

impl Session {
    /// On a device of so many blocks, with nothing staged.
    pub fn fresh(blocks: usize, phase: Phase) -> Self {
        Session { blocks, phase, staged: [0; LOG_LENGTH], count: 0 }
    }

    /// Closed, with N 0.
    pub fn never_opened() -> Self {
        Session::fresh(0, Phase::Closed)
    }

    /// The staged block numbers. A count past the array is read as the array's length.
    pub fn staged(&self) -> &[u32] {
        &self.staged[..self.count.min(LOG_LENGTH)]
    }
}

/// A stretch of blocks: the first one and how many there are.
#[derive(Clone, Copy, Debug, Default, PartialEq, Eq)]
pub struct Extent {
    pub first: u32,
    pub count: u32,
}

/// One block store, as advance answers it.
#[derive(Clone, Copy, Debug, PartialEq, Eq)]
pub struct Store {
    pub block: u32,
    pub last: bool,
    pub number: usize,
}

/// A used file record.
#[derive(Clone, Copy, Debug, PartialEq, Eq)]
pub struct File {
    pub name: [u8; 8],
    pub size: u32,
}

/// Why a call was refused, in the order of document 01's numbers; the last six are document 02's.
#[derive(Clone, Copy, Debug, PartialEq, Eq)]
pub enum Refusal {
    DeviceSize,
    WorkSize,
    BadName,
    TooLarge,
    /// The lowest wrong record of the commit block.
    BadHeader(usize),
    NotReady,
    Unknown,
    Taken,
    NoRecord,
    NoSpace,
    TooManyExtents,
    TooManyStaged,
    ListShort,
    /// "line longer than 64 bytes"
    LineTooLong,
    /// "line not of this form or without its feed"
    BadLine,
    /// "record damaged, with its number"
    DamagedRecord(usize),
    /// "block damaged, with its number"
    DamagedBlock(usize),
    /// "line already in the wanted spelling"
    SameSpelling,
    /// "output longer than the buffer"
    BufferShort,
}

impl Refusal {
    /// The number that the papers give it.
    pub fn number(self) -> u32 {
        match self {
            Refusal::DeviceSize => 1,
            Refusal::WorkSize => 2,
            Refusal::BadName => 3,
            Refusal::TooLarge => 4,
            Refusal::BadHeader(_) => 10,
            Refusal::NotReady => 12,
            Refusal::Unknown => 13,
            Refusal::Taken => 14,
            Refusal::NoRecord => 15,
            Refusal::NoSpace => 16,
            Refusal::TooManyExtents => 17,
            Refusal::TooManyStaged => 18,
            Refusal::ListShort => 19,
            Refusal::LineTooLong => 20,
            Refusal::BadLine => 21,
            Refusal::DamagedRecord(_) => 22,
            Refusal::DamagedBlock(_) => 23,
            Refusal::SameSpelling => 24,
            Refusal::BufferShort => 25,
        }
    }
}
