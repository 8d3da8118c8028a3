//! The refusals.

use core::error::Error;
use core::fmt;

/// Why a call was refused, in the order of the numbers of documents 01 and 02. A refusal changes nothing.
///
/// ```
/// let refusal = purse::Refusal::NoSpace;
/// assert_eq!(refusal.number(), 16);
/// assert_eq!(refusal.to_string(), "refused 16: too few blocks are free");
/// let damaged = purse::Refusal::DamagedRecord(5);
/// assert_eq!(damaged.to_string(), "refused 22: a file record is damaged, record 5");
/// ```
#[non_exhaustive]
#[derive(Clone, Copy, Debug, PartialEq, Eq, Hash)]
pub enum Refusal {
    /// 1: the device is not 64 to 4,096 blocks of 512 bytes, or not the one of the session.
    DeviceSize,
    /// 2: the work space is not 16,384 bytes.
    WorkSize,
    /// 3: a name is not 8 bytes, or all zero.
    BadName,
    /// 4: a size over 1,048,576.
    TooLarge,
    /// 10: the commit block, block 0, is wrong; the lowest wrong record of it, 0 to 31.
    BadHeader(u64),
    /// 12: the session is not ready.
    NotReady,
    /// 13: no file has this name.
    Unknown,
    /// 14: a file has this name already.
    Taken,
    /// 15: all 128 records are used.
    NoRecord,
    /// 16: not enough free blocks.
    NoSpace,
    /// 17: more than 512 extents in a file.
    TooManyExtents,
    /// 18: more than 32 blocks in a transaction.
    TooManyStaged,
    /// 19: the lent list is shorter than the run list.
    ListShort,
    /// 20: a line that is loaded or converted has more than 64 bytes.
    LineTooLong,
    /// 21: a line that is loaded or converted is not of its form, or has no feed.
    BadLine,
    /// 22: a file record is damaged; the lowest damaged one, 0 to 127. Of records with the same name the later one counts as damaged.
    DamagedRecord(u64),
    /// 23: all file records are sound, but a block is marked wrong in the bit table or used twice; the lowest such block, 0 to 4,095. It may
    /// lie past the end of the device.
    DamagedBlock(u64),
    /// 24: a line that is converted is already in the wanted spelling.
    SameSpelling,
    /// 25: the output of a conversion is longer than the buffer.
    OutputTooLong,
}

impl Refusal {
    /// The number that documents 01 and 02 give it.
    pub fn number(self) -> u32 {
        match self {
            Refusal::DeviceSize => 1,
            Refusal::WorkSize => 2,
            Refusal::BadName => 3,
            Refusal::TooLarge => 4,
            Refusal::BadHeader(_) => 10,
            Refusal::NotReady => 12,
            Refusal::Unknown => 13,
            Refusal::Taken => 14,
            Refusal::NoRecord => 15,
            Refusal::NoSpace => 16,
            Refusal::TooManyExtents => 17,
            Refusal::TooManyStaged => 18,
            Refusal::ListShort => 19,
            Refusal::LineTooLong => 20,
            Refusal::BadLine => 21,
            Refusal::DamagedRecord(_) => 22,
            Refusal::DamagedBlock(_) => 23,
            Refusal::SameSpelling => 24,
            Refusal::OutputTooLong => 25,
        }
    }

    /// What the number says, in words.
    pub fn sentence(self) -> &'static str {
        match self {
            Refusal::DeviceSize => "the device is not 64 to 4096 blocks of 512 bytes, or not the one that was opened",
            Refusal::WorkSize => "the work space is not 16384 bytes",
            Refusal::BadName => "a name is not 8 bytes, or all zero",
            Refusal::TooLarge => "the file would be longer than 1048576 bytes",
            Refusal::BadHeader(_) => "the list in the commit block is damaged",
            Refusal::NotReady => "the session is closed, committing or recovering",
            Refusal::Unknown => "no file has this name",
            Refusal::Taken => "a file has this name",
            Refusal::NoRecord => "all 128 file records are in use",
            Refusal::NoSpace => "too few blocks are free",
            Refusal::TooManyExtents => "the file would lie in more than 512 pieces",
            Refusal::TooManyStaged => "the transaction would change more than 32 blocks",
            Refusal::ListShort => "the list lent is too short",
            Refusal::LineTooLong => "the line is longer than 64 bytes",
            Refusal::BadLine => "the line is not serial;letter;amount, or has no line feed",
            Refusal::DamagedRecord(_) => "a file record is damaged",
            Refusal::DamagedBlock(_) => "a block is marked wrong in the bit table, or used twice",
            Refusal::SameSpelling => "the line is already in the wanted spelling",
            Refusal::OutputTooLong => "the output is longer than the buffer",
        }
    }

    /// The refusal of a number, with the record or block that goes with 10, 22 and 23.
    #[cold]
    pub(crate) fn of(number: u32, fault: u64) -> Refusal {
        match number {
            1 => Refusal::DeviceSize,
            2 => Refusal::WorkSize,
            3 => Refusal::BadName,
            4 => Refusal::TooLarge,
            10 => Refusal::BadHeader(fault),
            12 => Refusal::NotReady,
            13 => Refusal::Unknown,
            14 => Refusal::Taken,
            15 => Refusal::NoRecord,
            16 => Refusal::NoSpace,
            17 => Refusal::TooManyExtents,
            18 => Refusal::TooManyStaged,
            19 => Refusal::ListShort,
            20 => Refusal::LineTooLong,
            21 => Refusal::BadLine,
            22 => Refusal::DamagedRecord(fault),
            23 => Refusal::DamagedBlock(fault),
            24 => Refusal::SameSpelling,
            25 => Refusal::OutputTooLong,
            _ => unreachable!("the store answers the numbers of documents 01 and 02 only, not {number}"),
        }
    }
}

impl fmt::Display for Refusal {
    fn fmt(&self, f: &mut fmt::Formatter) -> fmt::Result {
        write!(f, "refused {}: {}", self.number(), self.sentence())?;
        match self {
            Refusal::BadHeader(record) | Refusal::DamagedRecord(record) => write!(f, ", record {record}"),
            Refusal::DamagedBlock(block) => write!(f, ", block {block}"),
            _ => Ok(()),
        }
    }
}

impl Error for Refusal {}
