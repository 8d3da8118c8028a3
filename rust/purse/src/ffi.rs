//! The C interface of the proved store, as `include/purse.h` has it: the functions that are lent the
//! four numbers of the session and its 32 cells. A slice crosses as a pointer and a length; the
//! pointer leads to an element even where the length is 0. `refusal` is 0, or the number of the refusal.

/// `purse_session`. `phase`: 0 closed, 1 ready, 2 committing, 3 recovering; `place`: the stores
/// made so far of a commit or recovery, else 0. The first `count` cells of `staged` are in use. The
/// store makes no other values; it reads other phases as closed, and a place where none is due as 0.
#[repr(C)]
#[derive(Clone, Copy, Debug, PartialEq, Eq)]
pub struct RawSession {
    /// Blocks of the device, 0 if never opened.
    pub blocks: u64,
    /// The number of the phase.
    pub phase: u64,
    /// How many stores were made.
    pub place: u64,
    /// How many blocks the transaction changed.
    pub count: u64,
    /// Their numbers.
    pub staged: [u32; 32],
}

impl RawSession {
    /// A session never opened.
    pub const NEVER_OPENED: RawSession = RawSession { blocks: 0, phase: 0, place: 0, count: 0, staged: [0; 32] };

    /// Its first four numbers and its cells, to be read.
    #[inline]
    pub(crate) fn parts(&self) -> (Numbers, Cells) {
        (core::ptr::from_ref(self).cast(), &self.staged)
    }

    /// The same, to be changed.
    #[inline]
    pub(crate) fn parts_mut(&mut self) -> (NumbersMut, CellsMut) {
        let whole: *mut RawSession = self;
        // Both lie in `whole`, one behind the other.
        (whole.cast(), unsafe { core::ptr::addr_of_mut!((*whole).staged) })
    }
}

/// `purse_finished`. `fault`, of open: for refusal 10 the wrong record of block 0, for 22 the file record, for 23 the block; else 0.
#[repr(C)]
pub struct Finished {
    pub refusal: u32,
    pub fault: u64,
}

/// `purse_committed`.
#[repr(C)]
pub struct Committed {
    pub refusal: u32,
    pub stores: u64,
}

/// `purse_advanced`. `number` 0: nothing is under way.
#[repr(C)]
pub struct Advanced {
    pub refusal: u32,
    pub block: u64,
    pub last: u64,
    pub number: u64,
}

/// `purse_counted`.
#[repr(C)]
pub struct Counted {
    pub refusal: u32,
    pub count: u64,
}

/// `purse_recorded`.
#[repr(C)]
pub struct Recorded {
    pub refusal: u32,
    pub used: u32,
    pub size: u64,
}

/// `purse_run`. `count` 0: none.
#[repr(C)]
pub struct Run {
    pub refusal: u32,
    pub first: u32,
    pub count: u32,
}

/// `purse_loaded`. `kind`: 0 refused, 1 a line was taken up, 2 an advance was made, 3 no line is left; `line` 0: none is named.
#[repr(C)]
pub struct Loaded {
    pub refusal: u32,
    pub kind: u32,
    pub line: u64,
    pub stores: u64,
    pub block: u64,
    pub last: u64,
    pub number: u64,
    pub next: u64,
}

/// `purse_converted`. `line` 0: none is named; `length` 0 with a refusal.
#[repr(C)]
pub struct Converted {
    pub refusal: u32,
    pub line: u64,
    pub length: u64,
}

/// A first block and how many blocks there are from it on: two cells of a lent list.
#[repr(C)]
#[derive(Clone, Copy, Debug, Default, PartialEq, Eq)]
pub struct Extent {
    /// The first block.
    pub first: u32,
    /// How many blocks there are.
    pub count: u32,
}

type Bytes = *const u8;
type BytesMut = *mut u8;
type Cells = *const [u32; 32];
type CellsMut = *mut [u32; 32];
type Numbers = *const [u64; 4];
type NumbersMut = *mut [u64; 4];

#[rustfmt::skip]
extern "C" {
    pub fn purse_format_v(device: BytesMut, len: usize, numbers: NumbersMut, staged: CellsMut) -> Finished;
    pub fn purse_open_v(device: Bytes, len: usize, numbers: NumbersMut, staged: CellsMut) -> Finished;
    pub fn purse_advance_v(device: BytesMut, len: usize, work: Bytes, work_len: usize, numbers: NumbersMut, staged: CellsMut) -> Advanced;
    pub fn purse_commit_v(device: Bytes, len: usize, work: Bytes, work_len: usize, numbers: NumbersMut, staged: Cells) -> Committed;
    pub fn purse_abort_v(device: Bytes, len: usize, work: Bytes, work_len: usize, numbers: NumbersMut, staged: CellsMut) -> Finished;
    pub fn purse_create_v(device: Bytes, len: usize, work: BytesMut, work_len: usize, numbers: NumbersMut, staged: CellsMut,
        name: Bytes, name_len: usize) -> Finished;
    pub fn purse_remove_v(device: Bytes, len: usize, work: BytesMut, work_len: usize, numbers: NumbersMut, staged: CellsMut,
        name: Bytes, name_len: usize) -> Finished;
    pub fn purse_rename_v(device: Bytes, len: usize, work: BytesMut, work_len: usize, numbers: NumbersMut, staged: CellsMut,
        name: Bytes, name_len: usize, new_name: Bytes, new_len: usize) -> Finished;
    pub fn purse_write_v(device: Bytes, len: usize, work: BytesMut, work_len: usize, numbers: NumbersMut, staged: CellsMut,
        name: Bytes, name_len: usize, x: u64, bytes: Bytes, n: usize) -> Finished;
    pub fn purse_set_size_v(device: Bytes, len: usize, work: BytesMut, work_len: usize, numbers: NumbersMut, staged: CellsMut,
        name: Bytes, name_len: usize, size: u64) -> Finished;
    pub fn purse_read_v(device: Bytes, len: usize, work: Bytes, work_len: usize, numbers: Numbers,
        name: Bytes, name_len: usize, staged: Cells, x: u64, buffer: BytesMut, n: usize) -> Counted;
    pub fn purse_size_v(device: Bytes, len: usize, work: Bytes, work_len: usize, numbers: Numbers,
        name: Bytes, name_len: usize, staged: Cells) -> Counted;
    pub fn purse_free_count_v(device: Bytes, len: usize, work: Bytes, work_len: usize, numbers: Numbers, staged: Cells) -> Counted;
    pub fn purse_record_v(device: Bytes, len: usize, work: Bytes, work_len: usize, numbers: Numbers, i: u64, staged: Cells, name: *mut [u8; 8]) -> Recorded;
    pub fn purse_nth_extent_v(device: Bytes, len: usize, work: Bytes, work_len: usize, numbers: Numbers,
        name: Bytes, name_len: usize, staged: Cells, from: u64, n: u64, k: u64) -> Run;
    pub fn purse_run_list_v(device: Bytes, len: usize, work: Bytes, work_len: usize, numbers: Numbers,
        name: Bytes, name_len: usize, staged: Cells, from: u64, n: u64, list: *mut u32, cells: usize) -> Counted;
    pub fn purse_load_begin_v(device: Bytes, len: usize, work: Bytes, work_len: usize, numbers: Numbers, staged: Cells) -> Finished;
    pub fn purse_load_step_v(device: BytesMut, len: usize, work: BytesMut, work_len: usize, numbers: NumbersMut, staged: CellsMut,
        text: Bytes, text_len: usize, at: u64) -> Loaded;
    pub fn purse_convert_h_v(text: Bytes, text_len: usize, out: BytesMut, out_len: usize) -> Converted;
    pub fn purse_convert_d_v(text: Bytes, text_len: usize, out: BytesMut, out_len: usize) -> Converted;
}
