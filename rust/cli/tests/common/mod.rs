//! What the tests share: a scratch folder, the tool with a time limit, the shim with its trace, boxes.

#![allow(dead_code, unused_imports)]

pub mod cases;
pub mod image;
pub mod lines;
pub mod place;
pub mod told;

pub use cases::*;
pub use image::*;
pub use lines::*;
pub use place::*;
use std::ffi::OsString;
use std::fs::{self, File};
use std::io::Write;
use std::os::unix::process::ExitStatusExt;
use std::path::{Path, PathBuf};
use std::process::{Child, Command, Stdio};
use std::sync::atomic::{AtomicUsize, Ordering};
use std::sync::{Mutex, Once, OnceLock};
use std::time::{Duration, Instant};
pub use told::*;

/// No command takes that long.
const LIMIT: Duration = Duration::from_secs(30);
pub const CUT: i32 = 86;

pub const EINTR: i32 = 4;
pub const EIO: i32 = 5;
pub const EBADF: i32 = 9;
pub const EAGAIN: i32 = 11;
pub const EACCES: i32 = 13;
pub const EMFILE: i32 = 24;
pub const ENOSPC: i32 = 28;
pub const EROFS: i32 = 30;
pub const ENOLCK: i32 = 37;

// ---- Scratch folders

/// A folder of its own, in memory where the system has such a place, gone at the end of a test that passes.
pub struct Scratch {
    pub path: PathBuf,
}

impl Scratch {
    pub fn new(tag: &str) -> Scratch {
        static COUNT: AtomicUsize = AtomicUsize::new(0);
        let memory = Path::new("/dev/shm");
        let base = if memory.is_dir() { memory.to_path_buf() } else { std::env::temp_dir() };
        let path = base.join(format!("purse-{tag}-{}-{}", std::process::id(), COUNT.fetch_add(1, Ordering::Relaxed)));
        fs::create_dir_all(&path).expect("scratch folder");
        Scratch { path }
    }

    pub fn at(&self, name: &str) -> PathBuf {
        self.path.join(name)
    }

    /// A file with these bytes.
    pub fn file(&self, name: &str, bytes: &[u8]) -> PathBuf {
        let path = self.at(name);
        fs::write(&path, bytes).expect("scratch file");
        path
    }
}

impl Drop for Scratch {
    fn drop(&mut self) {
        if !std::thread::panicking() {
            let _ = fs::remove_dir_all(&self.path);
        }
    }
}

// ---- The tool

/// What a run of the tool gave. Status below 0: killed by that signal.
#[derive(Clone, Debug)]
pub struct Out {
    pub status: i32,
    pub out: Vec<u8>,
    pub err: String,
}

impl Out {
    pub fn text(&self) -> String {
        String::from_utf8_lossy(&self.out).into_owned()
    }
}

extern "C" {
    fn kill(pid: i32, signal: i32) -> i32;
    fn mkfifo(path: *const std::ffi::c_char, mode: u32) -> i32;
}

pub fn make_fifo(path: &Path) {
    use std::os::unix::ffi::OsStrExt;
    let text = std::ffi::CString::new(path.as_os_str().as_bytes()).unwrap();
    assert_eq!(unsafe { mkfifo(text.as_ptr(), 0o644) }, 0, "mkfifo");
}

static WATCHED: Mutex<Vec<(u32, Instant)>> = Mutex::new(Vec::new());

/// Kills what runs for too long: a hang then shows as signal 9.
fn watch(pid: u32) {
    static START: Once = Once::new();
    START.call_once(|| {
        std::thread::spawn(|| loop {
            std::thread::sleep(Duration::from_millis(250));
            for &(pid, since) in WATCHED.lock().unwrap().iter() {
                if since.elapsed() > LIMIT {
                    unsafe { kill(pid as i32, 9) };
                }
            }
        });
    });
    WATCHED.lock().unwrap().push((pid, Instant::now()));
}

fn unwatch(pid: u32) {
    WATCHED.lock().unwrap().retain(|w| w.0 != pid);
}

/// A disturbance of one call, and what goes with it.
#[derive(Clone, Default)]
pub struct Shim {
    pub at: usize,
    pub what: String,
    /// The unflushed writes are lost when the program ends by itself.
    pub end: bool,
    /// The file that holds what is on the disk behind the system's cache.
    pub disk: Option<PathBuf>,
}

/// One call in the trace.
#[derive(Clone, Debug)]
pub struct Call {
    pub number: usize,
    pub function: String,
    pub class: char,
    pub length: i64,
    pub offset: i64,
    pub answer: i64,
    pub errno: i32,
}

pub struct Tool {
    command: Command,
    input: Option<Vec<u8>>,
    trace: Option<PathBuf>,
}

pub fn tool<S: Into<OsString> + Clone>(args: &[S]) -> Tool {
    let mut command = Command::new(env!("CARGO_BIN_EXE_purse"));
    command.args(args.iter().cloned().map(Into::into));
    command.stdin(Stdio::null()).stdout(Stdio::piped()).stderr(Stdio::piped());
    Tool { command, input: None, trace: None }
}

impl Tool {
    pub fn input(mut self, bytes: &[u8]) -> Tool {
        self.input = Some(bytes.to_vec());
        self.command.stdin(Stdio::piped());
        self
    }

    pub fn stdin(mut self, file: File) -> Tool {
        self.command.stdin(file);
        self
    }

    pub fn stdout(mut self, file: File) -> Tool {
        self.command.stdout(file);
        self
    }

    pub fn folder(mut self, path: &Path) -> Tool {
        self.command.current_dir(path);
        self
    }

    /// Puts the shim before the tool. The trace goes to `<image>.trace`.
    pub fn shim(mut self, image: &Path, shim: &Shim) -> Tool {
        let mut trace = image.as_os_str().to_os_string();
        trace.push(".trace");
        let trace = PathBuf::from(trace);
        let _ = fs::remove_file(&trace);
        self.command.env("LD_PRELOAD", library()).env("SHIM_IMAGE", image).env("SHIM_TRACE", &trace);
        if !shim.what.is_empty() {
            self.command.env("SHIM_AT", shim.at.to_string()).env("SHIM_DO", &shim.what);
        }
        if let Some(disk) = &shim.disk {
            self.command.env("SHIM_DISK", disk);
        }
        if shim.end {
            self.command.env("SHIM_END", "1");
        }
        self.trace = Some(trace);
        self
    }

    /// So many microseconds before each store, no trace.
    pub fn slow(mut self, image: &Path, microseconds: u32) -> Tool {
        self.command.env("LD_PRELOAD", library()).env("SHIM_IMAGE", image).env("SHIM_SLOW", microseconds.to_string());
        self
    }

    pub fn spawn(mut self) -> Running {
        let mut child = self.command.spawn().expect("the tool starts");
        watch(child.id());
        if let Some(bytes) = self.input {
            let mut pipe = child.stdin.take().unwrap();
            std::thread::spawn(move || {
                let _ = pipe.write_all(&bytes);
            });
        }
        Running { child, trace: self.trace }
    }

    pub fn run(self) -> Out {
        self.spawn().wait()
    }

    /// Runs and gives the trace too.
    pub fn traced(self) -> (Out, Vec<Call>) {
        let running = self.spawn();
        let trace = running.trace.clone().expect("a shim");
        let out = running.wait();
        (out, read_trace(&trace))
    }
}

pub struct Running {
    pub child: Child,
    trace: Option<PathBuf>,
}

impl Running {
    pub fn wait(self) -> Out {
        let pid = self.child.id();
        let o = self.child.wait_with_output().expect("the tool ends");
        unwatch(pid);
        let status = o.status.code().unwrap_or_else(|| -o.status.signal().unwrap_or(0));
        Out { status, out: o.stdout, err: String::from_utf8_lossy(&o.stderr).into_owned() }
    }
}

pub fn read_trace(path: &Path) -> Vec<Call> {
    let text = fs::read_to_string(path).unwrap_or_default();
    let call = |line: &str| {
        let w: Vec<&str> = line.split(' ').collect();
        assert_eq!(w.len(), 7, "a line of the trace: {line}");
        let n = |i: usize| w[i].parse::<i64>().unwrap();
        Call {
            number: n(0) as usize,
            function: w[1].to_string(),
            class: w[2].chars().next().unwrap(),
            length: n(3),
            offset: n(4),
            answer: n(5),
            errno: n(6) as i32,
        }
    };
    text.lines().map(call).collect()
}

/// The shim, compiled once for each test program.
fn library() -> &'static Path {
    static LIBRARY: OnceLock<PathBuf> = OnceLock::new();
    LIBRARY.get_or_init(|| {
        let source = Path::new(env!("CARGO_MANIFEST_DIR")).join("tests/shim.c");
        let folder = Path::new(env!("CARGO_TARGET_TMPDIR"));
        let (new, target) = (folder.join(format!("shim-{}.so", std::process::id())), folder.join("shim.so"));
        let made = Command::new("cc").args(["-shared", "-fPIC", "-O1", "-o"]).arg(&new).arg(&source).status();
        assert!(made.expect("cc").success(), "the shim does not compile");
        fs::rename(new, &target).expect("the shim in its place");
        target
    })
}

// ---- Traces

impl Call {
    /// A write to the image.
    pub fn is_store(&self) -> bool {
        self.class == 'i' && matches!(self.function.as_str(), "write" | "pwrite")
    }

    pub fn is_flush(&self) -> bool {
        self.class == 'i' && matches!(self.function.as_str(), "fdatasync" | "fsync")
    }
}

/// The stores of an undisturbed run: number of the call, block.
pub fn stores(trace: &[Call]) -> Vec<(usize, usize)> {
    let one = |c: &Call| {
        assert!(c.length == 512 && c.offset % 512 == 0 && c.answer == 512, "a store is not one whole block: {c:?}");
        (c.number, c.offset as usize / BLOCK)
    };
    trace.iter().filter(|c| c.is_store()).map(one).collect()
}

/// Which of the stores put the list of a commit into block 0: those right behind the images.
pub fn list_stores(stores: &[(usize, usize)]) -> Vec<usize> {
    (1..stores.len()).filter(|&i| stores[i].1 == 0 && (1..=32).contains(&stores[i - 1].1)).collect()
}

/// The order that the cut rule rests on, in a trace: the exclusive lock before the first look at the image, each store flushed before the next
/// and before anything is said on standard output.
pub fn assert_orderly(trace: &[Call], what: &str) {
    let (mut locked, mut unflushed) = (false, false);
    for c in trace {
        if c.function == "flock" && c.class == 'i' && c.answer == 0 {
            assert_eq!(c.length & 8, 0, "{what}: unlocked before the end: {c:?}");
            assert_eq!(c.length & 3, 2, "{what}: the lock of a change is exclusive: {c:?}");
            locked = true;
        }
        if c.class == 'i' && matches!(c.function.as_str(), "read" | "pread" | "write" | "pwrite") {
            assert!(locked, "{what}: the image is touched before it is locked: {c:?}");
        }
        if c.is_store() {
            assert!(!unflushed, "{what}: the store before is not flushed: {c:?}");
            unflushed = true;
        }
        if c.is_flush() && c.answer == 0 {
            unflushed = false;
        }
        if c.function == "write" && c.class == '1' {
            assert!(!unflushed, "{what}: said before it was flushed");
        }
    }
    assert!(!unflushed, "{what}: the last store is not flushed");
}

// ---- Words

pub const A: &str = "5010260000000417";
pub const B: &str = "5010260000000425";
pub const C: &str = "5010260000000433";
pub const D: &str = "5010260000000441";
pub const E: &str = "50102600000004AF";
/// A name that is in no box.
pub const NEXT: &str = "0A0B0C0D0E0F0102";

/// Bytes that tell their place.
pub fn pattern(seed: usize, n: usize) -> Vec<u8> {
    (0..n).map(|i| (i.wrapping_mul(31) ^ (i >> 8).wrapping_mul(17) ^ seed.wrapping_mul(101)) as u8 | 1).collect()
}

/// Runs on this image and asks for a status.
pub fn expect<S: Into<OsString> + Clone + std::fmt::Debug>(status: i32, args: &[S]) -> Out {
    let out = tool(args).run();
    assert_eq!(out.status, status, "{args:?}: {}{}", out.text(), out.err);
    out
}

pub fn path(p: &Path) -> String {
    p.to_str().expect("a path in UTF-8").to_string()
}

/// A small generator of numbers (xorshift), the same in every run.
pub struct Rng(pub u64);

impl Rng {
    pub fn next(&mut self) -> u64 {
        self.0 ^= self.0 << 13;
        self.0 ^= self.0 >> 7;
        self.0 ^= self.0 << 17;
        self.0.wrapping_mul(0x2545_f491_4f6c_dd1d)
    }

    pub fn below(&mut self, n: usize) -> usize {
        (self.next() >> 16) as usize % n
    }
}

// ---- Boxes

/// 64 blocks, four purses: of 1,300 bytes, of 1,480 in two pieces, empty, of 512.
pub fn small_box() -> Vec<u8> {
    let mut image = empty(64);
    add(&mut image, name(A), &pattern(1, 1300), Some(&[42, 43, 44]));
    add(&mut image, name(B), &pattern(2, 1480), Some(&[45, 47, 48]));
    add(&mut image, name(C), &[], None);
    add(&mut image, name(E), &pattern(3, 512), Some(&[46]));
    image
}

/// So many blocks, five purses; that of D lies in nine pieces with an extent block, that of E is of 40 blocks.
pub fn wide_box(blocks: usize) -> Vec<u8> {
    let mut image = empty(blocks);
    add(&mut image, name(A), &pattern(1, 1300), Some(&[42, 43, 44]));
    let odd: Vec<usize> = (0..9).map(|i| 46 + 2 * i).collect();
    add(&mut image, name(D), &pattern(4, 9 * 512 - 100), Some(&odd));
    add(&mut image, name(B), &pattern(2, 1480), Some(&[47, 49, 51]));
    add(&mut image, name(C), &[], None);
    add(&mut image, name(E), &pattern(5, 40 * 512 - 3), None);
    image
}

/// The other bit for a block.
pub fn flip(image: &mut [u8], b: usize) {
    image[33 * BLOCK + b / 8] ^= 1 << (b % 8);
}

/// A log of one block that changes nothing.
pub fn idle_log(image: &mut [u8]) {
    let last = image.len() / BLOCK - 1;
    image.copy_within(last * BLOCK.., BLOCK);
    image[..2].copy_from_slice(&(last as u16).to_le_bytes());
}

/// 64 blocks: in record 2 a purse of 600 bytes in 42 and 43; in record 5 one of the blocks 44, 46, 48, 50 and 52 with the extent block 54; in
/// record 9 an empty one.
pub fn worked_box() -> Vec<u8> {
    let mut image = empty(64);
    let mut set = |at: usize, bytes: &[u8]| image[at..at + bytes.len()].copy_from_slice(bytes);
    let record = |i: usize| 34 * BLOCK + 32 * i;
    set(record(2), &[1, 2, 3, 4, 5, 6, 7, 8, 88, 2, 0, 0, 0, 0, 0, 0, 42, 0, 2, 0]);
    set(record(5), &[0x42, 0x42, 0x42, 0x42, 0x42, 0x42, 0x42, 0x42, 0, 10, 0, 0, 1, 0, 0, 0, 54, 0, 5, 0]);
    set(record(9), &[0x43; 8]);
    set(54 * BLOCK, &[44, 0, 1, 0, 46, 0, 1, 0, 48, 0, 1, 0, 50, 0, 1, 0, 52, 0, 1, 0]);
    set(42 * BLOCK, &pattern(6, 600));
    [42, 43, 44, 46, 48, 50, 52, 54].into_iter().for_each(|b| flip(&mut image, b));
    image
}

pub fn map_of(image: &[u8]) -> Map {
    committed(image).expect("a sound image")
}

/// The map without the second purse of a long put that was cut.
pub fn without_second(mut map: Map) -> Map {
    map.remove(&SECOND);
    map
}

/// In words, for messages.
pub fn show(map: &Map) -> String {
    map.iter()
        .map(|(n, b)| format!("{} {} bytes sum {}", hex(n), b.len(), b.iter().map(|&b| b as usize).sum::<usize>()))
        .collect::<Vec<_>>()
        .join("; ")
}

pub fn assert_map(found: Option<Map>, wanted: &Map, what: &str) {
    match found {
        None => panic!("{what}: the image is not sound"),
        Some(map) => assert!(map == *wanted, "{what}:\n found {}\nwanted {}", show(&map), show(wanted)),
    }
}
