//! Times each call of the proved store beside the plain Rust store, on the same bytes, in one run.
//! `bench [ROUNDS]`. A ratio above 1 says that the proved store is the faster one.

mod clock;
mod images;

use clock::{spread, Pair, Table};
use images::{name, Image};
use purse::{Extent, RawSession, Store};
use std::hint::black_box;
use std::time::Instant;

/// The two stores at the same image: `work` is lent to both in turn.
struct Bench {
    device: Vec<u8>,
    work: Vec<u8>,
    raw: RawSession,
    plain: plain::Session,
    rounds: usize,
}

impl Bench {
    fn new(image: &Image, rounds: usize) -> Self {
        let mut device = image.device.clone();
        let mut work = vec![0u8; purse::WORK_SIZE];
        let mut store = Store::new(&mut device, &mut work);
        store.open_in_memory().expect("the image opens");
        let raw = store.session();
        let mut plain = plain::Session::never_opened();
        plain::open(&device, &mut plain).expect("the image opens");
        Bench { device, work, raw, plain, rounds }
    }

    /// Times one call that only reads, made over and over.
    fn look(&mut self, mut proved: impl FnMut(&Store), mut rust: impl FnMut(&[u8], &[u8], &plain::Session)) -> Pair {
        let (mut d, mut w) = (self.device.clone(), self.work.clone());
        let store = Store::resume(&mut d, &mut w, self.raw);
        spread(self.rounds, |n, first| {
            for _ in 0..n {
                if first {
                    proved(black_box(&store));
                } else {
                    rust(black_box(&self.device), black_box(&self.work), black_box(&self.plain));
                }
            }
        })
    }

    /// Times one call made over and over from the same session.
    fn time(
        &mut self,
        mut proved: impl FnMut(&mut Store),
        mut rust: impl FnMut(&mut [u8], &mut [u8], &mut plain::Session),
    ) -> Pair {
        let (device, work, raw, session) = (&mut self.device, &mut self.work, self.raw, self.plain.clone());
        spread(self.rounds, |n, first| {
            for _ in 0..n {
                if first {
                    let mut store = Store::resume(device, work, raw);
                    proved(black_box(&mut store));
                } else {
                    let mut s = session.clone();
                    rust(black_box(device), black_box(work), black_box(&mut s));
                }
            }
        })
    }
}

fn calls(table: &mut Table, title: &str, image: &Image, file: u32, rounds: usize) {
    let mut b = Bench::new(image, rounds);
    let a = name(file);
    let other = name(4000);
    let size = image.size(file);
    let blocks = size / 512;
    let bytes = [7u8; 8];
    let mut small = [0u8; 8];
    let mut list = vec![Extent::default(); 512];
    let mut rust_list = vec![plain::Extent::default(); 512];
    let at = size / 2;
    table.head(title);
    table.row("size", b.look(|s| _ = black_box(s.size(&a)), |d, w, s| _ = black_box(plain::size(d, w, s, &a))));
    table.row("free count", b.look(|s| _ = black_box(s.free_count()), |d, w, s| _ = black_box(plain::free_count(d, w, s))));
    table.row("record", b.look(|s| _ = black_box(s.record(127)), |d, w, s| _ = black_box(plain::record_at(d, w, s, 127))));
    let mut again = small;
    table.row(
        "read 8 bytes",
        b.look(|s| _ = black_box(s.read(&a, at, &mut small)), |d, w, s| _ = black_box(plain::read(d, w, s, &a, at, &mut again))),
    );
    let mut whole = vec![0u8; size as usize];
    let mut other_whole = whole.clone();
    table.row(
        "read all",
        b.look(|s| _ = black_box(s.read(&a, 0, &mut whole)), |d, w, s| _ = black_box(plain::read(d, w, s, &a, 0, &mut other_whole))),
    );
    table.row(
        "n-th extent",
        b.look(|s| _ = black_box(s.nth_extent(&a, 0, blocks, 0)), |d, w, s| _ = black_box(plain::nth_extent(d, w, s, &a, 0, blocks, 0))),
    );
    table.row(
        "run list",
        b.look(
            |s| _ = black_box(s.run_list(&a, 0, blocks, &mut list)),
            |d, w, s| _ = black_box(plain::run_list(d, w, s, &a, 0, blocks, &mut rust_list)),
        ),
    );
    table.row(
        "write 8 bytes",
        b.time(|s| s.write(&a, at, &bytes).unwrap(), |d, w, s| plain::write(d, w, s, &a, at, &bytes).unwrap()),
    );
    table.row(
        "append 8 bytes",
        b.time(|s| _ = black_box(s.write(&a, size, &bytes)), |d, w, s| _ = black_box(plain::write(d, w, s, &a, size, &bytes))),
    );
    table.row("cut to half", b.time(|s| s.set_size(&a, at).unwrap(), |d, w, s| plain::set_size(d, w, s, &a, at).unwrap()));
    table.row("create", b.time(|s| _ = black_box(s.create(&other)), |d, w, s| _ = black_box(plain::create(d, w, s, &other))));
    table.row("rename", b.time(|s| s.rename(&a, &other).unwrap(), |d, w, s| plain::rename(d, w, s, &a, &other).unwrap()));
    table.row("remove", b.time(|s| s.remove(&a).unwrap(), |d, w, s| plain::remove(d, w, s, &a).unwrap()));
}

/// The stores of a transaction, made from where it is staged.
fn stores(b: &mut Bench, raw: RawSession, plain: plain::Session) -> Pair {
    b.raw = raw;
    b.plain = plain;
    b.time(
        |s| _ = black_box(s.commit_in_memory()),
        |d, w, s| {
            _ = black_box(plain::commit(d, w, s));
            while let Ok(Some(plain::Store { last: false, .. })) = plain::advance(d, w, s) {}
        },
    )
}

/// The same blocks copied: images to the log, log blocks to their targets, and two more for block 0.
fn copy_blocks(device: &mut [u8], work: &[u8], raw: &RawSession) {
    let (list, zeros) = ([1u8; 512], [0u8; 512]);
    let k = raw.count as usize;
    for i in 0..k {
        device[512 + 512 * i..1024 + 512 * i].copy_from_slice(black_box(&work[512 * i..512 * i + 512]));
    }
    device[..512].copy_from_slice(black_box(&list));
    for i in 0..k {
        let to = 512 * raw.staged[i] as usize;
        let (log, targets) = device.split_at_mut(to);
        targets[..512].copy_from_slice(black_box(&log[512 + 512 * i..1024 + 512 * i]));
    }
    device[..512].copy_from_slice(black_box(&zeros));
    black_box(device);
}

fn copies(b: &mut Bench, raw: RawSession) -> f64 {
    let (device, work, rounds) = (&mut b.device, &b.work, b.rounds);
    let pair = spread(rounds, |n, _| (0..n).for_each(|_| copy_blocks(device, work, &raw)));
    pair.proved.min(pair.rust)
}

/// Commit with its stores, and the copies, each on the next of many boxes, so that none lies in the nearest caches.
fn cold(b: &Bench, raw: RawSession, boxes: usize) -> (f64, f64) {
    let mut pool: Vec<_> = (0..boxes).map(|_| (b.device.clone(), b.work.clone())).collect();
    let mut best = (f64::MAX, f64::MAX);
    for _ in 0..b.rounds {
        let mut turn = |f: &mut dyn FnMut(&mut [u8], &mut [u8])| {
            let start = Instant::now();
            pool.iter_mut().for_each(|(d, w)| f(d, w));
            start.elapsed().as_nanos() as f64 / boxes as f64
        };
        best.0 = best.0.min(turn(&mut |d, w| _ = black_box(Store::resume(d, w, raw).commit_in_memory())));
        best.1 = best.1.min(turn(&mut |d, w| copy_blocks(d, w, &raw)));
    }
    best
}

/// What a transaction writes, alone and with its commit and all stores; and memcpy of the same blocks.
fn transaction(table: &mut Table, title: &str, image: &Image, rounds: usize, writes: &[([u8; 8], u64, &[u8])]) {
    let mut b = Bench::new(image, rounds);
    table.head(title);
    let proved = |s: &mut Store| writes.iter().for_each(|(a, x, bytes)| s.write(a, *x, bytes).unwrap());
    let rust = |d: &mut [u8], w: &mut [u8], s: &mut plain::Session| writes.iter().for_each(|(a, x, bytes)| plain::write(d, w, s, a, *x, bytes).unwrap());
    table.row("writes", b.time(proved, rust));
    let mut store = Store::resume(&mut b.device, &mut b.work, b.raw);
    proved(&mut store);
    let (raw, mut plain) = (store.session(), b.plain.clone());
    rust(&mut b.device, &mut b.work, &mut plain);
    let pair = stores(&mut b, raw, plain);
    table.row("commit and stores", pair);
    let copies = copies(&mut b, raw);
    table.note(&format!("memcpy of the same {} blocks", 2 * raw.count + 2), copies);
    table.note("commit and stores against that memcpy (times)", pair.proved / copies);
    table.note("those of the plain store (times)", pair.rust / copies);
    let (stores, copies) = cold(&b, raw, 512);
    table.note("on 512 boxes in turn: commit and stores", stores);
    table.note("on 512 boxes in turn: against that memcpy (times)", stores / copies);
}

fn opens(table: &mut Table, rounds: usize) {
    table.head("open and format by device size");
    for (n, files) in [(64, 22), (512, 100), (4096, 128)] {
        let image = Image::full(n, files);
        let mut b = Bench::new(&image, rounds);
        table.row(
            &format!("open, N = {n}, {files} files, full"),
            b.time(|s| s.open().unwrap(), |d, _, s| plain::open(d, s).unwrap()),
        );
    }
    for n in [64, 512, 4096] {
        let image = Image::empty(n);
        let mut b = Bench::new(&image, rounds);
        table.row(&format!("open, N = {n}, empty"), b.time(|s| s.open().unwrap(), |d, _, s| plain::open(d, s).unwrap()));
        table.row(&format!("format, N = {n}"), b.time(|s| s.format().unwrap(), |d, _, s| plain::format(d, s).unwrap()));
    }
}

fn main() {
    let rounds = std::env::args().nth(1).and_then(|a| a.parse().ok()).unwrap_or(9);
    let mut table = Table::default();
    calls(&mut table, "N = 64, 8 files of 600 bytes", &Image::even(64, 8, 600), 3, rounds);
    calls(&mut table, "N = 4,096, 128 files of 600 bytes", &Image::even(4096, 128, 600), 120, rounds);
    calls(&mut table, "N = 4,096, a file of 100 blocks in one stretch", &Image::even(4096, 4, 51_200), 3, rounds);
    calls(&mut table, "N = 4,096, a file of 2,000 blocks in one stretch", &Image::even(4096, 1, 1_024_000), 0, rounds);
    calls(&mut table, "N = 4,096, a file of 500 blocks in 500 extents", &Image::scattered(4096, 500), 0, rounds);
    let (small, large) = ([9u8; 8], vec![3u8; 29 * 512]);
    let sale = [(name(0), 0, &small[..]), (name(1), 0, &small[..]), (name(2), 0, &small[..])];
    transaction(&mut table, "a sale: three writes of 8 bytes, 8 stores", &Image::even(512, 64, 600), rounds, &sale);
    let bulk = [(name(0), 512, &large[..])];
    transaction(&mut table, "a write of 29 blocks into a new stretch, 64 stores", &Image::even(512, 4, 512), rounds, &bulk);
    // 11 and 28 have no common divisor: each card once, in no order.
    let many: Vec<_> = (0..28).map(|i| (name(11 * i % 28), 0, &small[..])).collect();
    transaction(&mut table, "28 writes of 8 bytes to as many cards in no order, 58 stores", &Image::even(512, 28, 512), rounds, &many);
    opens(&mut table, rounds);
    table.foot();
}
