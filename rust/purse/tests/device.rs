//! Writing through: a cut or a failure at each step of a commit and of a recovery, alone and in pairs.

mod common;

use common::{never, Cached, End, Plug, Pulled, Way, WAYS};
use purse::{Broken, Failure, MemoryDevice, OutsideDevice, Phase, Refusal, Run, Standing, Step, Store, WORK_SIZE};

const BALANCE: &[u8] = b"balance0";
const SALES: &[u8] = b"sales000";

/// A sale: the new balance, and 700 bytes behind the list of sales, that begin in a block of earlier ones.
fn sale(store: &mut Store, number: u64) -> Result<(), Refusal> {
    store.write(BALANCE, 0, &number.to_le_bytes())?;
    store.write(SALES, 700 * (number - 1), &[number as u8; 700])
}

/// How many sales a box holds, each of them whole, the balance too.
fn sales_in(store: &Store) -> u64 {
    let mut balance = [0; 8];
    assert_eq!(store.read(BALANCE, 0, &mut balance), Ok(8));
    let n = u64::from_le_bytes(balance);
    let mut list = vec![0; 700 * n as usize + 1];
    assert_eq!(store.read(SALES, 0, &mut list), Ok(700 * n as usize), "half of a sale");
    for (i, sold) in list.chunks_exact(700).enumerate() {
        assert!(sold.iter().all(|&b| b == i as u8 + 1), "sale {} is not what was sold", i + 1);
    }
    n
}

/// A box with one sale.
fn new_box() -> Vec<u8> {
    let (mut kept, mut image, mut work) = (vec![9; 64 * 512], vec![3; 64 * 512], vec![0xdd; WORK_SIZE]);
    let mut device = MemoryDevice::new(&mut kept);
    let mut store = Store::new(&mut image, &mut work);
    store.format_on(&mut device).unwrap();
    assert_eq!(store.open_on(&mut device), Ok(0));
    store.create(BALANCE).unwrap();
    store.create(SALES).unwrap();
    sale(&mut store, 1).unwrap();
    store.commit_on(&mut device).unwrap();
    assert!(image == kept, "image and device differ");
    kept
}

/// Power comes on, the box is opened, the next sale is made. Answers what is in force on the device by all that was
/// told: at least and at most so many sales.
fn power_on(kept: &mut [u8], left: usize, way: Way, before: u64) -> (u64, u64) {
    let (mut image, mut work) = (kept.to_vec(), vec![0x99; WORK_SIZE]);
    let mut device = Plug::new(kept, left, way);
    let mut store = Store::new(&mut image, &mut work);
    match store.open_on(&mut device) {
        Ok(_) => {}
        Err(Failure::Device(broken)) => {
            let standing = if broken.store.number == 0 { Standing::MayBeInForce } else { Standing::InForceAfterRecovery };
            assert_eq!((broken.run, broken.standing()), (Run::Recovery, standing));
            spent(&mut store, &mut device);
            return (before, before);
        }
        Err(other) => panic!("{other:?}"),
    }
    let n = sales_in(&store);
    assert_eq!(n, before, "the recovery brings about what was told");
    sale(&mut store, n + 1).unwrap();
    match store.commit_on(&mut device) {
        Ok(stores) => {
            assert!(stores == 12 || stores == 14);
            assert_eq!(sales_in(&store), n + 1);
            assert!(image == kept, "image and device differ");
            (n + 1, n + 1)
        }
        Err(Failure::Device(broken)) => {
            spent(&mut store, &mut device);
            told(broken, n)
        }
        Err(other) => panic!("{other:?}"),
    }
}

fn told(broken: Broken<Pulled>, n: u64) -> (u64, u64) {
    assert_eq!(broken.run, Run::Commit);
    match broken.standing() {
        Standing::NotInForce => (n, n),
        Standing::MayBeInForce => (n, n + 1),
        Standing::InForceAfterRecovery => (n + 1, n + 1),
    }
}

/// A store whose device failed refuses everything and writes nothing.
fn spent(store: &mut Store, device: &mut Plug) {
    let written = device.written.len();
    assert_eq!(store.phase(), Phase::Closed);
    assert_eq!(store.open(), Err(Refusal::NotReady));
    assert_eq!(store.format(), Err(Refusal::NotReady));
    assert_eq!(store.advance(), Err(Refusal::NotReady));
    assert_eq!(store.size(BALANCE), Err(Refusal::NotReady));
    assert_eq!(store.write(BALANCE, 0, &[1]), Err(Refusal::NotReady));
    assert_eq!(store.open_on(device), Err(Failure::Refused(Refusal::NotReady)));
    assert_eq!(store.commit_on(device), Err(Failure::Refused(Refusal::NotReady)));
    assert_eq!(store.format_on(device), Err(Failure::Refused(Refusal::NotReady)));
    assert_eq!(device.written.len(), written);
}

/// What the device holds, recovered on a copy.
fn held(kept: &[u8]) -> u64 {
    let (mut kept, mut image, mut work) = (kept.to_vec(), kept.to_vec(), vec![1; WORK_SIZE]);
    let mut device = never(&mut kept);
    let mut store = Store::new(&mut image, &mut work);
    store.open_on(&mut device).expect("the box opens");
    let n = sales_in(&store);
    assert!(image == kept, "image and device differ");
    n
}

fn held_within(kept: &[u8], (least, most): (u64, u64)) -> u64 {
    let n = held(kept);
    assert!((least..=most).contains(&n), "{n} sales, told were {least} to {most}");
    n
}

/// Opens what the cache shows and makes the next sale; answers how many there are by what was done.
fn sell(device: &mut Cached) -> Option<u64> {
    let (mut image, mut work) = (device.cache.clone(), vec![0x55; WORK_SIZE]);
    let mut store = Store::new(&mut image, &mut work);
    store.open_on(device).ok()?;
    let n = sales_in(&store);
    sale(&mut store, n + 1).unwrap();
    store.commit_on(device).ok()?;
    Some(n + 1)
}

#[test]
fn a_program_is_stopped_and_then_the_power_is_cut() {
    let whole = new_box();
    let mut tried = 0;
    for end in [End::Killed, End::Forgotten] {
        for first in 0..13 {
            let (disk, cache) = (whole.clone(), whole.clone());
            let mut device = Cached { disk, cache, dirty: vec![], left: first, end };
            assert_eq!(sell(&mut device), None);
            for cut in [End::First, End::Last] {
                for second in 0..22 {
                    let (disk, cache, dirty) = (device.disk.clone(), device.cache.clone(), device.dirty.clone());
                    let mut later = Cached { disk, cache, dirty, left: second, end: cut };
                    let done = sell(&mut later);
                    let n = held(&later.disk);
                    assert!((1..=3).contains(&n) && done.is_none_or(|d| d == n), "{end:?} {first}, {cut:?} {second}: {n} sales");
                    tried += 1;
                }
            }
        }
    }
    assert_eq!(tried, 2 * 13 * 2 * 22);
}

#[test]
fn a_cut_at_each_store_of_a_commit() {
    let whole = new_box();
    for way in WAYS {
        for cut in 0..16 {
            let mut kept = whole.clone();
            let n = power_on(&mut kept, cut, way, 1);
            held_within(&kept, n);
        }
    }
}

#[test]
fn three_cuts_one_after_the_other() {
    let whole = new_box();
    let mut tried = 0;
    for (a, b) in (0..9).map(|i| (WAYS[i / 3], WAYS[i % 3])) {
        for first in 0..16 {
            let mut one = whole.clone();
            let told = power_on(&mut one, first, a, 1);
            let n = held_within(&one, told);
            for second in 0..24 {
                let mut two = one.clone();
                let told = power_on(&mut two, second, b, n);
                let m = held_within(&two, told);
                for third in [0, 3, 6, 7, 9, 14] {
                    let mut three = two.clone();
                    let told = power_on(&mut three, third, a, m);
                    held_within(&three, told);
                    tried += 1;
                }
            }
        }
    }
    assert_eq!(tried, 9 * 16 * 24 * 6);
}

#[test]
fn the_order_of_a_commit_and_of_its_recovery() {
    let mut kept = new_box();
    let (mut image, mut work) = (kept.clone(), vec![0; WORK_SIZE]);
    let mut device = Plug::new(&mut kept, 9, Way::Absent);
    let mut store = Store::new(&mut image, &mut work);
    store.open_on(&mut device).unwrap();
    sale(&mut store, 2).unwrap();
    store.commit_on(&mut device).unwrap_err();
    // Block 0 as it was read, then the commit.
    assert_eq!(device.written, [0, 1, 2, 3, 4, 5, 0, 33, 34, 42]);
    assert_eq!(device.flushed, 9);
    let mut image = kept.clone();
    let mut device = never(&mut kept);
    let mut store = Store::new(&mut image, &mut work);
    assert_eq!(store.open_on(&mut device), Ok(6));
    // Block 0 as it was read, with the list, then the recovery.
    assert_eq!(device.written, [0, 33, 34, 42, 44, 45, 0]);
    assert_eq!(device.flushed, 7);
}

#[test]
fn what_a_failure_tells() {
    let mut kept = new_box();
    let (mut image, mut work) = (kept.clone(), vec![0; WORK_SIZE]);
    let mut device = Plug::new(&mut kept, 6, Way::Flush);
    let mut store = Store::new(&mut image, &mut work);
    store.open_on(&mut device).unwrap();
    sale(&mut store, 2).unwrap();
    let Err(Failure::Device(broken)) = store.commit_on(&mut device) else { panic!("the list is store 6") };
    assert_eq!((broken.step, broken.store.block, broken.store.number), (Step::Flush, 0, 6));
    let failure = Failure::Device(broken.map(|Pulled| OutsideDevice(0)));
    assert_eq!(
        failure.to_string(),
        "store 6 of 12 of the commit, block 0: the flush failed: the device has no block 0; may be in force: recover tells"
    );
}

#[test]
fn a_log_whose_redo_does_not_open_is_left() {
    let mut kept = new_box();
    // A log of one block, which puts zeros in place of the bit table.
    kept[0] = 33;
    kept[512..1024].fill(0);
    let before = kept.clone();
    let (mut image, mut work) = (kept.clone(), vec![0; WORK_SIZE]);
    let mut device = never(&mut kept);
    let mut store = Store::new(&mut image, &mut work);
    let session = store.session();
    assert_eq!(store.open_on(&mut device), Err(Failure::Refused(Refusal::DamagedBlock(0))));
    assert!(device.written.is_empty());
    assert_eq!(store.session(), session);
    assert!(image == before && kept == before, "image or device changed");
}

#[test]
fn a_log_whose_redo_has_a_damaged_record_is_left() {
    let mut kept = new_box();
    // A log of the block with records 16 to 31, which leaves record 20 without a name, but not empty.
    kept[0] = 35;
    kept[512..1024].fill(0);
    kept[512 + 4 * 32 + 31] = 1;
    let before = kept.clone();
    let (mut image, mut work) = (kept.clone(), vec![0; WORK_SIZE]);
    let mut device = never(&mut kept);
    let mut store = Store::new(&mut image, &mut work);
    assert_eq!(store.open_on(&mut device), Err(Failure::Refused(Refusal::DamagedRecord(20))));
    assert!(device.written.is_empty());
    assert_eq!(store.open_in_memory(), Err(Refusal::DamagedRecord(20)));
    assert!(kept == before, "device changed");
}

#[test]
fn what_was_stored_in_memory_alone_does_not_reach_a_device_in_part() {
    let mut kept = new_box();
    power_on(&mut kept, 10, Way::Absent, 1);
    let before = kept.clone();
    let (mut image, mut work) = (kept.clone(), vec![0; WORK_SIZE]);
    let mut device = never(&mut kept);
    let mut store = Store::new(&mut image, &mut work);
    store.open_in_memory().unwrap();
    sale(&mut store, 3).unwrap();
    assert_eq!(store.commit_on(&mut device), Err(Failure::Refused(Refusal::NotReady)));
    assert_eq!(store.open_on(&mut device), Err(Failure::Refused(Refusal::NotReady)));
    assert!(device.written.is_empty());
    assert!(kept == before);
}

#[test]
fn a_wrong_work_space_is_refused_before_anything_is_stored() {
    let mut kept = new_box();
    power_on(&mut kept, 10, Way::Absent, 1);
    let (mut image, mut work) = (kept.clone(), vec![0; 9]);
    let mut device = never(&mut kept);
    let mut store = Store::new(&mut image, &mut work);
    assert_eq!(store.open_on(&mut device), Err(Failure::Refused(Refusal::WorkSize)));
    assert!(device.written.is_empty());
}

#[test]
fn a_device_that_panics_spends_the_store() {
    let (mut image, mut work) = (new_box(), vec![0; WORK_SIZE]);
    let mut store = Store::new(&mut image, &mut work);
    store.open().unwrap();
    sale(&mut store, 2).unwrap();
    store.commit().unwrap();
    let mut panicking = std::panic::AssertUnwindSafe(&mut store);
    std::panic::catch_unwind(move || panicking.each_store(|_, _| -> Result<(), Pulled> { panic!("pulled") })).unwrap_err();
    assert_eq!(store.advance(), Err(Refusal::NotReady));
    assert_eq!(store.open(), Err(Refusal::NotReady));
    assert_eq!(store.size(BALANCE), Err(Refusal::NotReady));
}

#[test]
fn a_format_that_fails_spends_the_store() {
    let (mut kept, mut image, mut work) = (vec![0; 63 * 512], vec![0; 64 * 512], vec![0; WORK_SIZE]);
    let mut device = MemoryDevice::new(&mut kept);
    let mut store = Store::new(&mut image, &mut work);
    let Err(Failure::Device(broken)) = store.format_on(&mut device) else { panic!("block 63 is not there") };
    assert_eq!((broken.error, broken.standing()), (OutsideDevice(63), Standing::NotInForce));
    assert_eq!(store.open(), Err(Refusal::NotReady));
}

#[cfg(all(feature = "std", unix))]
mod file {
    use super::*;
    use purse::FileDevice;
    use std::fs::OpenOptions;

    #[test]
    fn a_box_in_a_file() {
        let path = std::env::temp_dir().join(format!("purse-device-{}.img", std::process::id()));
        let file = OpenOptions::new().read(true).write(true).create_new(true).open(&path).unwrap();
        std::fs::remove_file(&path).unwrap();
        let mut device = FileDevice::new(&file);
        assert!(device.read_image().unwrap().is_empty());
        let (mut image, mut work) = (vec![0; 64 * 512], vec![0; WORK_SIZE]);
        let mut store = Store::new(&mut image, &mut work);
        store.format_on(&mut device).unwrap();
        store.open_on(&mut device).unwrap();
        store.create(BALANCE).unwrap();
        store.create(SALES).unwrap();
        sale(&mut store, 1).unwrap();
        store.commit_on(&mut device).unwrap();
        let read = device.read_image().unwrap();
        assert!(read == image, "the file does not hold the image");
        assert_eq!(held(&read), 1);
    }

    #[test]
    fn a_file_open_for_reading_only_fails() {
        let file = std::fs::File::open("/dev/null").unwrap();
        let (mut image, mut work) = (vec![0; 64 * 512], vec![0; WORK_SIZE]);
        let mut store = Store::new(&mut image, &mut work);
        assert!(matches!(store.format_on(&mut FileDevice::new(&file)), Err(Failure::Device(_))));
    }
}
