//! The safe interface: sessions, cuts, refusals and the iterator of stores.

use purse::{BlockStore, Extent, Phase, Refusal, Store, WORK_SIZE};

const A: &[u8] = &[1, 2, 3, 4, 5, 6, 7, 8];

fn till() -> (Vec<u8>, Vec<u8>) {
    (vec![0xee; 64 * 512], vec![0xdd; WORK_SIZE])
}

#[test]
fn a_cut_after_each_store() {
    for cut in 0..=10 {
        let (mut device, mut work) = till();
        let mut store = Store::new(&mut device, &mut work);
        store.format().unwrap();
        store.open().unwrap();
        store.create(A).unwrap();
        store.write(A, 0, &[7; 600]).unwrap();
        assert_eq!(store.commit(), Ok(10));
        assert_eq!(store.stores_in_memory().take(cut).count(), cut);
        work.fill(0x99);
        let mut store = Store::new(&mut device, &mut work);
        store.open_in_memory().unwrap();
        assert_eq!(store.phase(), Phase::Ready);
        let size = if cut < 5 { Err(Refusal::Unknown) } else { Ok(600) };
        assert_eq!(store.size(A), size);
    }
}

#[test]
fn a_session_is_resumed() {
    let (mut device, mut work) = till();
    let mut store = Store::new(&mut device, &mut work);
    assert_eq!(store.advance(), Err(Refusal::DeviceSize));
    store.format().unwrap();
    assert_eq!(store.phase(), Phase::Closed);
    store.open().unwrap();
    store.create(A).unwrap();
    store.commit().unwrap();
    let first = store.advance().unwrap();
    assert_eq!(first, Some(BlockStore { block: 1, last: false, number: 1 }));
    assert_eq!(store.block(1)[..8], *A);
    assert_eq!(store.block(64), []);
    let session = store.session();
    let mut store = Store::resume(&mut device, &mut work, session);
    assert_eq!(store.phase(), Phase::Committing(1));
    let rest: Vec<_> = store.stores_in_memory().map(|s| s.unwrap().block).collect();
    assert_eq!(rest, [0, 34, 0]);
    assert_eq!(store.advance(), Ok(None));
}

#[test]
fn values_and_refusals() {
    let (mut device, mut work) = till();
    let mut store = Store::new(&mut device, &mut work);
    store.format().unwrap();
    store.open().unwrap();
    store.create(A).unwrap();
    store.set_size(A, 600).unwrap();
    let mut buffer = [5; 20];
    assert_eq!(store.read(A, 590, &mut buffer), Ok(10));
    assert_eq!(buffer[9..11], [0, 5]);
    assert_eq!(store.read(A, 0, &mut []), Ok(0));
    assert_eq!(store.run_list(A, 0, 9, &mut []), Err(Refusal::ListShort));
    let mut list = [Extent::default(); 2];
    assert_eq!(store.run_list(A, 0, 9, &mut list), Ok(1));
    assert_eq!(list, [Extent { first: 42, count: 2 }, Extent::default()]);
    assert_eq!(store.nth_extent(A, 1, 9, 0), Ok(Some(Extent { first: 43, count: 1 })));
    assert_eq!(store.nth_extent(A, 1, 9, 1), Ok(None));
    assert_eq!(store.free_count(), Ok(20));
    assert_eq!(store.files().count(), 1);
    assert_eq!(store.record(u64::MAX), Ok(None));
    assert_eq!(store.rename(A, A), Err(Refusal::Taken));
    assert_eq!(store.write(A, u64::MAX, &[1]), Err(Refusal::TooLarge));
    assert_eq!(store.create(&[]), Err(Refusal::BadName));
    store.abort().unwrap();
    assert_eq!(store.remove(A), Err(Refusal::Unknown));
    assert_eq!(store.commit_in_memory(), Ok(0));
}

#[test]
fn a_wrong_commit_block_names_its_record() {
    let (mut device, mut work) = till();
    Store::new(&mut device, &mut work).format().unwrap();
    (device[0], device[16]) = (33, 33);
    let mut store = Store::new(&mut device, &mut work);
    assert_eq!(store.open(), Err(Refusal::BadHeader(1)));
    assert_eq!(store.open().unwrap_err().to_string(), "refused 10: the list in the commit block is damaged, record 1");
}

/// 64 blocks: record 2 has 600 bytes in 42 and 43, record 5 the blocks 44, 46, 48, 50 and 52 and the extent block 54, record 9 none.
fn worked() -> Vec<u8> {
    let (mut device, mut work) = till();
    Store::new(&mut device, &mut work).format().unwrap();
    let at = RECORDS + 32 * 2;
    device[at..at + 20].copy_from_slice(&[1, 2, 3, 4, 5, 6, 7, 8, 88, 2, 0, 0, 0, 0, 0, 0, 42, 0, 2, 0]);
    let at = RECORDS + 32 * 5;
    device[at..at + 20].copy_from_slice(&[0x42, 0x42, 0x42, 0x42, 0x42, 0x42, 0x42, 0x42, 0, 10, 0, 0, 1, 0, 0, 0, 54, 0, 5, 0]);
    let at = RECORDS + 32 * 9;
    device[at..at + 8].fill(0x43);
    device[NODE..NODE + 20].copy_from_slice(&[44, 0, 1, 0, 46, 0, 1, 0, 48, 0, 1, 0, 50, 0, 1, 0, 52, 0, 1, 0]);
    [42, 43, 44, 46, 48, 50, 52, 54].into_iter().for_each(|b| flip(&mut device, b));
    device[42 * 512] = 7;
    device[43 * 512..43 * 512 + 88].fill(7);
    device
}

const RECORDS: usize = 34 * 512;
const NODE: usize = 54 * 512;

/// The other bit for a block.
fn flip(device: &mut [u8], b: usize) {
    device[33 * 512 + b / 8] ^= 1 << (b % 8);
}

/// What open says of the worked device with a change, as it is and behind the recovery of a log that changes nothing.
fn refused(change: impl FnOnce(&mut [u8])) -> Option<Refusal> {
    let (mut device, mut work) = (worked(), vec![0x99; WORK_SIZE]);
    change(&mut device);
    let before = device.clone();
    let mut store = Store::new(&mut device, &mut work);
    let session = store.session();
    let answer = store.open();
    assert!(store.image() == before, "open has changed the image");
    assert!(answer.is_ok() || store.session() == session, "a refused open has changed the session");
    device[0] = 63;
    assert_eq!(Store::new(&mut device, &mut work).open_in_memory(), answer);
    answer.err()
}

/// Two slots of record 2.
fn slots(device: &mut [u8], slots: [u8; 8]) {
    device[RECORDS + 2 * 32 + 16..][..8].copy_from_slice(&slots);
}

fn name_as_a(device: &mut [u8], i: usize) {
    device[RECORDS + 32 * i..][..8].copy_from_slice(A);
}

#[test]
fn a_damaged_record_is_named() {
    assert_eq!(refused(|_| ()), None);
    let named = |i| Some(Refusal::DamagedRecord(i));
    assert_eq!(refused(|d| name_as_a(d, 5)), named(5));
    assert_eq!(refused(|d| [5, 9].into_iter().for_each(|i| name_as_a(d, i))), named(5));
    let with_a_byte = |d: &mut [u8]| {
        name_as_a(d, 5);
        d[RECORDS + 3 * 32 + 20] = 1;
    };
    assert_eq!(refused(with_a_byte), named(3));
    assert_eq!(refused(|d| slots(d, [41, 0, 2, 0, 0, 0, 0, 0])), named(2));
    assert_eq!(refused(|d| slots(d, [42, 0, 1, 0, 43, 0, 1, 0])), named(2));
    let behind_the_size = |d: &mut [u8]| {
        d[43 * 512 + 88] = 1;
        flip(d, 0);
    };
    assert_eq!(refused(behind_the_size), named(2));
}

#[test]
fn a_damaged_block_is_named() {
    let named = |b| Some(Refusal::DamagedBlock(b));
    let twice = |d: &mut [u8]| slots(d, [43, 0, 1, 0, 43, 0, 1, 0]);
    let also = |change: fn(&mut [u8]), bits: &'static [usize]| {
        move |d: &mut [u8]| {
            change(d);
            bits.iter().for_each(|&b| flip(d, b));
        }
    };
    assert_eq!(refused(twice), named(42));
    assert_eq!(refused(also(twice, &[42])), named(43));
    assert_eq!(refused(also(twice, &[42, 5])), named(5));
    let node = |d: &mut [u8]| d[NODE] = 54;
    assert_eq!(refused(node), named(44));
    assert_eq!(refused(also(node, &[44])), named(54));
    for b in [60, 4095, 41, 100] {
        assert_eq!(refused(|d| flip(d, b)), named(b as u64));
    }
    assert_eq!(refused(|d| d.fill(0)), named(0));
}

#[test]
fn the_stores_end_with_a_refusal() {
    let (mut device, mut work) = till();
    let mut store = Store::new(&mut device, &mut work[..9]);
    store.format().unwrap();
    store.open().unwrap();
    let steps: Vec<_> = store.stores_in_memory().collect();
    assert_eq!(steps, [Err(Refusal::WorkSize)]);
}

#[test]
fn other_phases_are_closed() {
    let (mut device, mut work) = till();
    let mut store = Store::new(&mut device, &mut work);
    store.format().unwrap();
    store.open().unwrap();
    let mut session = store.session();
    for phase in [4, 5, 1 << 32, u64::MAX] {
        session.phase = phase;
        let mut store = Store::resume(&mut device, &mut work, session);
        assert_eq!(store.phase(), Phase::Closed);
        assert_eq!(store.commit(), Err(Refusal::NotReady));
        assert_eq!(store.advance(), Ok(None));
    }
}
