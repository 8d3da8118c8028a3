//! The Monday file: lines, refusals, and a cut or a failure at each step of a load, alone and in pairs.

mod common;

use common::{never, Cached, End, Plug, Pulled, Way, WAYS};
use purse::{
    BlockStore, Device, Failure, Load, LoadFailure, LoadRefusal, LoadStep, LoadedLine, MemoryDevice, OutsideDevice, Phase, Refusal,
    Standing, Store, WORK_SIZE,
};

/// Four cards: line, name, cents.
const CARDS: [(&str, [u8; 8], u64); 4] = [
    ("04A1B2C3;H;1250\n", [4, 0x04, 0xa1, 0xb2, 0xc3, 0, 0, 0], 1250),
    ("69495546249912580;D;5\n", [7, 0x04, 0xa1, 0xb2, 0xc3, 0xd4, 0xe5, 0xf6], 5),
    ("80E91F04;H;99999999\n", [4, 0x80, 0xe9, 0x1f, 0x04, 0, 0, 0], 99_999_999),
    ("0000000000;D;0\n", [4, 0, 0, 0, 0, 0, 0, 0], 0),
];

fn text() -> Vec<u8> {
    CARDS.iter().flat_map(|card| card.0.bytes()).collect()
}

fn new_box(blocks: usize) -> Vec<u8> {
    let (mut kept, mut work) = (vec![9; blocks * 512], vec![0xdd; WORK_SIZE]);
    Store::new(&mut kept, &mut work).format().unwrap();
    kept
}

/// How many cards are in an open store: the first of them, each whole, and nothing else.
fn cards_in(store: &Store) -> usize {
    let files: Vec<_> = store.files().map(Result::unwrap).collect();
    for (file, (_, name, cents)) in files.iter().zip(CARDS) {
        let mut bytes = [0; 9];
        assert_eq!((file.name, file.size), (name, 8));
        assert_eq!(store.read(&name, 0, &mut bytes), Ok(8));
        assert_eq!(bytes[..8], cents.to_le_bytes());
    }
    assert!(files.len() <= CARDS.len());
    files.len()
}

/// The same on a device, recovered on a copy.
fn held(kept: &[u8]) -> usize {
    let (mut kept, mut image, mut work) = (kept.to_vec(), kept.to_vec(), vec![1; WORK_SIZE]);
    let mut device = never(&mut kept);
    let mut store = Store::new(&mut image, &mut work);
    store.open_on(&mut device).expect("the box opens");
    let n = cards_in(&store);
    assert!(image == kept, "image and device differ");
    n
}

/// What is told of a load: at least and at most so many cards are in force.
fn told(failure: &LoadFailure<Pulled>) -> (usize, usize) {
    let Failure::Device(broken) = &failure.failure else { panic!("{failure:?}") };
    let before = failure.line.unwrap() as usize - 1;
    match broken.standing() {
        Standing::NotInForce => (before, before),
        Standing::MayBeInForce => (before, before + 1),
        Standing::InForceAfterRecovery => (before + 1, before + 1),
    }
}

/// A store whose device failed refuses everything and writes nothing.
fn spent(store: &mut Store, device: &mut Plug, load: &Load) {
    let (written, mut place) = (device.written.len(), load.place());
    let refused = LoadRefusal { line: None, refusal: Refusal::NotReady };
    assert_eq!(store.load_begin(), Err(Refusal::NotReady));
    assert_eq!(store.load_step(load.text(), &mut place), Err(refused));
    let failed = store.load_line_on(device, &mut load.clone()).unwrap_err();
    assert_eq!((failed.line, failed.failure), (None, Failure::Refused(Refusal::NotReady)));
    assert_eq!((device.written.len(), place), (written, load.place()));
}

/// Power comes on and the box is opened: `load` goes on. A line that may have been in force is passed over where it is. Answers how many
/// cards are in force by all that was told.
fn go_on(kept: &mut [u8], left: usize, way: Way, load: &mut Load) -> (usize, usize) {
    let (mut image, mut work) = (kept.to_vec(), vec![0x99; WORK_SIZE]);
    let before = held(kept);
    let mut device = Plug::new(kept, left, way);
    let mut store = Store::new(&mut image, &mut work);
    match store.open_on(&mut device) {
        Ok(_) => {}
        Err(Failure::Device(_)) => return (before, before),
        Err(other) => panic!("{other:?}"),
    }
    if before as u64 == load.line() {
        let taken = store.load_line_on(&mut device, load).unwrap_err();
        assert_eq!((taken.line, taken.failure), (Some(load.line()), Failure::Refused(Refusal::Taken)));
        assert_eq!(taken.go_on(), Some(load.line()));
        assert!(load.skip_line());
    }
    assert_eq!(load.line(), before as u64 + 1, "a line is passed over, or tried twice");
    let steps: Vec<_> = store.load_on(&mut device, load).collect();
    match steps.last() {
        Some(Err(failure)) => {
            assert_eq!(failure.line.unwrap() as usize, before + steps.len());
            assert_eq!(failure.go_on(), Some(load.line()));
            spent(&mut store, &mut device, load);
            let (least, most) = told(failure);
            assert_eq!(load.line(), least as u64 + 1, "it goes on at the first line that is not certain");
            (least, most)
        }
        _ => {
            assert_eq!((cards_in(&store), load.place()), (CARDS.len(), load.text().len()));
            assert!(image == kept, "image and device differ");
            (CARDS.len(), CARDS.len())
        }
    }
}

fn held_within(kept: &[u8], (least, most): (usize, usize)) {
    let n = held(kept);
    assert!((least..=most).contains(&n), "{n} cards, told were {least} to {most}");
}

#[test]
fn a_cut_at_each_store_of_a_load() {
    let (whole, text) = (new_box(64), text());
    let mut tried = 0;
    for way in WAYS {
        for cut in 0..34 {
            let (mut kept, mut load) = (whole.clone(), Load::new(&text));
            let n = go_on(&mut kept, cut, way, &mut load);
            held_within(&kept, n);
            // 33 stores: block 0 as it was read, and 8 of each line, the fourth of them its list.
            let least = (cut + 3) / 8;
            assert_eq!(n, (least, least + usize::from(cut % 8 == 4)), "{way:?} {cut}");
            assert_eq!(go_on(&mut kept, usize::MAX, way, &mut load), (4, 4));
            assert_eq!(held(&kept), 4);
            tried += 1;
        }
    }
    assert_eq!(tried, 3 * 34);
}

#[test]
fn three_cuts_one_after_the_other() {
    let (whole, text) = (new_box(64), text());
    let mut tried = 0;
    for (a, b) in (0..9).map(|i| (WAYS[i / 3], WAYS[i % 3])) {
        for first in 0..33 {
            let (mut one, mut load) = (whole.clone(), Load::new(&text));
            let n = go_on(&mut one, first, a, &mut load);
            held_within(&one, n);
            for second in 0..14 {
                let (mut two, mut load) = (one.clone(), load.clone());
                let n = go_on(&mut two, second, b, &mut load);
                held_within(&two, n);
                for third in [0, 4, 5, 8] {
                    let (mut three, mut load) = (two.clone(), load.clone());
                    let n = go_on(&mut three, third, a, &mut load);
                    held_within(&three, n);
                    assert_eq!(go_on(&mut three, usize::MAX, a, &mut load), (4, 4));
                    tried += 1;
                }
            }
        }
    }
    assert_eq!(tried, 9 * 33 * 14 * 4);
}

/// Opens what the cache shows and loads from the first line on that is not there; how many cards there are by what was done.
fn load_rest(device: &mut Cached, text: &[u8]) -> Option<usize> {
    let (mut image, mut work) = (device.cache.clone(), vec![0x55; WORK_SIZE]);
    let mut store = Store::new(&mut image, &mut work);
    store.open_on(device).ok()?;
    let mut load = Load::new(text);
    (0..cards_in(&store)).for_each(|_| assert!(load.skip_line()));
    store.load_on(device, &mut load).collect::<Result<Vec<_>, _>>().ok()?;
    Some(cards_in(&store))
}

#[test]
fn a_program_is_stopped_and_then_the_power_is_cut() {
    let (whole, text) = (new_box(64), text());
    let mut tried = 0;
    for end in [End::Killed, End::Forgotten] {
        for first in 0..33 {
            let (disk, cache) = (whole.clone(), whole.clone());
            let mut device = Cached { disk, cache, dirty: vec![], left: first, end };
            assert_eq!(load_rest(&mut device, &text), None);
            for cut in [End::First, End::Last] {
                for second in 0..40 {
                    let (disk, cache, dirty) = (device.disk.clone(), device.cache.clone(), device.dirty.clone());
                    let mut later = Cached { disk, cache, dirty, left: second, end: cut };
                    let done = load_rest(&mut later, &text);
                    let n = held(&later.disk);
                    assert!(n >= first.saturating_sub(4) / 8, "{end:?} {first}, {cut:?} {second}: {n} cards");
                    assert!(done.is_none_or(|d| d == 4 && n == 4), "{end:?} {first}, {cut:?} {second}: {n} cards");
                    tried += 1;
                }
            }
        }
    }
    assert_eq!(tried, 2 * 33 * 2 * 40);
}

#[test]
fn the_order_of_a_load() {
    let (mut kept, text) = (new_box(64), text());
    let (mut image, mut work) = (kept.clone(), vec![0; WORK_SIZE]);
    let mut device = never(&mut kept);
    let mut store = Store::new(&mut image, &mut work);
    store.open_on(&mut device).unwrap();
    let mut load = Load::new(&text[..38]);
    let lines: Vec<_> = store.load_on(&mut device, &mut load).map(Result::unwrap).collect();
    assert_eq!(lines, [LoadedLine { line: 1, stores: 8 }, LoadedLine { line: 2, stores: 8 }]);
    // Block 0 as it was read, once, then the lines.
    assert_eq!(device.written, [0, 1, 2, 3, 0, 33, 34, 42, 0, 1, 2, 3, 0, 33, 34, 43, 0]);
    assert_eq!(device.flushed, 17);
    // No line is left; a second load stores no block 0 once more.
    assert_eq!(store.load_line_on(&mut device, &mut load), Ok(None));
    assert_eq!(device.written.len(), 17);
    let mut rest = Load::of_part(&text[38..], 3);
    assert_eq!(store.load_line_on(&mut device, &mut rest), Ok(Some(LoadedLine { line: 3, stores: 8 })));
    assert_eq!(device.written[17..], [1, 2, 3, 0, 33, 34, 44, 0]);
}

#[test]
fn steps_and_places() {
    let (mut image, mut work, text) = (new_box(64), vec![0; WORK_SIZE], text());
    let mut store = Store::new(&mut image, &mut work);
    let mut place = 0;
    assert_eq!(store.load_begin(), Err(Refusal::DeviceSize));
    store.open().unwrap();
    assert_eq!(store.load_begin(), Ok(()));
    assert_eq!((store.load_step(&text, &mut place), place), (Ok(LoadStep::Started(8)), 16));
    assert_eq!((store.phase(), store.load_begin()), (Phase::Committing(0), Err(Refusal::NotReady)));
    for (k, block) in [1, 2, 3, 0, 33, 34, 42, 0].into_iter().enumerate() {
        let stored = BlockStore { block, last: k == 7, number: k as u64 + 1 };
        assert_eq!((store.load_step(&text, &mut place), place), (Ok(LoadStep::Stored(stored)), 16));
    }
    assert_eq!(store.phase(), Phase::Ready);
    for end in [text.len(), text.len() + 1, usize::MAX] {
        place = end;
        assert_eq!((store.load_step(&text, &mut place), place), (Ok(LoadStep::NoneLeft), end));
    }
    assert_eq!(store.load_step(b"", &mut 0), Ok(LoadStep::NoneLeft));
    assert_eq!(cards_in(&store), 1);
}

/// A text from a place on, its refusal and line.
fn refused(store: &mut Store, text: &[u8], from: usize) -> (u32, Option<u64>) {
    let (mut place, session, work) = (from, store.session(), store.image().to_vec());
    let refused = store.load_step(text, &mut place).unwrap_err();
    assert_eq!((place, store.session()), (from, session));
    assert!(store.image() == work);
    (refused.refusal.number(), refused.line)
}

#[test]
fn refused_lines() {
    let (mut image, mut work) = (new_box(64), vec![0; WORK_SIZE]);
    let mut store = Store::new(&mut image, &mut work);
    store.open().unwrap();
    assert_eq!(refused(&mut store, b"\n", 0), (21, Some(1)));
    assert_eq!(refused(&mut store, b"04A1B2C3;H;1", 0), (21, Some(1)));
    assert_eq!(refused(&mut store, b"\n\n04a1b2c3;H;1\n", 2), (21, Some(3)));
    assert_eq!(refused(&mut store, &[b'0'; 64], 0), (21, Some(1)));
    assert_eq!(refused(&mut store, &[b'0'; 65], 0), (20, Some(1)));
    let long = [&b"\n"[..], &[b'0'; 65], b"\n"].concat();
    assert_eq!(refused(&mut store, &long, 1), (20, Some(2)));
    assert_eq!(refused(&mut store, &long, 2), (21, Some(2)));
    store.create(b"card0001").unwrap();
    assert_eq!(refused(&mut store, b"04A1B2C3;H;1\n", 0), (12, None));
    assert_eq!(refused(&mut store, b"", 0), (12, None));
    assert_eq!(store.load_begin(), Err(Refusal::NotReady));
    assert_eq!(refused(&mut Store::new(&mut image, &mut []), b"", 0), (1, None));
}

#[test]
fn a_full_box_names_its_line() {
    let text: Vec<u8> = (0..140).flat_map(|i| format!("{i:08X};H;{i}\n").into_bytes()).collect();
    for (blocks, lines, refusal) in [(64, 22, Refusal::NoSpace), (4096, 128, Refusal::NoRecord)] {
        let mut kept = new_box(blocks);
        let (mut image, mut work) = (kept.clone(), vec![0; WORK_SIZE]);
        let mut device = never(&mut kept);
        let mut store = Store::new(&mut image, &mut work);
        store.open_on(&mut device).unwrap();
        let mut load = Load::new(&text);
        let steps: Vec<_> = store.load_on(&mut device, &mut load).collect();
        let failed = steps[lines].as_ref().unwrap_err();
        assert_eq!((steps.len(), failed.line, load.line()), (lines + 1, Some(lines as u64 + 1), lines as u64 + 1));
        assert!(matches!(failed.failure, Failure::Refused(r) if r == refusal));
        // What is refused leaves the store in use, and is refused again.
        assert_eq!(store.load_line_on(&mut device, &mut load).unwrap_err(), *failed);
        assert_eq!(store.files().count(), lines);
    }
}

#[test]
fn what_a_failure_tells() {
    let (mut kept, text) = (new_box(64), text());
    let (mut image, mut work) = (kept.clone(), vec![0; WORK_SIZE]);
    let mut device = Plug::new(&mut kept, 12, Way::Flush);
    let mut store = Store::new(&mut image, &mut work);
    store.open_on(&mut device).unwrap();
    // The file's lines 1 to 40 are not in the text.
    let mut load = Load::of_part(&text, 41);
    let failed = store.load_on(&mut device, &mut load).last().unwrap().unwrap_err();
    assert_eq!((failed.line, failed.go_on(), load.line(), load.place()), (Some(42), Some(42), 42, 16));
    let Failure::Device(broken) = failed.failure else { panic!("the list of the second line is store 12") };
    let shown = Failure::Device(broken.map(|Pulled| OutsideDevice(0))).to_string();
    assert_eq!(shown, "store 4 of 8 of the commit, block 0: the flush failed: the device has no block 0; may be in force: recover tells");
}

#[test]
fn what_was_stored_in_memory_alone_does_not_reach_a_device_in_part() {
    let (mut kept, text) = (new_box(64), text());
    let (mut image, mut work) = (kept.clone(), vec![0; WORK_SIZE]);
    let mut device = never(&mut kept);
    let mut store = Store::new(&mut image, &mut work);
    store.open_on(&mut device).unwrap();
    store.create(b"card0001").unwrap();
    store.commit_in_memory().unwrap();
    let mut load = Load::new(&text);
    let failed = store.load_line_on(&mut device, &mut load).unwrap_err();
    assert_eq!((failed.line, failed.failure, failed.go_on()), (None, Failure::Refused(Refusal::NotReady), None));
    assert_eq!((device.written.len(), load.line()), (0, 1));
}

#[test]
fn a_transaction_under_way_is_not_mixed_with_a_load() {
    let (mut kept, text) = (new_box(64), text());
    let (mut image, mut work) = (kept.clone(), vec![0; WORK_SIZE]);
    let mut device = MemoryDevice::new(&mut kept);
    let mut store = Store::new(&mut image, &mut work);
    store.open_on(&mut device).unwrap();
    store.create(b"card0001").unwrap();
    let mut load = Load::new(&text);
    let failed = store.load_line_on(&mut device, &mut load).unwrap_err();
    assert_eq!(failed.to_string(), "refused 12: the session is closed, committing or recovering");
    store.commit().unwrap();
    let failed = store.load_line_on(&mut device, &mut load).unwrap_err();
    assert_eq!((failed.line, failed.failure, load.line()), (None, Failure::Refused(Refusal::NotReady), 1));
    assert_eq!(store.phase(), Phase::Committing(0), "a load stores nothing of a commit that it did not begin");
    store.each_store(|stored, bytes| device.write_block(stored.block, bytes)).unwrap();
    assert_eq!(store.load_on(&mut device, &mut load).filter(Result::is_ok).count(), 4);
    assert_eq!(store.files().count(), 5);
}

#[test]
fn a_device_that_panics_spends_the_store() {
    struct Panicking;
    impl purse::Device for Panicking {
        type Error = Pulled;
        fn write_block(&mut self, block: u64, _: &purse::Block) -> Result<(), Pulled> {
            assert!(block == 0, "pulled");
            Ok(())
        }
        fn flush(&mut self) -> Result<(), Pulled> {
            Ok(())
        }
    }
    let (mut image, mut work, text) = (new_box(64), vec![0; WORK_SIZE], text());
    let mut store = Store::new(&mut image, &mut work);
    store.open().unwrap();
    let mut load = Load::new(&text);
    let loading = std::panic::AssertUnwindSafe(|| store.load_line_on(&mut Panicking, &mut load).is_ok());
    std::panic::catch_unwind(loading).unwrap_err();
    let mut place = 0;
    assert_eq!(store.load_step(&text, &mut place), Err(LoadRefusal { line: None, refusal: Refusal::NotReady }));
    assert_eq!((store.load_begin(), load.line()), (Err(Refusal::NotReady), 1));
}

#[test]
fn lines_are_skipped_whatever_they_are() {
    let mut load = Load::new(b"\nwords\n\xff\n04A1");
    let mut places = vec![load.place()];
    while load.skip_line() {
        places.push(load.place());
    }
    assert_eq!(places, [0, 1, 7, 9, 13]);
    assert_eq!((load.line(), load.skip_line()), (5, false));
    assert_eq!(format!("{load:?}"), "Load { place: 13, line: 5, .. }");
    let mut far = Load::of_part(b"\n\n", u64::MAX);
    assert!(far.skip_line() && far.line() == u64::MAX);
}
