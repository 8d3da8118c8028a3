//! Every refusal number once, and that a refusal changes nothing.

mod common;
use common::{Till, A, B};
use plain::*;

/// Runs a call that must be refused with this number and must change nothing.
fn refused<T: std::fmt::Debug>(t: &mut Till, number: u32, call: impl FnOnce(&mut Till) -> Result<T, Refusal>) {
    let before = t.clone();
    assert_eq!(call(t).unwrap_err().number(), number);
    assert!(t.device == before.device && t.work == before.work && t.session == before.session);
}

/// A file of `blocks` blocks that alternates with B, so that no two of its blocks touch.
fn scattered(n: usize, blocks: u64) -> Till {
    let mut t = Till::new(n);
    t.create(A).unwrap();
    t.create(B).unwrap();
    for i in 1..=blocks {
        t.set_size(A, 512 * i).unwrap();
        t.set_size(B, 512 * i).unwrap();
        t.commit();
    }
    t
}

#[test]
fn r1_device_length() {
    for len in [0, 512, 63 * 512, 64 * 512 + 1, 4097 * 512] {
        let mut t = Till::new(64);
        t.device.resize(len, 0);
        refused(&mut t, 1, |t| format(&mut t.device, &mut t.session));
        refused(&mut t, 1, |t| t.open());
        refused(&mut t, 1, |t| advance(&mut t.device, &t.work, &mut t.session));
    }
    let mut t = Till::new(65);
    t.session.blocks = 64;
    refused(&mut t, 1, |t| t.create(A));
    t.session = Session::never_opened();
    refused(&mut t, 1, |t| t.create(&[]));
}

#[test]
fn r2_work_length() {
    let mut t = Till::new(64);
    t.work.pop();
    refused(&mut t, 2, |t| t.create(&[]));
    refused(&mut t, 2, |t| advance(&mut t.device, &t.work, &mut t.session));
    t.open().unwrap();
}

#[test]
fn r3_names() {
    let mut t = Till::new(64);
    for name in [&[][..], &[1; 7], &[1; 9], &[0; 8]] {
        refused(&mut t, 3, |t| t.create(name));
        refused(&mut t, 3, |t| t.rename(A, name));
        refused(&mut t, 3, |t| t.rename(name, A));
        refused(&mut t, 3, |t| t.write(name, u64::MAX, &[1]));
    }
}

#[test]
fn r4_sizes() {
    let mut t = Till::new(64);
    t.session.phase = Phase::Closed;
    refused(&mut t, 4, |t| t.set_size(A, 1_048_577));
    refused(&mut t, 4, |t| t.write(A, u64::MAX, &[1]));
    refused(&mut t, 12, |t| t.set_size(A, 1_048_576));
}

#[test]
fn r10_commit_block() {
    let wrong = |at: usize, x: u8| {
        let mut t = Till::new(64);
        (t.device[0], t.device[at]) = (40, x);
        refused(&mut t, 10, |t| t.open());
        t.open().unwrap_err()
    };
    assert_eq!(wrong(16, 64), Refusal::BadHeader(1));
    assert_eq!(wrong(32, 41), Refusal::BadHeader(2));
    assert_eq!(wrong(15, 1), Refusal::BadHeader(0));
    assert_eq!(wrong(511, 1), Refusal::BadHeader(31));
}

#[test]
fn r12_not_ready() {
    let mut t = Till::e3();
    commit(&t.device, &t.work, &mut t.session).unwrap();
    refused(&mut t, 12, |t| commit(&t.device, &t.work, &mut t.session));
    refused(&mut t, 12, |t| abort(&t.device, &t.work, &mut t.session));
    refused(&mut t, 12, |t| t.size(B));
    refused(&mut t, 12, |t| record_at(&t.device, &t.work, &t.session, 0));
    refused(&mut t, 12, |t| free_count(&t.device, &t.work, &t.session));
}

#[test]
fn r13_r14_names() {
    let mut t = Till::e3();
    refused(&mut t, 13, |t| t.remove(B));
    refused(&mut t, 13, |t| t.rename(B, A));
    refused(&mut t, 14, |t| t.create(A));
    refused(&mut t, 14, |t| t.rename(A, A));
    refused(&mut t, 13, |t| nth_extent(&t.device, &t.work, &t.session, B, 0, 0, 0));
}

#[test]
fn r15_records() {
    let mut t = Till::new(64);
    for i in 1..=128u64 {
        t.create(&i.to_le_bytes()).unwrap();
    }
    refused(&mut t, 15, |t| t.create(A));
    refused(&mut t, 14, |t| t.create(&[5, 0, 0, 0, 0, 0, 0, 0]));
    t.remove(&[7, 0, 0, 0, 0, 0, 0, 0]).unwrap();
    t.create(A).unwrap();
    assert_eq!(record_at(&t.device, &t.work, &t.session, 6).unwrap().unwrap().name, A);
    assert_eq!(record_at(&t.device, &t.work, &t.session, 128), Ok(None));
}

#[test]
fn r16_extent_block_counts() {
    let mut t = scattered(64, 4);
    t.set_size(B, 2048 + 13 * 512).unwrap();
    t.commit();
    assert_eq!(t.free(), 1);
    refused(&mut t, 16, |t| t.set_size(A, 2049));
}

#[test]
fn r17_extents() {
    let mut t = scattered(42 + 1024 + 4 + 4 + 2, 512);
    assert_eq!((t.runs(A).len(), t.free()), (512, 2));
    refused(&mut t, 17, |t| t.write(A, 512 * 512, &[1]));
    t.set_size(B, 512 * 513).unwrap();
    refused(&mut t, 16, |t| t.write(A, 512 * 512, &[1]));
}

#[test]
fn r18_staged() {
    let mut t = Till::new(128);
    t.create(A).unwrap();
    t.set_size(A, 15_360).unwrap();
    let mut name = 16u64;
    while t.create(&name.to_le_bytes()).is_ok() {
        name += 1;
    }
    assert_eq!(name, 16 + 15, "the first record block is staged already");
    refused(&mut t, 18, |t| t.create(B));
}

#[test]
fn r19_list() {
    let mut t = scattered(64, 3);
    let mut list = [Extent { first: 9, count: 9 }; 4];
    refused(&mut t, 19, |t| run_list(&t.device, &t.work, &t.session, A, 0, 3, &mut list[..2]));
    assert_eq!(list[0].first, 9);
    assert_eq!(run_list(&t.device, &t.work, &t.session, A, 1, 9, &mut list), Ok(2));
    assert_eq!(list.map(|e| e.first), [44, 46, 9, 9]);
    assert_eq!(run_list(&t.device, &t.work, &t.session, A, 3, 9, &mut []), Ok(0));
    assert_eq!(nth_extent(&t.device, &t.work, &t.session, A, 1, 2, 1), Ok(Some(Extent { first: 46, count: 1 })));
    assert_eq!(nth_extent(&t.device, &t.work, &t.session, A, 1, 2, 2), Ok(None));
}

/// 22 comes before 23, and a wrong list before both. With a log in use there is neither.
#[test]
fn r22_r23_damage() {
    let mut t = Till::new(64);
    t.device[33 * 512 + 1] = 0xfb;
    refused(&mut t, 23, |t| t.open());
    assert_eq!(t.open(), Err(Refusal::DamagedBlock(10)));
    t.device[41 * 512 + 15 * 32 + 20] = 1;
    refused(&mut t, 22, |t| t.open());
    assert_eq!(t.open(), Err(Refusal::DamagedRecord(127)));
    t.device[2] = 1;
    refused(&mut t, 10, |t| t.open());
    (t.device[0], t.device[2]) = (63, 0);
    t.open().unwrap();
    assert_eq!(t.session.phase, Phase::Recovering(0));
}
