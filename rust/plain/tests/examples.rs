//! E1 to E13 of document 01.

mod common;
use common::{Till, A, B};
use plain::*;

#[test]
fn e1_format() {
    let t = Till::new(64);
    let table = t.block(33);
    assert_eq!(table[..8], [0xff, 0xff, 0xff, 0xff, 0xff, 3, 0, 0]);
    assert!(table[8..].iter().all(|&x| x == 0xff));
    let other = t.device.chunks(BLOCK).enumerate().filter(|(b, _)| *b != 33);
    assert!(other.into_iter().all(|(_, block)| block.iter().all(|&x| x == 0)));
    assert_eq!(t.free(), 22);
}

#[test]
fn e2_create() {
    let mut t = Till::new(64);
    t.create(A).unwrap();
    assert_eq!(t.commit(), [1, 0, 34, 0]);
    assert_eq!(t.session, Session::fresh(64, Phase::Ready));
}

#[test]
fn e3_write() {
    let mut t = Till::e3();
    assert_eq!(t.staged(), [34, 33, 42, 43]);
    assert_eq!(t.commit(), [1, 2, 3, 4, 0, 33, 34, 42, 43, 0]);
    assert_eq!(t.block(34)[16..20], [42, 0, 2, 0]);
    assert!(t.block(43)[88..].iter().all(|&x| x == 0));
    assert_eq!(t.runs(A), [(42, 2)]);
    assert_eq!(t.free(), 20);
}

#[test]
fn e4_cuts() {
    let mut t = Till::e3();
    t.cut_after(4);
    t.open().unwrap();
    assert_eq!(t.session.phase, Phase::Ready);
    assert_eq!(t.size(A), Err(Refusal::Unknown));
    let mut t = Till::e3();
    t.cut_after(5);
    t.open().unwrap();
    assert_eq!(t.session.phase, Phase::Recovering(0));
    assert_eq!(t.advances(9), [33, 34, 42, 43, 0]);
    assert_eq!(t.session, Session::fresh(64, Phase::Closed));
    t.open().unwrap();
    assert_eq!(t.size(A), Ok(600));
}

#[test]
fn e5_read() {
    let t = Till::e3();
    let mut buffer = [0xaa; 20];
    assert_eq!(t.read(A, 590, &mut buffer), Ok(10));
    assert_eq!(buffer[..10], [7; 10]);
    assert_eq!(buffer[10..], [0xaa; 10]);
    assert_eq!(t.read(A, 600, &mut buffer), Ok(0));
    assert_eq!(buffer[10..], [0xaa; 10]);
}

#[test]
fn e6_empty_data() {
    let mut t = Till::new(64);
    t.create(A).unwrap();
    t.commit();
    t.write(A, 0, &[]).unwrap();
    assert_eq!(t.staged(), []);
    t.write(A, 1000, &[]).unwrap();
    let mut buffer = [0xaa; 1000];
    assert_eq!(t.read(A, 0, &mut buffer), Ok(1000));
    assert_eq!(buffer, [0; 1000]);
    let staged = t.staged();
    t.write(A, 0, &[]).unwrap();
    assert_eq!(t.staged(), staged);
}

#[test]
fn e7_space() {
    let mut t = Till::new(64);
    t.create(A).unwrap();
    assert_eq!(t.set_size(A, 11_265), Err(Refusal::NoSpace));
    t.set_size(A, 11_264).unwrap();
    assert_eq!(t.free(), 0);
}

#[test]
fn e8_staged() {
    let mut t = Till::new(128);
    t.create(A).unwrap();
    assert_eq!(t.set_size(A, 15_361), Err(Refusal::TooManyStaged));
    t.set_size(A, 15_360).unwrap();
    assert_eq!(t.session.count, 32);
}

#[test]
fn e9_shorten() {
    let mut t = Till::e3();
    t.commit();
    t.set_size(A, 100).unwrap();
    assert_eq!(t.staged(), [33, 34, 42]);
    t.commit();
    assert_eq!(t.block(33)[5], 0x07);
    assert!(t.block(42)[100..].iter().all(|&x| x == 0));
    t.set_size(A, 600).unwrap();
    let mut buffer = [0xaa; 500];
    assert_eq!(t.read(A, 100, &mut buffer), Ok(500));
    assert_eq!(buffer, [0; 500]);
}

#[test]
fn e10_commit_block() {
    let mut t = Till::new(64);
    (t.device[0], t.device[16]) = (33, 33);
    let before = t.session.clone();
    assert_eq!(t.open(), Err(Refusal::BadHeader(1)));
    t.device[0] = 32;
    assert_eq!(t.open(), Err(Refusal::BadHeader(0)));
    assert_eq!(t.session, before);
}

#[test]
fn e11_tree() {
    let mut t = Till::new(64);
    t.create(A).unwrap();
    t.create(B).unwrap();
    for i in 1..=5 {
        t.set_size(A, 512 * i).unwrap();
        if i < 5 {
            t.set_size(B, 512 * i).unwrap();
        }
    }
    t.commit();
    assert_eq!(t.runs(A), [(42, 1), (44, 1), (46, 1), (48, 1), (50, 1)]);
    assert_eq!(t.block(34)[12..20], [1, 0, 0, 0, 51, 0, 5, 0]);
    t.set_size(A, 2048).unwrap();
    t.commit();
    assert_eq!(t.block(34)[12..20], [0, 0, 0, 0, 42, 0, 1, 0]);
    assert_eq!(t.block(33)[6] & 0b1100, 0);
    assert_eq!(sound::check_whole(&t.device), Ok(()));
}

#[test]
fn e12_size_limit() {
    let mut t = Till::new(64);
    t.create(A).unwrap();
    assert_eq!(t.write(A, 1_048_575, &[1]), Err(Refusal::NoSpace));
    assert_eq!(t.write(A, 1_048_576, &[1]), Err(Refusal::TooLarge));
    assert_eq!(t.write(A, u64::MAX, &[1]), Err(Refusal::TooLarge));
}

#[test]
fn e13_rename_to_itself() {
    let mut t = Till::new(64);
    assert_eq!(t.rename(A, A), Err(Refusal::Unknown));
    t.create(A).unwrap();
    assert_eq!(t.rename(A, A), Err(Refusal::Taken));
}
