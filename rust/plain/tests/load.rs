//! The load of document 02, A1.

mod common;
use common::{Till, A};
use plain::*;

const CARD: &[u8] = &[4, 0x04, 0xa1, 0xb2, 0xc3, 0, 0, 0];
const LONG_CARD: &[u8] = &[7, 0x04, 0xa1, 0xb2, 0xc3, 0xd4, 0xe5, 0xf6];
const TWO: &[u8] = b"04A1B2C3;H;1250\n69495546249912580;D;7\n";

/// Name and bytes of the one file that a line makes.
fn made(line: &str) -> ([u8; 8], Vec<u8>) {
    let mut t = Till::new(64);
    t.load(format!("{line}\n").as_bytes()).unwrap_or_else(|e| panic!("{line}: {e:?}"));
    let file = record_at(&t.device, &t.work, &t.session, 0).unwrap().unwrap();
    assert_eq!(record_at(&t.device, &t.work, &t.session, 1), Ok(None));
    assert_eq!(sound::check_whole(&t.device), Ok(()));
    (file.name, t.file(&file.name))
}

/// A step that must be refused with this line and number and must change nothing, the place included.
fn refused(t: &mut Till, text: &[u8], from: usize, due: (Option<usize>, u32)) {
    let (before, mut place) = (t.clone(), from);
    let e = t.load_step(text, &mut place).unwrap_err();
    assert_eq!((e.line, e.refusal.number()), due, "{}", text.escape_ascii());
    assert!(t.device == before.device && t.work == before.work && t.session == before.session);
    assert_eq!(place, from);
}

/// The refusal that a text gets for its first line.
fn first_line(text: &[u8], number: u32) {
    refused(&mut Till::new(64), text, 0, (Some(1), number));
}

#[test]
fn names_from_serials() {
    let name = |line: &str| made(line).0;
    assert_eq!(name("04A1B2C3;H;1250"), CARD);
    assert_eq!(name("3283263748;D;1250"), CARD);
    assert_eq!(name("04A1B2C3D4E5F6;H;1250"), LONG_CARD);
    assert_eq!(name("69495546249912580;D;1250"), LONG_CARD);
    assert_eq!(name("00000000;H;0"), [4, 0, 0, 0, 0, 0, 0, 0]);
    assert_eq!(name("0000000000;D;0"), [4, 0, 0, 0, 0, 0, 0, 0]);
    assert_eq!(name("0000000001;D;0"), [4, 1, 0, 0, 0, 0, 0, 0]);
    assert_eq!(name("0016777216;D;0"), [4, 0, 0, 0, 1, 0, 0, 0]);
    assert_eq!(name("00000000000000000;D;0"), [7, 0, 0, 0, 0, 0, 0, 0]);
    assert_eq!(name("00000000000000256;D;0"), [7, 0, 1, 0, 0, 0, 0, 0]);
    assert_eq!(name("01234567;H;0"), [4, 0x01, 0x23, 0x45, 0x67, 0, 0, 0]);
    assert_eq!(name("89ABCDEF000000;H;0"), [7, 0x89, 0xab, 0xcd, 0xef, 0, 0, 0]);
}

#[test]
fn largest_serials() {
    assert_eq!(made("4294967295;D;1").0, [4, 255, 255, 255, 255, 0, 0, 0]);
    assert_eq!(made("FFFFFFFF;H;1").0, [4, 255, 255, 255, 255, 0, 0, 0]);
    assert_eq!(made("72057594037927935;D;1").0, [7, 255, 255, 255, 255, 255, 255, 255]);
    for line in ["4294967296;D;1\n", "9999999999;D;1\n", "72057594037927936;D;1\n", "99999999999999999;D;1\n"] {
        first_line(line.as_bytes(), 21);
    }
}

#[test]
fn amounts() {
    let content = |amount: &str| made(&format!("04A1B2C3;H;{amount}")).1;
    assert_eq!(content("1250"), [0xe2, 0x04, 0, 0, 0, 0, 0, 0]);
    assert_eq!(content("0"), [0; 8]);
    assert_eq!(content("1"), [1, 0, 0, 0, 0, 0, 0, 0]);
    assert_eq!(content("10"), [10, 0, 0, 0, 0, 0, 0, 0]);
    assert_eq!(content("99999999"), [0xff, 0xe0, 0xf5, 0x05, 0, 0, 0, 0]);
    for amount in ["", "00", "01", "000", "01250", "123456789", "100000000", "+1", "-1", " 1", "1 ", "1.5", "12,50", "A", "1\r", "1\0"] {
        first_line(format!("04A1B2C3;H;{amount}\n").as_bytes(), 21);
    }
}

#[test]
fn malformed_serials() {
    let serials = [
        ("H", vec!["", "04A1B2C", "04A1B2C3D", "04A1B2C3D4", "04A1B2C3D4E5F", "04A1B2C3D4E5F6A", "04a1b2c3", "04A1B2Cc"]),
        ("H", vec!["04A1B2CG", "04A1B2C@", "04A1B2C:", "04A1B2C/", "04A1B2C ", "+4A1B2C3", "0x04A1B2", "04A1B2C3D4E5F6A7B8C9"]),
        ("D", vec!["", "328326374", "03283263748", "3283263748000000", "069495546249912580", "+283263748", "-283263748"]),
        ("D", vec!["328326374A", "328326374:", "328326374/", " 283263748", "04A1B2C3", "04A1B2C3D4E5F6", "32832637 8"]),
    ];
    for (letter, list) in serials {
        list.iter().for_each(|serial| first_line(format!("{serial};{letter};1\n").as_bytes(), 21));
    }
}

#[test]
fn malformed_lines() {
    let lines: [&[u8]; 24] = [
        b"\n",
        b"\r\n",
        b" \n",
        b";\n",
        b";;\n",
        b";;;\n",
        b"04A1B2C3\n",
        b"04A1B2C3;H\n",
        b"04A1B2C3;H;\n",
        b"04A1B2C3;H;1;\n",
        b";04A1B2C3;H;1\n",
        b"04A1B2C3;;1\n",
        b"04A1B2C3;h;1\n",
        b"04A1B2C3;HH;1\n",
        b"04A1B2C3;X;1\n",
        b"04A1B2C3;D;1\n",
        b"04A1B2C3;H ;1\n",
        b"04A1B2C3,H,1\n",
        b"3283263748;H;1\n",
        b"3283263748;d;1\n",
        b"04A1B2C3;H;1\r\n",
        b" 04A1B2C3;H;1\n",
        b"\xef\xbb\xbf04A1B2C3;H;1\n",
        b"04A1B2C3;H;1\x80\n",
    ];
    lines.iter().for_each(|line| first_line(line, 21));
}

#[test]
fn lengths_and_feeds() {
    let line = |n: usize| [vec![b'0'; n], b"\n".to_vec()].concat();
    first_line(&line(64), 21);
    first_line(&line(65), 20);
    first_line(&line(1000), 20);
    first_line(&[b'0'; 64], 21);
    first_line(&[b'0'; 65], 20);
    first_line(b"04A1B2C3;H;1250", 21);
    first_line(b"0", 21);
    first_line(&[b"04A1B2C3;H;".to_vec(), line(54)].concat(), 20);
    first_line(&[b"04A1B2C3;H;".to_vec(), line(53)].concat(), 21);
}

#[test]
fn answers_of_a_load() {
    let mut t = Till::new(64);
    let mut place = 0;
    t.load_begin().unwrap();
    assert_eq!(t.load_step(TWO, &mut place), Ok(LoadStep::Started(8)));
    assert_eq!((place, t.staged()), (16, vec![34, 33, 42]));
    for (i, block) in [1, 2, 3, 0, 33, 34, 42, 0].into_iter().enumerate() {
        assert_eq!(t.load_begin(), Err(Refusal::NotReady));
        let store = Store { block, last: i == 7, number: i + 1 };
        assert_eq!(t.load_step(TWO, &mut place), Ok(LoadStep::Stored(store)));
    }
    assert_eq!(t.session, Session::fresh(64, Phase::Ready));
    assert_eq!(t.load_step(TWO, &mut place), Ok(LoadStep::Started(8)));
    assert_eq!((place, t.staged()), (TWO.len(), vec![34, 33, 43]));
    assert_eq!(t.advances(9), [1, 2, 3, 0, 33, 34, 43, 0]);
    assert_eq!(t.load_step(TWO, &mut place), Ok(LoadStep::NoneLeft));
    assert_eq!(place, TWO.len());
    assert_eq!((t.file(CARD), t.file(LONG_CARD)), (vec![0xe2, 4, 0, 0, 0, 0, 0, 0], vec![7, 0, 0, 0, 0, 0, 0, 0]));
    assert_eq!(sound::check_whole(&t.device), Ok(()));
}

/// A line is create, a write of 8 bytes at 0 and commit, down to the last byte of the work space.
#[test]
fn a_line_is_three_calls() {
    let (mut t, mut u) = (Till::new(64), Till::new(64));
    assert_eq!(t.load_step(TWO, &mut 0), Ok(LoadStep::Started(8)));
    u.create(CARD).unwrap();
    u.write(CARD, 0, &1250u64.to_le_bytes()).unwrap();
    assert_eq!(commit(&u.device, &u.work, &mut u.session), Ok(8));
    assert!(t.device == u.device && t.work == u.work && t.session == u.session);
}

#[test]
fn one_card_in_two_spellings() {
    let mut t = Till::new(64);
    assert_eq!(t.load(b"04A1B2C3;H;1250\n3283263748;D;99\n01020304;H;1\n"), Err((Some(2), 14)));
    assert_eq!(t.file(CARD), 1250u64.to_le_bytes());
    assert_eq!(t.size(&[4, 1, 2, 3, 4, 0, 0, 0]), Err(Refusal::Unknown));
    refused(&mut t, b"3283263748;D;99\n", 0, (Some(1), 14));
    t.remove(CARD).unwrap();
    t.commit();
    t.load(b"3283263748;D;99\n").unwrap();
    assert_eq!(t.file(CARD), 99u64.to_le_bytes());
}

#[test]
fn no_record_left() {
    let mut t = Till::new(64);
    (1..=127u64).for_each(|i| t.create(&i.to_le_bytes()).unwrap());
    t.commit();
    t.work.fill(0x3c);
    let text = b"04A1B2C3;H;1250\n01020304;H;1\n";
    assert_eq!(t.load(text), Err((Some(2), 15)));
    refused(&mut t, text, 16, (Some(2), 15));
    refused(&mut t, text, 0, (Some(1), 14));
    assert_eq!((t.file(CARD), t.session.count), (1250u64.to_le_bytes().to_vec(), 0));
}

#[test]
fn no_block_left() {
    let mut t = Till::new(64);
    t.create(A).unwrap();
    t.set_size(A, 21 * 512).unwrap();
    t.commit();
    let text = b"04A1B2C3;H;1250\n01020304;H;1\n";
    assert_eq!(t.load(text), Err((Some(2), 16)));
    t.work.fill(0x3c);
    refused(&mut t, text, 16, (Some(2), 16));
    assert_eq!(t.size(&[4, 1, 2, 3, 4, 0, 0, 0]), Err(Refusal::Unknown));
    assert_eq!(t.file(CARD), 1250u64.to_le_bytes());
    t.set_size(A, 512).unwrap();
    t.commit();
    assert_eq!(t.load(&text[16..]), Ok(()));
}

/// "1, 2 and 12 come before any line; per line 20 comes before 21, and both before 14 to 18".
#[test]
fn order_of_tests() {
    let mut t = Till::new(64);
    (1..=127u64).for_each(|i| t.create(&i.to_le_bytes()).unwrap());
    t.commit();
    t.load(b"04A1B2C3;H;1250\n").unwrap();
    t.create(A).unwrap_err();
    t.set_size(&[1, 0, 0, 0, 0, 0, 0, 0], 21 * 512).unwrap();
    t.commit();
    assert_eq!(t.free(), 0);
    refused(&mut t, &[b';'; 65], 0, (Some(1), 20));
    refused(&mut t, b"04A1B2C3;H;1250", 0, (Some(1), 21));
    refused(&mut t, b"04A1B2C3;H;1250\n", 0, (Some(1), 14));
    refused(&mut t, b"04A1B2C4;H;1250\n", 0, (Some(1), 15));
    t.remove(&[2, 0, 0, 0, 0, 0, 0, 0]).unwrap();
    for text in [&b""[..], b"04A1B2C4;H;1250\n", &[b';'; 65]] {
        refused(&mut t, text, 0, (None, 12));
        let mut u = t.clone();
        u.work.pop();
        refused(&mut u, text, 0, (None, 2));
        u.device.pop();
        refused(&mut u, text, 0, (None, 1));
        assert_eq!(load_begin(&u.device, &u.work, &u.session), Err(Refusal::DeviceSize));
        assert_eq!(load_begin(&t.device, &u.work, &t.session), Err(Refusal::WorkSize));
    }
    t.commit();
    refused(&mut t, b"04A1B2C4;H;1250\n", 0, (Some(1), 16));
}

#[test]
fn sessions_that_give_12() {
    let ready = Till::new(64);
    let mut staged = ready.clone();
    staged.create(A).unwrap();
    let mut committing = staged.clone();
    commit(&committing.device, &committing.work, &mut committing.session).unwrap();
    let mut closed = ready.clone();
    closed.session = Session::fresh(64, Phase::Closed);
    let mut recovering = Till::e3();
    recovering.cut_after(7);
    recovering.open().unwrap();
    recovering.advances(2);
    assert_eq!(recovering.session.phase, Phase::Recovering(2));
    for t in [&mut staged, &mut closed, &mut recovering] {
        assert_eq!(t.load_begin(), Err(Refusal::NotReady));
        refused(t, TWO, 0, (None, 12));
        refused(t, b"", 0, (None, 12));
    }
    assert_eq!(committing.load_begin(), Err(Refusal::NotReady));
    let mut never = ready.clone();
    never.session = Session::never_opened();
    assert_eq!(never.load_begin(), Err(Refusal::DeviceSize));
    refused(&mut never, TWO, 0, (None, 1));
    ready.load_begin().unwrap();
}

/// A commit that the load did not start is advanced too, and the place stays.
#[test]
fn somebody_elses_commit() {
    let mut t = Till::e3();
    assert_eq!(commit(&t.device, &t.work, &mut t.session), Ok(10));
    let mut place = usize::MAX;
    for block in [1, 2, 3, 4, 0, 33, 34, 42, 43, 0] {
        let Ok(LoadStep::Stored(store)) = t.load_step(TWO, &mut place) else { panic!("no store") };
        assert_eq!((store.block, place), (block, usize::MAX));
    }
    assert_eq!(t.load_step(TWO, &mut place), Ok(LoadStep::NoneLeft));
    assert_eq!(t.file(A), [7; 600]);
}

#[test]
fn committing_with_nothing_to_list() {
    let mut t = Till::new(64);
    t.session.phase = Phase::Committing(0);
    let before = t.clone();
    assert_eq!(t.load_step(TWO, &mut 0), Ok(LoadStep::Idle));
    assert!(t.device == before.device && t.work == before.work && t.session == before.session);
}

#[test]
fn places() {
    let t = Till::new(64);
    let at = |from: usize, text: &[u8]| {
        let (mut u, mut place) = (t.clone(), from);
        (u.load_step(text, &mut place).map_err(|e| (e.line, e.refusal.number())), place)
    };
    for place in [TWO.len(), TWO.len() + 1, usize::MAX - 64, usize::MAX] {
        assert_eq!(at(place, TWO), (Ok(LoadStep::NoneLeft), place));
    }
    assert_eq!(at(0, b""), (Ok(LoadStep::NoneLeft), 0));
    assert_eq!(at(0, b"\n"), (Err((Some(1), 21)), 0));
    assert_eq!(at(15, TWO), (Err((Some(1), 21)), 15), "the feed of line 1 alone");
    assert_eq!(at(16, TWO), (Ok(LoadStep::Started(8)), TWO.len()));
    assert_eq!(at(1, TWO), (Err((Some(1), 21)), 1));
    assert_eq!(at(17, TWO), (Err((Some(2), 21)), 17));
    let text = b"\n\n000000AA04A1B2C3;H;1250\n";
    assert_eq!(at(2, text), (Err((Some(3), 21)), 2));
    assert_eq!(at(3, text), (Err((Some(3), 21)), 3));
    assert_eq!(at(4, text), (Ok(LoadStep::Started(8)), text.len()), "14 digits are left");
    assert_eq!(at(9, text), (Err((Some(3), 21)), 9));
    assert_eq!(at(10, text), (Ok(LoadStep::Started(8)), text.len()), "8 digits are left");
}

/// A cut at each store of the second line, at each store of its recovery, and the load begun anew.
#[test]
fn cuts_inside_a_load() {
    for stores in 0..=8 {
        for redone in 0..=4 {
            let mut t = Till::new(64);
            let mut place = 0;
            (0..10 + stores).for_each(|_| assert!(t.load_step(TWO, &mut place).is_ok()));
            cut(&mut t);
            t.open().unwrap();
            let pending = (4..8).contains(&stores);
            assert_eq!(t.session.phase, if pending { Phase::Recovering(0) } else { Phase::Ready });
            t.advances(redone);
            cut(&mut t);
            recover(&mut t);
            assert_eq!(t.file(CARD), 1250u64.to_le_bytes());
            assert_eq!(t.size(LONG_CARD).is_ok(), stores >= 4);
            assert_eq!(t.load(TWO), Err((Some(1), 14)));
            let rest = if stores >= 4 { Err((Some(1), 14)) } else { Ok(()) };
            assert_eq!(t.load(&TWO[16..]), rest);
            assert_eq!(t.file(LONG_CARD), 7u64.to_le_bytes());
            assert_eq!(sound::check_whole(&t.device), Ok(()));
        }
    }
}

fn cut(t: &mut Till) {
    t.session = Session::never_opened();
    t.work.fill(0x99);
}

/// Opens; redoes a log and opens anew.
fn recover(t: &mut Till) {
    t.open().unwrap();
    if t.session.phase != Phase::Ready {
        assert_eq!(t.load_step(TWO, &mut 0).unwrap_err(), LoadRefusal { line: None, refusal: Refusal::NotReady });
        t.advances(usize::MAX);
        assert_eq!(t.load_begin(), Err(Refusal::NotReady));
        t.open().unwrap();
    }
    assert_eq!(sound::check_whole(&t.device), Ok(()));
}

/// "I want the printer's file to fill the box by itself."
#[test]
fn a_full_house() {
    let lines: Vec<String> = (0..129u32).map(|i| format!("{i:08X};H;{i}\n")).collect();
    let mut t = Till::new(42 + 128);
    assert_eq!(t.load(lines.concat().as_bytes()), Err((Some(129), 15)));
    assert_eq!(t.free(), 0);
    for i in 0..128u32 {
        let name = [&[4][..], &i.to_be_bytes(), &[0; 3]].concat();
        assert_eq!(t.file(&name), (i as u64).to_le_bytes());
    }
    let mut t = Till::new(42 + 127);
    assert_eq!(t.load(lines.concat().as_bytes()), Err((Some(128), 16)));
    assert_eq!(sound::check_whole(&t.device), Ok(()));
}
