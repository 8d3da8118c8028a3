//! Every command from end to end, and every exit status.

mod common;

use common::*;
use std::fs::{self, File};
use std::os::unix::process::CommandExt;
use std::path::Path;
use std::process::{Command, Stdio};

const COMMANDS: [&str; 18] = [
    "format", "list", "check", "recover", "map", "get", "put", "remove", "rename", "resize", "write", "append", "batch", "load", "convert",
    "dump", "restore", "salvage",
];

#[test]
fn help_and_version() {
    let help = expect(0, &["--help"]);
    for c in COMMANDS {
        assert!(help.text().contains(c), "help does not tell of {c}");
    }
    assert!(help.err.is_empty());
    assert!(expect(0, &["--version"]).text().contains(env!("CARGO_PKG_VERSION")));
}

/// Words that are no conversion: a letter that is neither H nor D, too few, too many.
fn wrong_conversions() -> Vec<Vec<&'static str>> {
    let letters = ["", "h", "d", "X", "HD", "H|D", " H", "H ", "-H", "--D", "0", "hexadecimal", "Н", "-"];
    let mut lists: Vec<_> = letters.map(|letter| vec!["convert", letter, "file"]).into();
    lists.push(vec!["convert", "H"]);
    lists.push(vec!["convert", "H", "D", "file"]);
    lists.push(vec!["convert", "D", "file", "2"]);
    lists.push(vec!["convert", "file", "D"]);
    lists.push(vec!["convert", "--json", "D", "file"]);
    lists
}

/// Wrong words: status 2, the cause and a line of usage, no result, and neither image nor a new file.
#[test]
fn wrong_words() {
    let place = Place::new(&small_box());
    place.file("file", b"bytes");
    let (zero, second, small_second) = ("0000000000000000", "FFFFFFFFFFFFFFFF", "ffffffffffffffff");
    let mut lists: Vec<Vec<&str>> =
        vec![vec![], vec![""], vec!["frobnicate"], vec!["List", "box.img"], vec!["--frobnicate"], vec!["-", "box.img"]];
    lists.push(vec!["list", "--frobnicate", "box.img"]);
    lists.push(vec!["list", "--json"]);
    lists.push(vec!["map", "--svg", "box.img"]);
    lists.push(vec!["map", "--svg"]);
    for c in COMMANDS {
        lists.push(vec![c]);
        lists.push(vec![c, "box.img", A, "0", "file", "more", "words"]);
    }
    for c in ["get", "remove", "put", "rename", "resize", "write", "append", "batch", "load", "dump", "restore", "salvage", "format"] {
        lists.push(vec![c, "box.img"]);
    }
    lists.extend(wrong_conversions());
    for c in ["list", "check", "recover", "map"] {
        lists.push(vec![c, "box.img", "box.img"]);
    }
    let odd = [
        "",
        "5",
        "501026000000041",
        "50102600000004177",
        "501026000000041G",
        "+501026000000041",
        "-501026000000041",
        "0x10260000000417",
        " 501026000000041",
        "ééééééé7",
    ];
    for n in [second, small_second] {
        lists.push(vec!["put", "box.img", n, "file"]);
        lists.push(vec!["rename", "box.img", A, n]);
    }
    for n in odd {
        lists.push(vec!["get", "box.img", n]);
        lists.push(vec!["put", "box.img", n, "file"]);
        lists.push(vec!["remove", "box.img", n]);
        lists.push(vec!["rename", "box.img", A, n]);
        lists.push(vec!["rename", "box.img", n, D]);
        lists.push(vec!["resize", "box.img", n, "7"]);
        lists.push(vec!["write", "box.img", n, "0", "file"]);
        lists.push(vec!["append", "box.img", n, "file"]);
    }
    for n in ["", "x", "7x", "0x7", "-1", "+7", " 7", "7 ", "1.5", "1e3", "7_000", "٧"] {
        lists.push(vec!["resize", "box.img", A, n]);
        lists.push(vec!["write", "box.img", A, n, "file"]);
        lists.push(vec!["format", "new.img", n]);
        lists.push(vec!["load", "box.img", "file", n]);
    }
    lists.push(vec!["load", "box.img", "file", "0"]);
    lists.push(vec!["load", "box.img", "file", "00"]);
    let (before, count) = (place.image(), lists.len());
    for words in lists {
        let out = place.run(2, &words);
        let lines: Vec<&str> = out.err.lines().collect();
        assert!(lines.len() >= 2 && lines.iter().any(|l| l.to_lowercase().contains("usage")), "{words:?}: {}", out.err);
        assert!(out.out.is_empty(), "{words:?}: {}", out.text());
        assert!(place.image() == before, "{words:?}: the image is another");
        assert!(!place.scratch.at("new.img").exists(), "{words:?}: a new file");
    }
    // A name of zeros is one that the store refuses; the second purse is not there.
    for words in [
        vec!["get", "box.img", second],
        vec!["remove", "box.img", small_second],
        vec!["append", "box.img", second, "file"],
        vec!["rename", "box.img", second, D],
        vec!["get", "box.img", zero],
        vec!["put", "box.img", zero, "file"],
        vec!["remove", "box.img", zero],
        vec!["rename", "box.img", A, zero],
    ] {
        let out = place.tool(&words).run();
        assert!(matches!(out.status, 1 | 2) && !out.err.is_empty() && place.image() == before, "{words:?}: {}", out.status);
    }
    eprintln!("{count} lists of wrong words");
}

/// Numbers that are numbers, but too large: refused by the store.
#[test]
fn large_numbers() {
    let place = Place::new(&small_box());
    place.file("file", b"bytes");
    for n in [
        "1048577",
        "4294967296",
        "4294967300",
        "9223372036854775808",
        "18446744073709551615",
        "18446744073709551616",
        "184467440737095516167",
    ] {
        place.refused(4, &["resize", "box.img", A, n]);
        place.refused(4, &["write", "box.img", A, n, "file"]);
    }
    place.refused(4, &["write", "box.img", A, "1048572", "file"]);
    place.refused(16, &["write", "box.img", A, "1048571", "file"]);
    for n in ["0", "63", "4097", "4160", "65600", "4294967360", "18446744073709551615", "18446744073709551680"] {
        let out = place.tool(&["format", "new.img", n]).run();
        assert!(matches!(out.status, 1 | 2) && !out.err.is_empty(), "format of {n} blocks: {}", out.status);
        assert!(!place.scratch.at("new.img").exists(), "format of {n} blocks leaves a file");
    }
}

#[test]
fn format_and_sizes_of_boxes() {
    let place = Place::new(b"");
    for (n, free) in [("64", 22), ("65", 23), ("4096", 4054)] {
        let image = format!("b{n}.img");
        place.run(0, &["format", &image, n]);
        assert!(fs::read(place.scratch.at(&image)).unwrap() == empty(n.parse().unwrap()), "{n} blocks");
        assert_eq!(place.run(0, &["list", &image]).text(), format!("files 0 free {free}\n"));
        let before = fs::read(place.scratch.at(&image)).unwrap();
        place.run(3, &["format", &image, "64"]);
        assert!(fs::read(place.scratch.at(&image)).unwrap() == before, "format overwrites");
    }
    // What is there is not touched, whatever it is.
    fs::create_dir(place.scratch.at("folder")).unwrap();
    std::os::unix::fs::symlink("nowhere", place.scratch.at("link")).unwrap();
    for n in ["box.img", "folder", "link", "no/folder", "folder/.."] {
        place.run(3, &["format", n, "64"]);
    }
    assert!(place.image().is_empty() && place.scratch.at("folder").is_dir() && !place.scratch.at("nowhere").exists());
}

/// E3 and E9 of document 01 as commands.
#[test]
fn examples() {
    let place = Place::new(&empty(64));
    place.file("sale", &pattern(1, 600));
    let n = "0102030405060708";
    let out = place.run(0, &["put", "box.img", n, "sale"]);
    assert_eq!(out.text(), "stores 10\n");
    assert_eq!(place.list(), format!("files 1 free 20\n{n} 600 42+2\n"));
    assert_eq!(place.run(0, &["get", "box.img", n]).out, pattern(1, 600));
    assert_eq!(place.run(0, &["resize", "box.img", n, "100"]).text(), "stores 8\n");
    assert_eq!(place.list(), format!("files 1 free 21\n{n} 100 42+1\n"));
    place.refused(14, &["rename", "box.img", n, n]);
    place.run(0, &["rename", "box.img", n, "00000000000000aB"]);
    assert_eq!(place.list(), "files 1 free 21\n00000000000000AB 100 42+1\n");
    assert_eq!(place.run(0, &["get", "box.img", "00000000000000Ab"]).out, pattern(1, 100));
    place.refused(13, &["get", "box.img", n]);
    place.refused(13, &["remove", "box.img", n]);
    place.refused(13, &["rename", "box.img", n, A]);
    place.refused(13, &["resize", "box.img", n, "1"]);
    place.refused(13, &["write", "box.img", n, "0", "sale"]);
    place.refused(13, &["append", "box.img", n, "sale"]);
    place.run(0, &["remove", "box.img", "00000000000000AB"]);
    assert_eq!(place.list(), "files 0 free 22\n");
    // E7
    place.file("most", &pattern(2, 11_264));
    place.file("more", &pattern(2, 11_265));
    place.refused(16, &["put", "box.img", n, "more"]);
    place.run(0, &["put", "box.img", n, "most"]);
    assert_eq!(place.list(), format!("files 1 free 0\n{n} 11264 42+22\n"));
    place.refused(16, &["append", "box.img", n, "sale"]);
    place.refused(16, &["put", "box.img", A, "sale"]);
    place.refused(16, &["put", "box.img", n, "more"]);
    assert!(place.map()[&name(n)] == pattern(2, 11_264));
    assert!(place.run(0, &["check", "box.img"]).text().contains("sound"));
}

#[test]
fn puts_of_all_sizes() {
    let place = Place::new(&wide_box(4096));
    let mut map = place.map();
    let sizes = [0, 1, 511, 512, 513, 15_359, 15_360, 15_361, 15_872, 30_720, 30_721, 100_000, 524_288, 1_048_575, 1_048_576];
    for (i, size) in sizes.into_iter().enumerate() {
        let bytes = pattern(100 + i, size);
        place.file("file", &bytes);
        if size == 1_048_576 {
            // The box has no room for a second purse of that size.
            place.refused(16, &["put", "box.img", NEXT, "file"]);
            place.run(0, &["remove", "box.img", NEXT]);
        }
        if i % 2 == 0 {
            place.run(0, &["put", "box.img", NEXT, "file"]);
        } else {
            let out = place.tool(&["put", "box.img", NEXT, "-"]).input(&bytes).run();
            assert_eq!(out.status, 0, "{}", out.err);
        }
        map.insert(name(NEXT), bytes.clone());
        assert!(place.map() == map, "put of {size} bytes");
        assert!(place.run(0, &["get", "box.img", NEXT]).out == bytes, "get of {size} bytes");
    }
    place.list();
    place.file("file", &pattern(7, 1_048_577));
    place.refused(4, &["put", "box.img", NEXT, "file"]);
    place.refused(4, &["put", "box.img", D, "/dev/zero"]);
    place.refused(4, &["append", "box.img", NEXT, "file"]);
    place.file("file", &pattern(7, 1_048_576));
    place.refused(4, &["append", "box.img", A, "file"]);
    assert!(place.map() == map);
}

/// A refused put leaves the box as it was, also where it takes several transactions to find out.
#[test]
fn refused_long_puts() {
    // E holds 40 blocks, 256 - 42 - 40 - 16 are free: no room for 170 beside them.
    let place = Place::new(&wide_box(256));
    for (n, blocks) in [(E, 170), (NEXT, 170), (E, 159), (NEXT, 200), (NEXT, 2048)] {
        place.file("file", &pattern(5, blocks * 512));
        place.refused(16, &["put", "box.img", n, "file"]);
    }
    // A left-over of a cut put is no ground for a refusal: the next put takes it away first.
    let place = Place::new(&left_over_box(256, 150));
    place.file("file", &pattern(6, 100 * 512));
    place.run(0, &["put", "box.img", NEXT, "file"]);
    assert!(place.map()[&name(NEXT)] == pattern(6, 100 * 512) && !place.map().contains_key(&SECOND));
    let place = Place::new(&left_over_box(256, 150));
    place.file("file", &pattern(6, 20 * 512));
    place.run(0, &["put", "box.img", NEXT, "file"]);
    assert!(!place.map().contains_key(&SECOND));
    // Refused with a left-over in the box: the other purses are untouched.
    let place = Place::new(&left_over_box(256, 50));
    let before = without_second(place.map());
    place.file("file", &pattern(6, 2000 * 512));
    place.run(1, &["put", "box.img", NEXT, "file"]);
    assert!(without_second(place.map()) == before);
}

#[test]
fn as_many_purses_as_there_are_records() {
    let mut image = empty(256);
    for i in 0..128u64 {
        add(&mut image, (i + 1).to_be_bytes(), &pattern(i as usize, 300), None);
    }
    let place = Place::new(&image);
    place.file("file", &pattern(1, 400));
    place.file("long", &pattern(1, 40 * 512));
    place.refused(15, &["put", "box.img", A, "file"]);
    place.refused(15, &["put", "box.img", A, "long"]);
    place.list();
    place.run(0, &["put", "box.img", "0000000000000080", "file"]);
    // In place of a purse there is no record for the second one.
    let before = place.map();
    let out = place.tool(&["put", "box.img", "0000000000000080", "long"]).run();
    assert!(out.status == 1 && place.map() == before, "{}: {}", out.status, out.err);
    place.run(0, &["remove", "box.img", "0000000000000001"]);
    place.run(0, &["put", "box.img", "0000000000000080", "long"]);
    assert!(place.map()[&name("0000000000000080")] == pattern(1, 40 * 512));
    place.run(0, &["map", "box.img"]);
}

/// 512 pieces are the most, and 32 blocks in a transaction.
#[test]
fn pieces_and_transactions() {
    let mut image = empty(1200);
    let places: Vec<usize> = (0..512).map(|i| 42 + 2 * i).collect();
    add(&mut image, name(A), &pattern(1, 512 * 512), Some(&places));
    let place = Place::new(&image);
    place.file("file", &pattern(2, 10));
    place.list();
    place.refused(17, &["append", "box.img", A, "file"]);
    assert!(place.run(0, &["get", "box.img", A]).out == pattern(1, 512 * 512));
    place.run(0, &["map", "box.img"]);
    place.run(0, &["put", "box.img", B, "file"]);
    place.refused(18, &["resize", "box.img", B, "16385"]);
    place.file("most", &pattern(3, 31 * 512));
    place.refused(18, &["append", "box.img", B, "most"]);
    assert!(place.map()[&name(B)] == pattern(2, 10));
}

/// Lines of one transaction: all or none, and the first that is refused is named.
#[test]
fn batches() {
    let place = Place::new(&small_box());
    place.file("part", &pattern(9, 100));
    let lines = format!("# sale\n\n  \ncreate {D}\nwrite {D} 0 part\nrename {A} {NEXT}\nremove {C}\nresize {E} 5");
    let out = place.tool(&["batch", "box.img", "-"]).input(lines.as_bytes()).run();
    assert_eq!(out.status, 0, "{}", out.err);
    let map = place.map();
    assert!(map[&name(D)] == pattern(9, 100) && map[&name(NEXT)] == pattern(1, 1300) && map[&name(E)] == pattern(3, 5));
    assert!(!map.contains_key(&name(C)) && !map.contains_key(&name(A)));
    // Line, its number, status.
    for (lines, number, status) in [
        (format!("create {C}\nremove {A}\n"), 2, 1),
        (format!("create {D}\n"), 1, 1),
        (format!("# x\nresize {D} 1048577\n"), 2, 1),
        (format!("create {C}\n\nrename {C} {D}\nremove {D}\n"), 3, 1),
        (format!("create {C}\nwrite {C} 0 part\nresize {C} 1000000\n"), 3, 1),
        (format!("create {C}\nfrobnicate {C}\n"), 2, 2),
        (format!("create {C} {C}\n"), 1, 2),
        (format!("create {C}\ncreate\n"), 2, 2),
        ("create 12\n".to_string(), 1, 2),
        ("create FFFFFFFFFFFFFFFF\n".to_string(), 1, 2),
        (format!("create {C}\nrename {C} FFFFffffFFFFFFFF\n"), 2, 2),
        (format!("resize {D} x\n"), 1, 2),
        (format!("create {C}\nwrite {C} 0 missing\n"), 2, 3),
        (format!("create {C}\nwrite {C} 0 .\n"), 2, 3),
    ] {
        place.file("lines", lines.as_bytes());
        let before = place.image();
        let out = place.run(status, &["batch", "box.img", "lines"]);
        assert!(out.err.contains(&format!("line {number}")), "{lines:?}: {}", out.err);
        assert!(place.image() == before, "{lines:?}: the image is another");
    }
    // No lines: nothing is stored.
    for lines in ["", "\n", "# only words\n\n"] {
        place.file("lines", lines.as_bytes());
        let before = place.image();
        place.run(0, &["batch", "box.img", "lines"]);
        assert!(place.image() == before);
    }
}

/// A pending log: list tells it, get and map are refused with 12, a change recovers first.
#[test]
fn pending_logs() {
    let mut after = small_box();
    add(&mut after, name(D), &pattern(9, 900), None);
    for done in 0..4 {
        let image = pending(&small_box(), &after, done);
        let place = Place::new(&image);
        assert_eq!(place.list(), "recover 4\n");
        place.refused(12, &["get", "box.img", A]);
        place.refused(12, &["map", "box.img"]);
        assert!(place.image() == image);
        let out = place.run(0, &["recover", "box.img"]);
        assert_eq!(out.text(), "stores 5\n");
        assert!(place.map() == map_of(&after));
        let whole = place.image();
        place.run(0, &["recover", "box.img"]);
        assert!(place.image() == whole, "a second recover stores something");
        // A change that is refused has recovered first or has stored nothing.
        fs::write(place.scratch.at("box.img"), &image).unwrap();
        place.run(1, &["remove", "box.img", NEXT]);
        assert!(committed(&place.image()) == Some(map_of(&after)));
    }
}

/// Dump, remove all, restore: the same map. Twice dumped, the same files.
#[test]
fn dump_and_restore() {
    let mut image = wide_box(512);
    add(&mut image, name("00000000000000AB"), &pattern(8, 100 * 512 + 1), None);
    let place = Place::new(&image);
    let map = place.map();
    place.run(0, &["dump", "box.img", "out"]);
    assert!(place.image() == image);
    let names = |folder: &str| {
        let mut list: Vec<String> =
            fs::read_dir(place.scratch.at(folder)).unwrap().map(|e| path(e.unwrap().file_name().as_ref())).collect();
        list.sort();
        list
    };
    assert_eq!(names("out"), map.keys().map(hex).collect::<Vec<_>>());
    for (n, bytes) in &map {
        assert!(fs::read(place.scratch.at("out").join(hex(n))).unwrap() == *bytes, "dump of {}", hex(n));
    }
    place.run(0, &["format", "new.img", "512"]);
    place.run(0, &["restore", "out", "new.img"]);
    assert!(map_of(&fs::read(place.scratch.at("new.img")).unwrap()) == map);
    place.run(0, &["dump", "new.img", "again"]);
    assert_eq!(names("again"), names("out"));
    // In place of what is there.
    place.run(0, &["resize", "new.img", A, "3"]);
    place.run(0, &["remove", "new.img", D]);
    place.run(0, &["restore", "out", "new.img"]);
    assert!(map_of(&fs::read(place.scratch.at("new.img")).unwrap()) == map);
    // No file is overwritten.
    place.run(3, &["dump", "new.img", "out"]);
    for (n, bytes) in &map {
        assert!(fs::read(place.scratch.at("out").join(hex(n))).unwrap() == *bytes, "a second dump has changed {}", hex(n));
    }
    // A folder that is missing stores nothing.
    let before = fs::read(place.scratch.at("new.img")).unwrap();
    place.run(3, &["restore", "missing", "new.img"]);
    place.run(3, &["restore", "box.img", "new.img"]);
    assert!(fs::read(place.scratch.at("new.img")).unwrap() == before);
}

/// Restore puts all that it is given, or says why not: a file that cannot be looked at is not left out.
#[test]
fn restore_of_odd_folders() {
    let place = Place::new(&small_box());
    fs::create_dir(place.scratch.at("odd")).unwrap();
    let odd = |n: &str| place.scratch.at("odd").join(n);
    fs::write(odd(D), b"purse").unwrap();
    let before = place.image();
    let same = |status: i32, what: &str| {
        let out = place.run(status, &["restore", "odd", "box.img"]);
        assert!(place.image() == before, "{what}: the image is another: {}", out.err);
    };
    // A link to itself.
    std::os::unix::fs::symlink(NEXT, odd(NEXT)).unwrap();
    same(3, "a link to itself");
    fs::remove_file(odd(NEXT)).unwrap();
    // A link to nothing.
    std::os::unix::fs::symlink("nothing", odd(NEXT)).unwrap();
    same(3, "a link to nothing");
    fs::remove_file(odd(NEXT)).unwrap();
    // One purse twice.
    fs::write(odd("00000000000000ab"), b"one").unwrap();
    fs::write(odd("00000000000000AB"), b"two").unwrap();
    same(2, "one purse twice");
    fs::remove_file(odd("00000000000000ab")).unwrap();
    // One that does not fit: none is put.
    fs::write(odd(NEXT), pattern(1, 50 * 512)).unwrap();
    same(1, "a purse that does not fit");
    fs::write(odd(NEXT), pattern(1, 1_048_577)).unwrap();
    same(1, "a purse that is too long");
    fs::remove_file(odd(NEXT)).unwrap();
    // What has no name of a purse is told and left.
    fs::write(odd("README"), b"words").unwrap();
    fs::write(odd("FFFFFFFFFFFFFFFF"), b"second").unwrap();
    fs::create_dir(odd(NEXT)).unwrap();
    let out = place.tool(&["restore", "odd", "box.img"]).run();
    assert_eq!(out.status, 0, "{}", out.err);
    for n in ["README", "FFFFFFFFFFFFFFFF", NEXT] {
        assert!(out.err.contains(n), "nothing said of {n}: {}", out.err);
    }
    let mut wanted = map_of(&before);
    wanted.insert(name(D), b"purse".to_vec());
    wanted.insert(name("00000000000000AB"), b"two".to_vec());
    assert!(place.map() == wanted);
}

/// Salvage of a sound box is a dump; of a damaged one, the purses that are not damaged.
#[test]
fn salvage() {
    let image = wide_box(128);
    let place = Place::new(&image);
    place.run(0, &["salvage", "box.img", "whole"]);
    for (n, bytes) in &place.map() {
        assert!(fs::read(place.scratch.at("whole").join(hex(n))).unwrap() == *bytes, "salvage of {}", hex(n));
    }
    // Record 1 (D) gets an impossible size.
    let mut bad = image.clone();
    bad[34 * BLOCK + 32 + 11] = 0xff;
    fs::write(place.scratch.at("box.img"), &bad).unwrap();
    assert_eq!(look(&bad), Seen::Refused(22, Some(1)));
    let out = place.tool(&["salvage", "box.img", "out"]).run();
    assert!(matches!(out.status, 0 | 1), "{}: {}", out.status, out.err);
    assert!(place.image() == bad);
    for (n, bytes) in map_of(&image).iter().filter(|p| *p.0 != name(D)) {
        assert!(fs::read(place.scratch.at("out").join(hex(n))).ok().as_ref() == Some(bytes), "salvage of {}: {}", hex(n), out.err);
    }
}

/// A change of the worked box, and what is told of it.
type Damage = (fn(&mut [u8]), &'static str);

const A_IN_2: &str = "0102030405060708";
const B_IN_5: &str = "4242424242424242";

fn record_at(i: usize) -> usize {
    34 * BLOCK + 32 * i
}

fn name_as_in_2(image: &mut [u8], i: usize) {
    image.copy_within(record_at(2)..record_at(2) + 8, record_at(i));
}

/// Record 2 has block 43 twice, and 42 no more.
fn twice_43(image: &mut [u8]) {
    image[record_at(2) + 16..][..8].copy_from_slice(&[43, 0, 1, 0, 43, 0, 1, 0]);
}

fn damaged_records() -> Vec<Damage> {
    vec![
        (|b| name_as_in_2(b, 5), "record 5; its name is 0102030405060708, which record 2 has too"),
        (|b| [5, 9].into_iter().for_each(|i| name_as_in_2(b, i)), "record 5; its name is 0102030405060708, which record 2 has too"),
        (|b| (name_as_in_2(b, 5), b[record_at(3) + 20] = 1).1, "record 3; it has no name, but other bytes"),
        (|b| b[record_at(2) + 16] = 41, "record 2; its name is 0102030405060708; it has block 41, outside of 42 to 63"),
        (
            |b| b[record_at(2) + 16..][..8].copy_from_slice(&[42, 0, 1, 0, 43, 0, 1, 0]),
            "record 2; its name is 0102030405060708; two of its extents touch at block 43",
        ),
        (
            |b| (flip(b, 0), b[43 * BLOCK + 88] = 1).1,
            "record 2; its name is 0102030405060708; bytes behind its end, in block 43, are not zero",
        ),
        (|b| b[record_at(5) + 18] = 6, "record 5; its name is 4242424242424242; its extent block 54 lists 5 blocks, and its record 6"),
    ]
}

fn damaged_blocks() -> Vec<Damage> {
    vec![
        (twice_43, "block 42; it is marked in use, but no purse has it"),
        (|b| (twice_43(b), flip(b, 42)).1, "block 43; {A} has it more than once"),
        (|b| (twice_43(b), flip(b, 5)).1, "block 5; it belongs to the store itself, but is marked free"),
        (|b| b[54 * BLOCK] = 54, "block 44; it is marked in use, but no purse has it"),
        (|b| (b[54 * BLOCK] = 54, flip(b, 44)).1, "block 54; {B} has it more than once"),
        (|b| (b[54 * BLOCK] = 43, flip(b, 44)).1, "block 43; {A} and {B} both have it"),
        (
            |b| {
                (b[54 * BLOCK], b[record_at(9) + 9]) = (43, 2);
                b[record_at(9) + 16..][..4].copy_from_slice(&[43, 0, 1, 0]);
                flip(b, 44);
            },
            "block 43; {A}, {B} and 1 more have it",
        ),
        (|b| flip(b, 43), "block 43; it is marked free, but {A} has it"),
        (|b| flip(b, 54), "block 54; it is marked free, but {B} has it"),
        (|b| flip(b, 60), "block 60; it is marked in use, but no purse has it"),
        (|b| flip(b, 41), "block 41; it belongs to the store itself, but is marked free"),
        (|b| b.fill(0), "block 0; it belongs to the store itself, but is marked free"),
        (|b| flip(b, 100), "block 100; it lies behind the end of the box, but is marked free"),
        (|b| flip(b, 4095), "block 4095; it lies behind the end of the box, but is marked free"),
    ]
}

/// The commands that open a box, but for `list` and `salvage`: those that redo a log, then those that are refused with 12 where one is pending.
const OPENING: [&[&str]; 17] = [
    &["check", "box.img"],
    &["recover", "box.img"],
    &["put", "box.img", NEXT, "file"],
    &["append", "box.img", A_IN_2, "file"],
    &["write", "box.img", A_IN_2, "0", "file"],
    &["resize", "box.img", A_IN_2, "1"],
    &["remove", "box.img", A_IN_2],
    &["rename", "box.img", A_IN_2, NEXT],
    &["batch", "box.img", "file"],
    &["load", "box.img", "file"],
    &["load", "box.img", "file", "2"],
    &["restore", "folder", "box.img"],
    &["get", "box.img", A_IN_2],
    &["map", "box.img"],
    &["map", "--svg", "new.svg", "box.img"],
    &["map", "--svg", "-", "box.img"],
    &["dump", "box.img", "out"],
];
const REDOING: usize = 12;

fn damaged_place(image: &[u8]) -> Place {
    let place = Place::new(image);
    place.file("file", b"");
    fs::create_dir(place.scratch.at("folder")).unwrap();
    place
}

/// These commands tell the damage in this sentence, and store nothing. How many they are.
fn all_tell(place: &Place, commands: &[&[&str]], sentence: &str) -> usize {
    let before = place.image();
    for words in commands {
        let out = place.run(1, words);
        assert_eq!((out.text(), out.err), (String::new(), format!("{sentence}\n")), "{words:?}");
        assert!(place.image() == before, "{words:?}: the image is another");
    }
    assert!(!place.scratch.at("out").exists() && !place.scratch.at("new.svg").exists(), "something was made");
    commands.len()
}

/// So does `list`, and prints the number, and as JSON the record or block too.
fn list_tells(place: &Place, sentence: &str, number: &str, json: &str) -> usize {
    for (words, result) in [
        (&["list", "box.img"][..], format!("refused {number}\n")),
        (&["list", "--json", "box.img"], format!("{{\"refused\":{number},{json}}}\n")),
    ] {
        let out = place.run(1, words);
        assert_eq!((out.text(), out.err), (result, format!("{sentence}\n")), "{words:?}");
    }
    2
}

#[test]
fn damage_is_told() {
    let (record, block) =
        ("refused 22: a file record is damaged, ", "refused 23: a block is marked wrong in the bit table, or used twice, ");
    let cases = damaged_records().into_iter().map(|c| (record, c)).chain(damaged_blocks().into_iter().map(|c| (block, c)));
    let mut count = 0;
    for (start, (change, words)) in cases {
        let mut image = worked_box();
        change(&mut image);
        let sentence =
            start.to_string() + &words.replace("{A}", &format!("record 2 ({A_IN_2})")).replace("{B}", &format!("record 5 ({B_IN_5})"));
        let place = damaged_place(&image);
        count += all_tell(&place, &OPENING, &sentence);
        let (of, fault) = words.split_once(';').unwrap().0.split_once(' ').unwrap();
        count += list_tells(&place, &sentence, &sentence[8..10], &format!("\"{of}\":{fault}"));
        // A log is told as a log, and behind its redo the damage is the same.
        idle_log(&mut image);
        place.file("box.img", &image);
        assert_eq!(place.list(), "recover 1\n");
        count +=
            all_tell(&place, &OPENING[..REDOING], &(sentence + "; the pending log does not lead to a sound box, so nothing was stored"));
    }
    eprintln!("{count} commands on boxes with a damaged record or block");
}

/// A damaged list of a commit: its record, and what is wrong with it.
#[test]
fn damaged_lists_are_told() {
    let listed = |at: usize, byte: u8| move |image: &mut [u8]| image[at] = byte;
    for (second, words) in [
        (listed(16, 33), "record 1; its target is block 33, which record 0 has too"),
        (listed(0, 32), "record 0; its target is block 32, and only 33 to 63 can be one"),
        (listed(16, 64), "record 1; its target is block 64, and only 33 to 63 can be one"),
        (listed(17, 1), "record 1; its target is block 256, and only 33 to 63 can be one"),
        (listed(32, 34), "record 2; record 1 before it is empty"),
        (listed(511, 1), "record 31; it has other bytes than a target"),
    ] {
        let mut image = worked_box();
        image[0] = 33;
        second(&mut image);
        let place = damaged_place(&image);
        let sentence = format!("refused 10: the list in the commit block is damaged, {words}");
        all_tell(&place, &OPENING, &sentence);
        let record = words.split([' ', ';']).nth(1).unwrap();
        list_tells(&place, &sentence, "10", &format!("\"record\":{record}"));
        let out = place.tool(&["salvage", "box.img", "saved"]).run();
        assert!(out.err.starts_with(&format!("{sentence}; the box is looked at without its log")), "{}", out.err);
        assert!(out.text().ends_with("saved 3 lost 0\n"), "{}", out.text());
    }
}

/// What salvage says of the box, and of each purse that is lost.
#[test]
fn salvage_tells_why() {
    let (a, b, c) = ("record 2 0102030405060708 600", "record 5 4242424242424242 2560", "record 9 4343434343434343 0");
    let saved = |line: &str| format!("{line} saved as {}\n", line.split(' ').nth(2).unwrap());
    let (saved_a, saved_b, saved_c) = (saved(a), saved(b), saved(c));
    let cases: [(fn(&mut [u8]), String); 5] = [
        (
            |image| (twice_43(image), flip(image, 42)).1,
            format!("{a} lost: it has block 43 more than once (refused 23)\n{saved_b}{saved_c}saved 2 lost 1\n"),
        ),
        (|image| image[54 * BLOCK] = 54, format!("{saved_a}{b} lost: it has block 54 more than once (refused 23)\n{saved_c}saved 2 lost 1\n")),
        (|image| image[record_at(2) + 16] = 41, format!("{a} lost: its record is not sound (refused 22): it has block 41, outside of 42 to 63\n{saved_b}{saved_c}saved 2 lost 1\n")),
        (
            |image| image[54 * BLOCK] = 43,
            format!("{a} lost: block 43 is claimed by record 5 too\n{b} lost: block 43 is claimed by record 2 too\n{saved_c}saved 1 lost 2\n"),
        ),
        (
            |image| (name_as_in_2(image, 9), flip(image, 60)).1,
            format!(
                "{a} saved as 0102030405060708.record2\n{saved_b}record 9 0102030405060708 0 saved as 0102030405060708.record9\nsaved 3 lost 0\n"
            ),
        ),
    ];
    for (change, wanted) in cases {
        let mut image = worked_box();
        change(&mut image);
        let place = Place::new(&image);
        let Seen::Refused(n, fault) = look(&image) else { panic!("the box is sound") };
        let out = place.tool(&["salvage", "box.img", "saved"]).run();
        assert_eq!((out.status, out.text(), out.err), (0, wanted.clone(), format!("{}\n", told(&image, n, fault))));
        // The same behind a log whose redo leads there.
        idle_log(&mut image);
        place.file("box.img", &image);
        let out = place.tool(&["salvage", "box.img", "again"]).run();
        let log = format!("a log is pending, and is redone in memory: {}\n", told(&redo(&image), n, fault));
        assert_eq!((out.status, out.text(), out.err), (0, wanted, log));
        assert!(place.image() == image);
    }
}

/// The map shows each block once, and every purse.
#[test]
fn maps() {
    let place = Place::new(&wide_box(128));
    let text = place.run(0, &["map", "box.img"]).text();
    for p in place.map().keys() {
        assert!(text.contains(&hex(p)), "{text}");
    }
    let first = text.lines().next().unwrap();
    assert!(first.starts_with("CLLLLLLLLLLLLLLLLLLLLLLLLLLLLLLLLBRRRRRRRR"), "{first}");
    place.run(0, &["map", "--svg", "one.svg", "box.img"]);
    place.run(0, &["map", "box.img", "--svg", "two.svg"]);
    let (one, two) = (fs::read_to_string(place.scratch.at("one.svg")).unwrap(), fs::read_to_string(place.scratch.at("two.svg")).unwrap());
    assert!(one == two && one.contains("<svg") && one.trim_end().ends_with("</svg>"));
    // No file is overwritten, least of all the image.
    let image = place.image();
    place.run(3, &["map", "--svg", "box.img", "box.img"]);
    place.run(3, &["map", "--svg", "one.svg", "box.img"]);
    assert!(place.image() == image && fs::read_to_string(place.scratch.at("one.svg")).unwrap() == one);
    let opened = one.matches('<').count();
    assert_eq!(opened, one.matches('>').count());
}

/// A small reader of JSON: what it reads is JSON.
fn json(text: &[u8], mut at: usize) -> Option<usize> {
    let space = |mut at: usize| {
        while text.get(at).is_some_and(|b| b" \n\r\t".contains(b)) {
            at += 1;
        }
        at
    };
    let string = |mut at: usize| {
        if text.get(at) != Some(&b'"') {
            return None;
        }
        at += 1;
        loop {
            match *text.get(at)? {
                b'"' => return Some(at + 1),
                b'\\' => at += 2,
                b if b < 32 => return None,
                _ => at += 1,
            }
        }
    };
    at = space(at);
    at = match *text.get(at)? {
        open @ (b'{' | b'[') => {
            let close = if open == b'{' { b'}' } else { b']' };
            at = space(at + 1);
            if text.get(at) == Some(&close) {
                return Some(space(at + 1));
            }
            loop {
                if open == b'{' {
                    at = space(string(at)?);
                    if text.get(at) != Some(&b':') {
                        return None;
                    }
                    at += 1;
                }
                at = json(text, at)?;
                match *text.get(at)? {
                    b',' => at = space(at + 1),
                    b if b == close => break at + 1,
                    _ => return None,
                }
            }
        }
        b'"' => string(at)?,
        b'0'..=b'9' | b'-' => at + text[at..].iter().take_while(|b| b"0123456789-+.eE".contains(b)).count(),
        _ => at + [&b"true"[..], b"false", b"null"].iter().find(|w| text[at..].starts_with(w))?.len(),
    };
    Some(space(at))
}

#[test]
fn lists_in_json() {
    let mut logged = small_box();
    add(&mut logged, name(D), &pattern(9, 900), None);
    for image in [small_box(), wide_box(256), empty(64), pending(&small_box(), &logged, 1)] {
        let place = Place::new(&image);
        let out = place.run(0, &["list", "--json", "box.img"]);
        assert_eq!(json(&out.out, 0), Some(out.out.len()), "{}", out.text());
        if let Seen::Sound { purses, free } = look(&image) {
            let plain: String = out.text().split_whitespace().collect();
            assert!(plain.contains(&format!("\"free\":{free}")), "{plain}");
            for p in purses {
                assert!(plain.contains(&hex(&p.name)) && plain.contains(&format!("\"size\":{}", p.size)), "{plain}");
            }
        }
    }
}

/// A result that cannot be written is status 3, and the box is whole.
#[test]
fn standard_output_full_or_closed() {
    let image = wide_box(128);
    let place = Place::new(&image);
    place.file("file", &pattern(1, 600));
    place.file("monday", b"04A1B2C3;H;1250\n");
    let full = || File::options().write(true).open("/dev/full").unwrap();
    let readers: [&[&str]; 9] = [
        &["list", "box.img"],
        &["list", "--json", "box.img"],
        &["check", "box.img"],
        &["map", "box.img"],
        &["get", "box.img", A],
        &["get", "box.img", E],
        &["convert", "D", "monday"],
        &["--help"],
        &["--version"],
    ];
    for words in readers {
        let out = place.tool(words).stdout(full()).run();
        assert!(out.status == 3 && !out.err.is_empty(), "{words:?} > /dev/full: {}", out.status);
        let mut running = place.tool(words).spawn();
        // The reader of the pipe goes away. Whether the tool had written before is a matter of luck; it must not crash.
        drop(running.child.stdout.take());
        let out = running.wait();
        assert!(matches!(out.status, 0 | 3), "{words:?} into a closed pipe: {}", out.status);
        let (reader, writer) = std::io::pipe().unwrap();
        drop(reader);
        let out = place.tool(words).stdout(File::from(std::os::fd::OwnedFd::from(writer))).run();
        assert!(out.status == 3 && !out.err.is_empty(), "{words:?} into a closed pipe: {}", out.status);
        assert!(place.image() == image);
    }
    // A change whose words cannot be said is in force all the same, and says so.
    let out = place.tool(&["load", "box.img", "monday"]).stdout(full()).run();
    assert!(out.status == 3 && out.err.contains("in force") && !out.err.contains("not in force"), "{}: {}", out.status, out.err);
    assert_eq!(place.map()[&name("0404A1B2C3000000")], 1250u64.to_le_bytes());
    let out = place.tool(&["put", "box.img", NEXT, "file"]).stdout(full()).run();
    assert!(out.status == 3 && out.err.contains("in force") && !out.err.contains("not in force"), "{}: {}", out.status, out.err);
    assert!(place.map()[&name(NEXT)] == pattern(1, 600));
}

extern "C" {
    fn close(fd: i32) -> i32;
}

/// Started without standard input, output and error: what the tool says must not end up in the image.
#[test]
fn no_standard_files() {
    for closed in [&[0][..], &[1], &[2], &[0, 1], &[1, 2], &[0, 1, 2]] {
        for words in [
            &["put", "box.img", NEXT, "file"][..],
            &["remove", "box.img", NEXT],
            &["load", "box.img", "monday"],
            &["list", "box.img"],
            &["recover", "box.img"],
            &["get", "box.img", A],
            &["convert", "D", "monday"],
        ] {
            let place = Place::new(&small_box());
            place.file("file", &pattern(1, 600));
            place.file("monday", b"04A1B2C3;H;1250\n");
            let mut command = Command::new(env!("CARGO_BIN_EXE_purse"));
            command.args(words).current_dir(&place.scratch.path).stdin(Stdio::null()).stdout(Stdio::null()).stderr(Stdio::null());
            unsafe {
                command.pre_exec(move || {
                    closed.iter().for_each(|&fd| {
                        close(fd);
                    });
                    Ok(())
                })
            };
            let status = command.status().unwrap();
            assert!(matches!(status.code(), Some(0 | 1 | 3)), "{words:?} without {closed:?}: {status:?}");
            let mut wanted = map_of(&small_box());
            if words[0] == "put" && status.code() == Some(0) {
                wanted.insert(name(NEXT), pattern(1, 600));
            }
            if words[0] == "load" && status.code() == Some(0) {
                wanted.insert(name("0404A1B2C3000000"), 1250u64.to_le_bytes().to_vec());
            }
            assert!(place.map() == wanted, "{words:?} without {closed:?}");
        }
    }
}

/// A standard input that is closed is no empty FILE: nothing is stored, and nothing converted.
#[test]
fn standard_input_closed() {
    let place = Place::new(&small_box());
    for words in [
        &["put", "box.img", A, "-"][..],
        &["append", "box.img", A, "-"],
        &["write", "box.img", A, "0", "-"],
        &["batch", "box.img", "-"],
        &["load", "box.img", "-"],
        &["convert", "D", "-"],
    ] {
        let mut command = Command::new(env!("CARGO_BIN_EXE_purse"));
        command.args(words).current_dir(&place.scratch.path).stdin(Stdio::null());
        unsafe {
            command.pre_exec(|| {
                close(0);
                Ok(())
            })
        };
        let out = command.output().unwrap();
        let err = String::from_utf8_lossy(&out.stderr);
        assert!(out.status.code() == Some(3) && out.stdout.is_empty(), "{words:?}: {:?} {err}", out.status);
        assert!(err.contains("standard input is closed"), "{words:?}: {err}");
        assert!(place.image() == small_box(), "{words:?}: the image is another");
    }
}

/// What is no file: told, and nothing hangs.
#[test]
fn images_that_are_no_files() {
    let place = Place::new(&small_box());
    place.file("file", b"bytes");
    fs::create_dir(place.scratch.at("folder")).unwrap();
    make_fifo(&place.scratch.at("fifo"));
    std::os::unix::fs::symlink("loop", place.scratch.at("loop")).unwrap();
    for image in ["folder", "fifo", "loop", "missing", "missing/box", "box.img/box", "/dev/null", "/dev/zero", "/dev/full", ""] {
        for c in COMMANDS.into_iter().filter(|c| !["format", "convert"].contains(c)) {
            let words: Vec<&str> = match c {
                "list" | "check" | "recover" | "map" => vec![c, image],
                "get" | "remove" => vec![c, image, A],
                "put" | "append" => vec![c, image, A, "file"],
                "rename" => vec![c, image, A, D],
                "resize" => vec![c, image, A, "5"],
                "write" => vec![c, image, A, "0", "file"],
                "batch" | "load" => vec![c, image, "/dev/null"],
                "restore" => vec![c, "folder", image],
                _ => vec![c, image, "out"],
            };
            let since = std::time::Instant::now();
            let out = place.tool(&words).run();
            assert!(matches!(out.status, 1 | 3) && !out.err.is_empty(), "{words:?}: {}: {}{}", out.status, out.text(), out.err);
            assert!(since.elapsed().as_secs() < 10, "{words:?} takes too long");
        }
    }
    assert!(!place.scratch.at("missing").exists());
}

/// FILE that is missing, a folder, the image itself, standard input.
#[test]
fn files_to_put() {
    let place = Place::new(&small_box());
    fs::create_dir(place.scratch.at("folder")).unwrap();
    let before = place.image();
    for f in ["missing", "folder", "", "missing/file"] {
        for words in [
            vec!["put", "box.img", A, f],
            vec!["append", "box.img", A, f],
            vec!["write", "box.img", A, "0", f],
            vec!["batch", "box.img", f],
            vec!["load", "box.img", f],
            vec!["load", "box.img", f, "3"],
        ] {
            let out = place.run(3, &words);
            assert!(out.err.contains("not in force"), "{words:?}: {}", out.err);
            assert!(place.image() == before, "{words:?}");
        }
    }
    place.refused(16, &["put", "box.img", D, "box.img"]);
    for (words, wanted) in [
        (vec!["append", "box.img", C, "-"], pattern(4, 50)),
        (vec!["write", "box.img", C, "10", "-"], [pattern(4, 10), pattern(4, 50)].concat()),
        (vec!["put", "box.img", C, "-"], pattern(4, 50)),
    ] {
        let out = place.tool(&words).input(&pattern(4, 50)).run();
        assert_eq!(out.status, 0, "{}", out.err);
        assert!(place.map()[&name(C)] == wanted, "{words:?}");
    }
    // Standard input that is a folder cannot be read: nothing is stored.
    let before = place.image();
    for words in [&["put", "box.img", A, "-"][..], &["load", "box.img", "-"], &["load", "box.img", "-", "9"]] {
        let out = place.tool(words).stdin(File::open(place.scratch.at("folder")).unwrap()).run();
        assert!(out.status == 3 && place.image() == before, "{words:?}: {}: {}", out.status, out.err);
    }
    // Nor can one that is open for writing only.
    for words in [
        &["put", "box.img", A, "-"][..],
        &["append", "box.img", A, "-"],
        &["write", "box.img", A, "0", "-"],
        &["batch", "box.img", "-"],
        &["load", "box.img", "-"],
        &["load", "box.img", "-", "2"],
    ] {
        let out = place.tool(words).stdin(File::create(place.scratch.at("written")).unwrap()).run();
        assert!(
            out.status == 3 && place.image() == before,
            "{words:?} with a standard input that cannot be read: {} {}",
            out.status,
            out.err
        );
    }
    // An empty one is an empty purse.
    place.run(0, &["put", "box.img", A, "-"]);
    assert!(place.map()[&name(A)].is_empty());
    // A link is the file that it names.
    std::os::unix::fs::symlink("box.img", place.scratch.at("link")).unwrap();
    place.file("file", &pattern(5, 70));
    place.run(0, &["put", "link", A, "file"]);
    assert!(place.map()[&name(A)] == pattern(5, 70));
    assert!(Path::is_symlink(&place.scratch.at("link")));
}
