//! The Monday file from end to end: lines of every form, each refusal with its line, files of any length, and going on at a line.

mod common;

use common::*;
use std::fs::File;
use std::io::Write;

/// The worked examples: line, name, cents.
const GOOD: [(&str, &str, u64); 8] = [
    ("04A1B2C3;H;1250", "0404A1B2C3000000", 1250),
    ("3283263748;D;1250", "0404A1B2C3000000", 1250),
    ("04A1B2C3D4E5F6;H;0", "0704A1B2C3D4E5F6", 0),
    ("69495546249912580;D;0", "0704A1B2C3D4E5F6", 0),
    ("00000000;H;99999999", "0400000000000000", 99_999_999),
    ("0000000000;D;1", "0400000000000000", 1),
    ("4294967295;D;7", "04FFFFFFFF000000", 7),
    ("72057594037927935;D;10000000", "07FFFFFFFFFFFFFF", 10_000_000),
];

/// So many cards, a line each.
fn cards(n: usize) -> Vec<u8> {
    (0..n).flat_map(|i| format!("{:08X};H;{i}\n", 0x0400_0000 + i).into_bytes()).collect()
}

/// Loads, and asks for so many lines.
fn loads(place: &Place, words: &[&str], lines: usize) {
    let out = place.run(0, words);
    let wanted = if lines == 1 { "loaded 1 line\n".to_string() } else { format!("loaded {lines} lines\n") };
    assert_eq!((out.text(), out.err.as_str()), (wanted, ""), "{words:?}");
}

/// Status 1 with this number, line and rest of the sentence, and nothing on standard output.
fn stops(place: &Place, words: &[&str], number: u32, line: usize, rest: &str) {
    let out = place.run(1, words);
    assert!(out.out.is_empty(), "{words:?}: {}", out.text());
    assert!(out.err.starts_with(&format!("refused {number}: ")), "{words:?}: {}", out.err);
    assert!(out.err.ends_with(&format!(", line {line}; {rest}\n")), "{words:?}: line {line}; {rest}, not {}", out.err);
}

const NONE_BEFORE: &str = "no line was loaded before it";

#[test]
fn worked_examples() {
    for (line, card, amount) in GOOD {
        let place = Place::new(&empty(64));
        place.file("monday", format!("{line}\n").as_bytes());
        loads(&place, &["load", "box.img", "monday"], 1);
        assert_eq!(place.map(), Map::from([(name(card), cents(amount))]), "{line}");
        assert_eq!(place.run(0, &["get", "box.img", card]).out, cents(amount));
        assert_eq!(place.list(), format!("files 1 free 21\n{card} 8 42+1\n"));
        let all = "no line was loaded before it; the cards of all lines from there on are in the box";
        stops(&place, &["load", "box.img", "monday"], 14, 1, all);
    }
}

/// Each line that is not of the form, alone, behind a good one, and with its feed missing; nothing of it is stored.
#[test]
fn lines_not_of_the_form() {
    let place = Place::new(&empty(64));
    let before = place.image();
    for bad in BAD_LINES {
        place.file("monday", &[bad, b"\n04A1B2C9;H;1\n"].concat());
        stops(&place, &["load", "box.img", "monday"], 21, 1, NONE_BEFORE);
        assert!(place.image() == before, "{bad:?}");
        let place = Place::new(&empty(64));
        place.file("monday", &[b"80E91F04;H;1\n", bad, b"\n04A1B2C9;H;1\n"].concat());
        stops(&place, &["load", "box.img", "monday"], 21, 2, "1 line was loaded before it and stays");
        assert_eq!(place.map(), Map::from([(name("0480E91F04000000"), cents(1))]));
    }
    for (line, ..) in GOOD {
        place.file("monday", line.as_bytes());
        stops(&place, &["load", "box.img", "monday"], 21, 1, NONE_BEFORE);
    }
    for (number, text) in [
        (21, [&[b'0'; 64][..], b"\n"].concat()),
        (20, [&[b'0'; 65][..], b"\n"].concat()),
        (21, vec![b'0'; 64]),
        (20, vec![b'0'; 65]),
        (20, vec![b'0'; 5_000_000]),
        (20, vec![0; 16_384]),
        (21, b"\n".to_vec()),
    ] {
        place.file("monday", &text);
        stops(&place, &["load", "box.img", "monday"], number, 1, NONE_BEFORE);
    }
    stops(&place, &["load", "box.img", "/dev/zero"], 20, 1, NONE_BEFORE);
    assert!(place.image() == before);
}

/// H and D spell one card; the lines before stay, and the one refused leaves nothing.
#[test]
fn one_card_twice() {
    let place = Place::new(&empty(64));
    place.file("monday", b"04A1B2C3;H;1250\n69495546249912580;D;5\n3283263748;D;9\n80E91F04;H;3\n");
    let rest = "2 lines were loaded before it and stay; the next line that is not refused so is 4";
    stops(&place, &["load", "box.img", "monday"], 14, 3, rest);
    let mut wanted = Map::from([(name("0404A1B2C3000000"), cents(1250)), (name("0704A1B2C3D4E5F6"), cents(5))]);
    assert_eq!(place.map(), wanted);
    // The refused line is refused again until its cause is gone.
    let before = place.image();
    stops(&place, &["load", "box.img", "monday", "3"], 14, 3, "no line was loaded before it; the next line that is not refused so is 4");
    assert!(place.image() == before);
    place.run(0, &["remove", "box.img", "0404A1B2C3000000"]);
    loads(&place, &["load", "box.img", "monday", "3"], 2);
    wanted.insert(name("0404A1B2C3000000"), cents(9));
    wanted.insert(name("0480E91F04000000"), cents(3));
    assert_eq!(place.map(), wanted);
}

/// Full of blocks, and full of records: the line that has no room is named, and the box takes what fits.
#[test]
fn full_boxes() {
    for (blocks, lines, number) in [(64, 22, 16), (100, 58, 16), (170, 128, 15), (4096, 128, 15)] {
        let place = Place::new(&empty(blocks));
        place.file("monday", &cards(200));
        stops(&place, &["load", "box.img", "monday"], number, lines + 1, &format!("{lines} lines were loaded before it and stay"));
        let map = place.map();
        assert!(map.len() == lines && map.values().cloned().collect::<Vec<_>>() == (0..lines as u64).map(cents).collect::<Vec<_>>());
        let before = place.image();
        stops(&place, &["load", "box.img", "monday", "190"], number, 190, NONE_BEFORE);
        assert!(place.image() == before);
    }
}

#[test]
fn from_a_line_on() {
    let place = Place::new(&empty(64));
    place.file("monday", &cards(5));
    loads(&place, &["load", "box.img", "monday", "4"], 2);
    assert_eq!(place.map().into_values().collect::<Vec<_>>(), [cents(3), cents(4)]);
    let next = "1 line was loaded before it and stays; the cards of all lines from there on are in the box";
    stops(&place, &["load", "box.img", "monday", "003"], 14, 4, next);
    stops(
        &place,
        &["load", "box.img", "monday"],
        14,
        3,
        "2 lines were loaded before it and stay; the cards of all lines from there on are in the box",
    );
    assert_eq!(place.map().into_values().collect::<Vec<_>>(), (0..5).map(cents).collect::<Vec<_>>());
    // Past the end nothing is left.
    let before = place.image();
    for line in ["6", "7", "1000", "18446744073709551615", "18446744073709551616", "99999999999999999999999"] {
        loads(&place, &["load", "box.img", "monday", line], 0);
        loads(&place, &["load", "box.img", "/dev/null", line], 0);
    }
    loads(&place, &["load", "box.img", "/dev/null"], 0);
    assert!(place.image() == before);
    // A line without a feed is a line; behind it is none.
    place.file("monday", b"04A1B2C3;H;1\n04A1B2C4;H;1");
    stops(&place, &["load", "box.img", "monday", "2"], 21, 2, NONE_BEFORE);
    loads(&place, &["load", "box.img", "monday", "3"], 0);
    assert!(place.image() == before);
}

/// A file of any length: what is behind the lines that fit does not matter, and what is before LINE is passed over.
#[test]
fn long_files() {
    let place = Place::new(&empty(256));
    let mut text = cards(100_000);
    text.extend([b'x'; 3_000_000]);
    text.extend(b"\n80E91F04;H;77\n0000000000;D;1");
    place.file("monday", &text);
    stops(&place, &["load", "box.img", "monday"], 15, 129, "128 lines were loaded before it and stay");
    place.run(0, &["remove", "box.img", "0404000000000000"]);
    stops(&place, &["load", "box.img", "monday", "99999"], 15, 100_000, "1 line was loaded before it and stays");
    place.run(0, &["remove", "box.img", "0404000001000000"]);
    stops(&place, &["load", "box.img", "monday", "100001"], 20, 100_001, NONE_BEFORE);
    stops(&place, &["load", "box.img", "monday", "100002"], 21, 100_003, "1 line was loaded before it and stays");
    assert_eq!(place.map()[&name("0480E91F04000000")], cents(77));
    stops(&place, &["load", "box.img", "monday", "100003"], 21, 100_003, NONE_BEFORE);
    loads(&place, &["load", "box.img", "monday", "100004"], 0);
    // By standard input too, which is not read further than is needed.
    let place = Place::new(&empty(64));
    let out = place.tool(&["load", "box.img", "-", "100002"]).input(&text).run();
    assert_eq!((out.status, place.map().len()), (1, 1), "{}", out.err);
    let out = place.tool(&["load", "box.img", "-"]).input(&text).run();
    assert_eq!((out.status, place.map().len()), (1, 22), "{}", out.err);
}

/// Lines whose feed lies around every place up to which a file is read: none is taken for one without a feed.
#[test]
fn lines_around_the_part_that_is_read() {
    let place = Place::new(&empty(64));
    let before = place.image();
    let line = b"04A1B2C3;H;1\n";
    for end in [8_191, 8_192, 8_193, 16_383, 16_384, 16_385, 16_396, 16_397, 24_576, 65_536] {
        // One line that is too long, then a good one; its feed is byte `end`.
        let mut text = vec![b'x'; end - line.len()];
        text.push(b'\n');
        text.extend(line);
        place.file("monday", &text);
        stops(&place, &["load", "box.img", "monday"], 20, 1, NONE_BEFORE);
        loads(&place, &["load", "box.img", "monday", "2"], 1);
        place.scratch.file("box.img", &before);
        // The same card over and over: refused at once, and no next line is made up.
        let text: Vec<u8> = line.iter().copied().cycle().take(end / 13 * 13).collect();
        place.file("monday", &text);
        let all = text.len() < 16_384;
        let rest = if all { "; the cards of all lines from there on are in the box" } else { "" };
        stops(&place, &["load", "box.img", "monday"], 14, 2, &format!("1 line was loaded before it and stays{rest}"));
        place.scratch.file("box.img", &before);
    }
}

/// A failed read of FILE stores nothing, and neither the image nor its log is touched.
#[test]
fn files_that_cannot_be_read() {
    let mut after = small_box();
    add(&mut after, name(D), &pattern(9, 900), None);
    let image = pending(&small_box(), &after, 1);
    let place = Place::new(&image);
    for words in [&["load", "box.img", "missing"][..], &["load", "box.img", ".", "2"], &["load", "box.img", "box.img/x"]] {
        let out = place.run(3, words);
        assert!(out.err.trim_end().ends_with("; not in force") && !out.err.contains("recovered"), "{words:?}: {}", out.err);
        assert!(place.image() == image, "{words:?}: the image is another");
    }
    // FILE is told before IMAGE is looked for.
    let out = place.run(3, &["load", "nowhere.img", "missing"]);
    assert!(out.err.contains("missing") && !out.err.contains("nowhere"), "{}", out.err);
    // A file that is no text, and the box itself.
    let out = place.run(1, &["load", "box.img", "box.img"]);
    assert!(out.err.contains("refused 20: ") && out.err.contains(", line 1; "), "{}", out.err);
    assert_eq!(place.map(), map_of(&after), "the log was recovered first");
}

/// A pending log is recovered first, and said.
#[test]
fn behind_a_cut() {
    let mut after = small_box();
    add(&mut after, name(D), &pattern(9, 900), None);
    for done in 0..4 {
        let place = Place::new(&pending(&small_box(), &after, done));
        place.file("monday", &monday());
        let out = place.run(0, &["load", "box.img", "monday"]);
        assert_eq!((out.text().as_str(), out.err.as_str()), ("loaded 4 lines\n", "recovered an earlier change first: 5 stores\n"));
        let mut wanted = map_of(&after);
        wanted.extend(CARDS.iter().map(|card| (name(card.1), cents(card.2))));
        assert!(place.map() == wanted);
    }
}

/// Standard input by pipe and by file, and one that comes in small pieces.
#[test]
fn standard_input() {
    let place = Place::new(&empty(64));
    let out = place.tool(&["load", "box.img", "-"]).input(&monday()).run();
    assert_eq!((out.status, out.text().as_str()), (0, "loaded 4 lines\n"), "{}", out.err);
    place.file("monday", &cards(3));
    let out = place.tool(&["load", "box.img", "-", "2"]).stdin(File::open(place.scratch.at("monday")).unwrap()).run();
    assert_eq!((out.status, out.text().as_str()), (0, "loaded 2 lines\n"), "{}", out.err);
    let (reader, mut writer) = std::io::pipe().unwrap();
    let running = place.tool(&["load", "box.img", "-"]).stdin(File::from(std::os::fd::OwnedFd::from(reader))).spawn();
    for byte in b"80E91F05;H;5\n" {
        writer.write_all(&[*byte]).unwrap();
        std::thread::sleep(std::time::Duration::from_millis(2));
    }
    drop(writer);
    let out = running.wait();
    assert_eq!((out.status, out.text().as_str()), (0, "loaded 1 line\n"), "{}", out.err);
    assert_eq!(place.map().len(), 7);
}

/// The sample that ships with the sources.
#[test]
fn the_sample() {
    let place = Place::new(&empty(64));
    let sample = std::path::Path::new(env!("CARGO_MANIFEST_DIR")).join("../../samples/monday.txt");
    loads(&place, &["load", "box.img", &path(&sample)], 12);
    assert_eq!(place.map()[&name("049C3E5A07000000")], cents(5000));
}
