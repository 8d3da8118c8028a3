//! Conversions from end to end: lines of every form both ways, each refusal with its line, FILE and standard output of every kind.

mod common;

use common::*;
use std::fs::{self, File};
use std::io::{Read, Write};
use std::os::fd::OwnedFd;

const H: &str = "04A1B2C3;H;1250\n04A1B2C3D4E5F6;H;0\n";
const D: &str = "3283263748;D;1250\n69495546249912580;D;0\n";

/// Converts a text, and asks for this output and nothing else.
fn gives(place: &Place, letter: &str, text: &[u8], wanted: &[u8]) {
    place.file("monday", text);
    let out = place.run(0, &["convert", letter, "monday"]);
    assert!(out.out == wanted && out.err.is_empty(), "{} to {letter}: {}{}", text.escape_ascii(), out.text(), out.err);
}

/// Status 1 with number, sentence and line, and nothing on standard output.
fn refused(place: &Place, letter: &str, text: &[u8], number: u32, line: usize) {
    let sentence = match number {
        20 => "the line is longer than 64 bytes",
        21 => "the line is not serial;letter;amount, or has no line feed",
        _ => "the line is already in the wanted spelling",
    };
    place.file("monday", text);
    let out = place.run(1, &["convert", letter, "monday"]);
    assert!(out.out.is_empty(), "{} to {letter}: {}", text.escape_ascii(), out.text());
    assert_eq!(out.err, format!("refused {number}: {sentence}, line {line}\n"), "{} to {letter}", text.escape_ascii());
}

/// A text that is too long for the program.
fn too_long(out: &Out, what: &str) {
    assert!(out.status == 2 && out.out.is_empty(), "{what}: {}: {}", out.status, out.err);
    let lines: Vec<&str> = out.err.lines().collect();
    assert!(lines[0].ends_with(" is longer than 1048576 bytes") && lines[1] == "usage: purse convert H|D FILE", "{what}: {}", out.err);
}

#[test]
fn worked_examples() {
    let place = Place::new(b"");
    gives(&place, "D", H.as_bytes(), D.as_bytes());
    gives(&place, "H", D.as_bytes(), H.as_bytes());
    gives(&place, "D", b"", b"");
    gives(&place, "H", b"", b"");
    refused(&place, "H", H.as_bytes(), 24, 1);
    refused(&place, "H", format!("3283263748;D;1\n{H}x\n").as_bytes(), 24, 2);
    refused(&place, "D", H.trim_end().as_bytes(), 21, 2);
    refused(&place, "D", format!("{H}zz\n").as_bytes(), 21, 3);
    refused(&place, "D", b"04A1B2C3D4E5F6A7B8C9;H;1\n", 21, 1);
    refused(&place, "H", b"04A1B2C3D4E5F6A7B8C9;H;1\n", 21, 1);
}

/// Each line alone, all in one file, and the whole file twice over: a card that stands twice is converted twice.
#[test]
fn every_form_both_ways() {
    let place = Place::new(b"");
    let (mut all_h, mut all_d) = (String::new(), String::new());
    for (h, d) in SPELLINGS {
        let (h, d) = (format!("{h}\n"), format!("{d}\n"));
        gives(&place, "D", h.as_bytes(), d.as_bytes());
        gives(&place, "H", d.as_bytes(), h.as_bytes());
        refused(&place, "H", h.as_bytes(), 24, 1);
        refused(&place, "D", d.as_bytes(), 24, 1);
        refused(&place, "D", h.trim_end().as_bytes(), 21, 1);
        refused(&place, "H", h.trim_end().as_bytes(), 21, 1);
        all_h += &h;
        all_d += &d;
    }
    gives(&place, "D", all_h.repeat(2).as_bytes(), all_d.repeat(2).as_bytes());
    gives(&place, "H", all_d.repeat(2).as_bytes(), all_h.repeat(2).as_bytes());
}

/// Lines that are not of the form, alone and behind others, whichever spelling is wanted.
#[test]
fn lines_not_of_the_form() {
    let place = Place::new(b"");
    for bad in BAD_LINES {
        for (letter, before) in [("D", H), ("H", D)] {
            refused(&place, letter, &[bad, b"\n"].concat(), 21, 1);
            refused(&place, letter, &[before.as_bytes(), bad, b"\n", before.as_bytes()].concat(), 21, 3);
        }
    }
    for letter in ["H", "D"] {
        for (number, n) in [(21, 64), (20, 65), (20, 1_048_575)] {
            refused(&place, letter, &vec![b'0'; n], number, 1);
            refused(&place, letter, &[vec![b'0'; n], b"\n".to_vec()].concat(), number, 1);
        }
    }
}

/// The lowest line decides, whatever it is refused with; within a line 20, 21, 24.
#[test]
fn which_line_is_named() {
    let place = Place::new(b"");
    let long = "0".repeat(65) + "\n";
    for (letter, good, done) in [("D", H, D), ("H", D, H)] {
        for (lines, number) in [
            ([done, "x\n", &long], 24),
            ([done, &long, "x\n"], 24),
            (["x\n", done, &long], 21),
            (["x\n", &long, done], 21),
            ([&long, done, "x\n"], 20),
            ([&long, "x\n", done], 20),
            ([&format!("x;{letter};1\n"), done, ""], 21),
            ([&format!("{};{letter};1\n", long.trim_end()), done, ""], 20),
            ([done.trim_end(), "", ""], 24),
            ([done.split_once('\n').unwrap().0, "", ""], 21),
        ] {
            refused(&place, letter, [good, &lines.concat()].concat().as_bytes(), number, 3);
        }
    }
}

/// Lines that grow most, 1,048,576 bytes of them; a byte more; and files without an end.
#[test]
fn the_longest_file() {
    let place = Place::new(b"");
    let (line, spelt) = ("FFFFFFFFFFFFFF;H;0\n", "72057594037927935;D;0\n");
    let text = |last: &str| line.repeat(55_187) + "01000000000000;H;" + last;
    let whole = text("12345\n");
    assert_eq!(whole.len(), 1_048_576);
    let wanted = spelt.repeat(55_187) + "00000000000000001;D;12345\n";
    gives(&place, "D", whole.as_bytes(), wanted.as_bytes());
    let out = place.tool(&["convert", "D", "-"]).input(whole.as_bytes()).run();
    assert!(out.status == 0 && out.out == wanted.as_bytes(), "{}", out.err);
    refused(&place, "H", whole.as_bytes(), 24, 1);
    refused(&place, "D", text("0x345\n").as_bytes(), 21, 55_188);
    refused(&place, "D", text("123456").as_bytes(), 21, 55_188);
    refused(&place, "D", &[b'\n'; 1_048_576], 21, 1);
    let longer = text("123456\n");
    for text in [longer.as_bytes(), wanted.as_bytes(), &[b'\n'; 1_048_577]] {
        place.file("monday", text);
        too_long(&place.run(2, &["convert", "D", "monday"]), "a file");
        too_long(&place.tool(&["convert", "H", "-"]).input(text).run(), "standard input");
    }
    too_long(&place.run(2, &["convert", "D", "/dev/zero"]), "/dev/zero");
    // Standard output is not needed for that.
    let full = File::options().write(true).open("/dev/full").unwrap();
    too_long(&place.tool(&["convert", "D", "/dev/zero"]).stdout(full).run(), "/dev/zero");
}

/// A pipe by its name, standard input by pipe and by file, and one that comes byte by byte.
#[test]
fn files_and_pipes() {
    let place = Place::new(b"");
    let done = |out: Out| assert_eq!((out.status, out.text().as_str(), out.err.as_str()), (0, D, ""));
    done(place.tool(&["convert", "D", "-"]).input(H.as_bytes()).run());
    place.file("monday", H.as_bytes());
    done(place.tool(&["convert", "D", "-"]).stdin(File::open(place.scratch.at("monday")).unwrap()).run());
    place.file("-x", H.as_bytes());
    done(place.tool(&["convert", "--", "D", "-x"]).run());
    make_fifo(&place.scratch.at("fifo"));
    let running = place.tool(&["convert", "D", "fifo"]).spawn();
    fs::write(place.scratch.at("fifo"), H).unwrap();
    done(running.wait());
    let (reader, mut writer) = std::io::pipe().unwrap();
    let running = place.tool(&["convert", "D", "-"]).stdin(File::from(OwnedFd::from(reader))).spawn();
    for byte in H.as_bytes() {
        writer.write_all(&[*byte]).unwrap();
        std::thread::sleep(std::time::Duration::from_millis(1));
    }
    drop(writer);
    done(running.wait());
}

/// A FILE that cannot be read converts nothing.
#[test]
fn files_that_cannot_be_read() {
    let place = Place::new(b"");
    fs::create_dir(place.scratch.at("folder")).unwrap();
    std::os::unix::fs::symlink("loop", place.scratch.at("loop")).unwrap();
    for file in ["missing", "missing/monday", "folder", ".", "loop", ""] {
        let out = place.run(3, &["convert", "D", file]);
        assert!(out.out.is_empty() && out.err.starts_with(&format!("purse: {file}: ")), "{file}: {}", out.err);
        assert!(!out.err.contains("force") && !out.err.contains("whole"), "{file}: {}", out.err);
    }
    assert!(!place.scratch.at("missing").exists());
    for input in [File::open(place.scratch.at("folder")), File::create(place.scratch.at("written"))] {
        let out = place.tool(&["convert", "D", "-"]).stdin(input.unwrap()).run();
        assert!(out.status == 3 && out.out.is_empty() && !out.err.is_empty(), "{}: {}", out.status, out.err);
    }
}

/// An output that cannot be written is told; an empty one needs no room.
#[test]
fn standard_output_that_is_full_or_closed() {
    let place = Place::new(b"");
    let full = || File::options().write(true).open("/dev/full").unwrap();
    let told = |out: Out| assert!(out.status == 3 && out.err.contains("; the output is not whole\n"), "{}: {}", out.status, out.err);
    place.file("monday", H.as_bytes());
    told(place.tool(&["convert", "D", "monday"]).stdout(full()).run());
    let (reader, writer) = std::io::pipe().unwrap();
    drop(reader);
    told(place.tool(&["convert", "D", "monday"]).stdout(File::from(OwnedFd::from(writer))).run());
    // A reader that goes away in the middle: what it got is the beginning.
    let (h, d) = (H.repeat(10_000), D.repeat(10_000));
    place.file("monday", h.as_bytes());
    let (mut reader, writer) = std::io::pipe().unwrap();
    let running = place.tool(&["convert", "D", "monday"]).stdout(File::from(OwnedFd::from(writer))).spawn();
    let mut part = vec![0; 10_000];
    reader.read_exact(&mut part).unwrap();
    drop(reader);
    told(running.wait());
    assert!(part == d.as_bytes()[..10_000]);
    // A refusal, and an empty output, write nothing.
    place.file("monday", b"x\n");
    let out = place.tool(&["convert", "D", "monday"]).stdout(full()).run();
    assert!(out.status == 1 && out.err.starts_with("refused 21: "), "{}: {}", out.status, out.err);
    place.file("monday", b"");
    assert_eq!(place.tool(&["convert", "D", "monday"]).stdout(full()).run().status, 0);
}

/// The sample that ships with the sources has both spellings; all in one letter, it goes there and back.
#[test]
fn the_sample() {
    let place = Place::new(b"");
    let sample = fs::read(std::path::Path::new(env!("CARGO_MANIFEST_DIR")).join("../../samples/monday.txt")).unwrap();
    refused(&place, "D", &sample, 24, 2);
    refused(&place, "H", &sample, 24, 1);
    let sample = String::from_utf8(sample).unwrap();
    // Each line by itself, into the letter that it does not have.
    let all = |letter: &str| -> String {
        let respelt = |line: &str| match line.contains(&format!(";{letter};")) {
            true => line.to_string(),
            false => place.tool(&["convert", letter, "-"]).input(line.as_bytes()).run().text(),
        };
        sample.split_inclusive('\n').map(respelt).collect()
    };
    let (h, d) = (all("H"), all("D"));
    assert!(h.matches(";H;").count() == 12 && d.matches(";D;").count() == 12 && h.lines().count() == 12 && d.lines().count() == 12);
    assert!(h.contains("9C3E5A07;H;5000\n") && d.contains("3283263748;D;1250\n"));
    gives(&place, "D", h.as_bytes(), d.as_bytes());
    gives(&place, "H", d.as_bytes(), h.as_bytes());
    // Both load into the same box.
    for text in [&h, &d] {
        place.file("box.img", &empty(64));
        place.file("monday", text.as_bytes());
        place.run(0, &["load", "box.img", "monday"]);
        assert_eq!(place.map()[&name("049C3E5A07000000")], cents(5000));
        assert_eq!(place.map()[&name("0404A1B2C3000000")], cents(1250));
    }
}

/// No image, no lock, no file made, and nothing written before all is read.
#[test]
fn what_the_system_is_asked() {
    let place = Place::new(b"");
    place.file("monday", H.repeat(2_000).as_bytes());
    let shim = Shim::default();
    let (out, trace) = place.tool(&["convert", "D", "monday"]).shim(&place.scratch.at("monday"), &shim).traced();
    assert!(out.status == 0 && out.out == D.repeat(2_000).as_bytes(), "{}", out.err);
    assert!(trace.iter().all(|c| !c.is_store() && !c.is_flush() && !["flock", "unlink", "rename", "mkdir"].contains(&c.function.as_str())));
    assert!(trace.iter().all(|c| c.function != "open" || c.offset == 0), "a file is opened for writing");
    let read = trace.iter().rposition(|c| c.class == 'i' && c.function == "read").unwrap();
    let write = trace.iter().position(|c| c.class == '1' && c.function == "write").unwrap();
    assert!(read < write && trace[read].answer == 0, "written before the end was read");
    // A text that is refused is not written at all.
    place.file("monday", format!("{}x\n", H.repeat(2_000)).as_bytes());
    let (out, trace) = place.tool(&["convert", "D", "monday"]).shim(&place.scratch.at("monday"), &shim).traced();
    assert_eq!(out.status, 1);
    assert!(trace.iter().all(|c| c.class != '1' || c.function != "write"));
}
