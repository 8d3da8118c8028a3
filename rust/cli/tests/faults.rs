//! Each system call of each command fails, is interrupted or does less than it was asked for, at each place. What the tool then says is held
//! against the box.

mod common;

use common::*;
use std::collections::BTreeMap;
use std::fs::File;
use std::path::Path;

/// What a disturbance asks of the tool.
#[derive(Clone, Copy, PartialEq, Debug)]
enum Want {
    /// Gone on with: as if nothing had been.
    Done,
    /// Status 3.
    Told,
    /// Either.
    Any,
}

#[derive(Default)]
struct Tally {
    faults: BTreeMap<String, usize>,
    done: usize,
    told: usize,
    not_in_force: usize,
    in_force: usize,
    unknown: usize,
}

impl Tally {
    fn tell(&self, what: &str) {
        let all: usize = self.faults.values().sum();
        let each: Vec<String> = self.faults.iter().map(|(f, n)| format!("{f} {n}")).collect();
        eprintln!("{what}: {all} faults ({}); gone on with {}, told {}", each.join(", "), self.done, self.told);
        eprintln!("  of a change: not in force {}, in force {}, recover tells {}", self.not_in_force, self.in_force, self.unknown);
        assert!(all > 0);
    }
}

fn fail(e: i32) -> String {
    format!("fail:{e}")
}

/// What is tried on a call.
fn disturbances(c: &Call, list_or_clear: bool) -> Vec<(String, Want)> {
    use Want::*;
    let interrupted = (fail(EINTR), Done);
    match c.function.as_str() {
        "open" => vec![(fail(EACCES), Told), (fail(EMFILE), Told), (fail(EROFS), Told), interrupted],
        "read" | "pread" => {
            let mut list = vec![(fail(EIO), Told), (fail(EBADF), Told), interrupted];
            list.extend([1, 300].into_iter().filter(|&k| c.answer > k).map(|k| (format!("short:{k}"), Done)));
            list
        }
        "write" | "pwrite" if c.class != '2' => {
            let mut list = vec![(fail(ENOSPC), Told), (format!("dead:{EIO}"), Told), ("zero".into(), Told), interrupted];
            list.extend([1, 300].into_iter().filter(|&k| c.answer > k).map(|k| (format!("short:{k}"), Done)));
            if c.class == 'i' && !list_or_clear {
                list.push((format!("torn:100:{EIO}"), Told));
            }
            list
        }
        "fdatasync" | "fsync" => vec![(fail(EIO), Told), (format!("lost:{EIO}"), Told), (format!("dead:{ENOSPC}"), Told), interrupted],
        "flock" => vec![(fail(EAGAIN), Told), (fail(ENOLCK), Told), interrupted],
        "ftruncate" => vec![(fail(ENOSPC), Told), interrupted],
        "mkdir" | "opendir" | "rename" | "link" => vec![(fail(EACCES), Told)],
        "readdir" => vec![(fail(EIO), Told)],
        "stat" | "lseek" | "unlink" | "close" | "rmdir" => vec![(fail(EIO), Any)],
        _ => Vec::new(),
    }
}

/// The disturbance was met where it was meant to be.
fn assert_hit(trace: &[Call], c: &Call, action: &str, what: &str) {
    let hit = trace.iter().find(|t| t.number == c.number).unwrap_or_else(|| panic!("{what}: no such call"));
    let number = |i: usize| action.split(':').nth(i).map_or(0, |n| n.parse::<i64>().unwrap());
    let met = match action.split(':').next().unwrap() {
        "short" | "torn" => hit.answer == number(1),
        "zero" => hit.answer == 0,
        _ => hit.answer == -1 && hit.errno as i64 == number(1),
    };
    // The end of a folder is not told from a failure by its answer.
    assert!(hit.function == c.function && (met || c.function == "readdir"), "{what}: the disturbance was not met: {hit:?}");
}

/// No store follows a store or a flush that failed.
fn assert_stops(trace: &[Call], what: &str) {
    let bad = |c: &Call| (c.is_store() || c.is_flush()) && c.answer <= 0 && c.errno != EINTR && !(c.is_flush() && c.answer == 0);
    if let Some(i) = trace.iter().position(bad) {
        let later = trace[i + 1..].iter().find(|c| c.is_store() && c.answer > 0);
        assert!(later.is_none(), "{what}: {later:?} behind a failed {:?}", trace[i]);
    }
}

/// Of a load: how many lines were loaded before, and where to go on so that no line is left out or tried twice.
fn assert_place(err: &str, at: usize, maybe: bool, found: &Map, parts: &[Map], what: &str) {
    let Some((_, rest)) = err.split_once("go on at line ") else { return };
    let before = match at {
        0 => "no line was loaded before it;".to_string(),
        1 => "1 line was loaded before it and stays;".to_string(),
        n => format!("{n} lines were loaded before it and stay;"),
    };
    assert!(err.contains(&before), "{what}: {at} lines before: {err}");
    let go_on: usize = rest.split(|c: char| !c.is_ascii_digit()).next().unwrap().parse().unwrap();
    assert_eq!(maybe, err.contains(&format!("or at line {} if {go_on} is refused with 14", go_on + 1)), "{what}: {err}");
    assert!(if maybe { go_on == at + 1 } else { *found == parts[go_on - 1] }, "{what}: go on at {go_on}: {err}");
}

/// What the tool says of the change is so.
fn assert_true(stage: &Stage, out: &Out, what: &str, at_list: bool, tally: &mut Tally) {
    let case = &stage.case;
    let image = stage.bytes();
    let words = out.err.to_lowercase();
    let map = committed(&image);
    if !case.each.is_empty() {
        // The purse that is named is in force or not, those before it are, those behind it are not.
        let found = seen(case, map.clone().expect("a sound image"));
        let parts = case.parts();
        let tells = |(i, n): (usize, &Name)| {
            out.err.contains(&format!("purse {}, ", hex(n))) || out.err.contains(&format!("purse: line {}: ", i + 1))
        };
        let named = case.each.iter().enumerate().position(tells);
        let at = named.unwrap_or(if words.contains("not in force") { 0 } else { parts.len() - 2 });
        let (not, maybe) = (words.contains("not in force"), words.contains("may be in force"));
        assert!(maybe || not || words.contains("in force"), "{what}: nothing said of the change: {:?}", out.err);
        assert!(
            (maybe || not) && found == parts[at] || (maybe || !not) && found == parts[at + 1],
            "{what}: said {:?}\n{}",
            out.err,
            show(&found)
        );
        assert_place(&out.err, at, maybe, &found, &parts, what);
        *if not {
            &mut tally.not_in_force
        } else if maybe {
            &mut tally.unknown
        } else {
            &mut tally.in_force
        } += 1;
    } else if words.contains("not in force") {
        assert_map(map.clone().map(|m| seen(case, m)), &case.before, &format!("{what}: said {:?}", out.err));
        tally.not_in_force += 1;
    } else if words.contains("in force") && !words.contains("may be in force") {
        assert_map(map.clone(), &case.after, &format!("{what}: said {:?}", out.err));
        let pending = matches!(look(&image), Seen::Recover(_));
        assert!(!pending || words.contains("recover"), "{what}: a log is pending, but it said {:?}", out.err);
        tally.in_force += 1;
    } else {
        assert!(words.contains("recover"), "{what}: nothing said of the change: {:?}", out.err);
        // Where block 0 as it was read could not be stored, the tool cannot know whether the disk has the list that it read.
        assert!(at_list || words.contains("before store 1 of"), "{what}: it can be known, but it said {:?}", out.err);
        let found = seen(case, map.clone().expect("a sound image"));
        assert!(found == case.before || found == case.after, "{what}: neither before nor after");
        tally.unknown += 1;
    }
    assert!(stage.recovered(what) == map.unwrap(), "{what}: recover made another map");
}

/// `step`: one disturbance of so many is tried.
fn fault_everywhere(case: Case, step: usize, tally: &mut Tally) {
    let stage = Stage::new(case);
    let (whole, trace) = stage.whole();
    let done = stage.bytes();
    let list = stores(&trace);
    let lists = list_stores(&list);
    let block0 = |n: usize| list.iter().any(|s| s.0 == n && s.1 == 0);
    let list_call = lists.last().map_or(0, |&i| list[i].0);
    let mut turn = 0;
    for c in &trace {
        for (action, want) in disturbances(c, block0(c.number)) {
            turn += 1;
            if turn % step != 0 {
                continue;
            }
            let (out, after) = stage.disturbed(c.number, &action);
            let what = format!("{}: {action} at call {} ({} {} block {})", stage.case.what, c.number, c.function, c.class, c.offset / 512);
            *tally.faults.entry(c.function.clone()).or_default() += 1;
            assert_hit(&after, c, &action, &what);
            assert_stops(&after, &what);
            match (out.status, want) {
                (0, Want::Done | Want::Any) => {
                    assert!(stage.bytes() == done, "{what}: done, but the image is another");
                    assert_eq!(out.out, whole.out, "{what}: standard output");
                    tally.done += 1;
                }
                (3, Want::Told | Want::Any) => {
                    assert!(!out.err.is_empty(), "{what}: nothing said");
                    let before_list = trace.iter().filter(|t| t.is_store() && t.number < c.number).count();
                    let at_list = c.number == list_call || (c.is_flush() && before_list > 0 && list[before_list - 1].0 == list_call);
                    assert_true(&stage, &out, &what, at_list, tally);
                    if matches!(c.function.as_str(), "read" | "pread" | "open" | "opendir" | "readdir")
                        && matches!(look(&stage.case.image), Seen::Sound { .. })
                    {
                        assert!(after.iter().all(|c| !c.is_store()) || stage.case.long, "{what}: a failed {} and yet a store", c.function);
                    }
                    tally.told += 1;
                }
                _ => panic!("{what}: status {} for {want:?}: {}{}", out.status, out.text(), out.err),
            }
        }
    }
}

#[test]
fn changes_of_one_transaction() {
    let mut tally = Tally::default();
    for case in short_cases() {
        fault_everywhere(case, 1, &mut tally);
    }
    tally.tell("commands of one transaction");
}

#[test]
fn long_changes() {
    let mut tally = Tally::default();
    fault_everywhere(full_case(), 3, &mut tally);
    fault_everywhere(restore_case(), 3, &mut tally);
    fault_everywhere(load_case(), 1, &mut tally);
    for case in long_cases() {
        fault_everywhere(case, 5, &mut tally);
    }
    tally.tell("puts of 30 blocks and more, restore, a load of four lines");
}

/// Every call is interrupted, and every read and write does a little only: the command does what it does undisturbed.
#[test]
fn stutter() {
    let (mut runs, mut calls) = (0, 0);
    let mut cases = short_cases();
    cases.extend(long_cases());
    cases.push(full_case());
    cases.push(restore_case());
    cases.push(load_case());
    for case in cases {
        let stage = Stage::new(case);
        let (whole, trace) = stage.whole();
        let done = stage.bytes();
        for k in [100, 511] {
            let (out, after) = stage.disturbed(0, &format!("stutter:{k}"));
            let what = format!("{} with {k} bytes at a time", stage.case.what);
            assert!(out.status == 0 && out.out == whole.out, "{what}: {} {}", out.status, out.err);
            assert!(stage.bytes() == done, "{what}: another image");
            assert!(after.len() > 2 * trace.len(), "{what}: {} calls, undisturbed {}", after.len(), trace.len());
            runs += 1;
            calls += after.iter().filter(|c| c.errno == EINTR).count();
        }
    }
    eprintln!("{runs} runs with {calls} interrupted calls");
}

/// All files below a folder.
fn files_in(folder: &Path) -> BTreeMap<String, Vec<u8>> {
    let list = std::fs::read_dir(folder).map(|d| d.map(|e| e.unwrap().path()).collect::<Vec<_>>()).unwrap_or_default();
    list.into_iter().map(|p| (path(p.file_name().unwrap().as_ref()), std::fs::read(p).unwrap_or_default())).collect()
}

/// A command that stores nothing: the image stays, whatever fails.
fn fault_reader(words: &[&str], image: &[u8], status: i32, tally: &mut Tally) {
    let case = Case::new("a reader", small_box(), words, |_| ());
    let stage = Stage::new(Case { image: image.to_vec(), ..case });
    let made = stage.scratch.at("out");
    let (whole, trace) = stage.disturbed(0, "");
    assert_eq!(whole.status, status, "{words:?}: {}", whole.err);
    assert!(trace.iter().all(|c| !c.is_store()), "{words:?} stores");
    let locked = trace.iter().position(|c| c.function == "flock" && c.class == 'i' && c.length & 1 == 1 && c.answer == 0);
    let read = trace.iter().position(|c| c.class == 'i' && matches!(c.function.as_str(), "read" | "pread"));
    assert!(locked.is_some() && locked < read, "{words:?} reads before it locks");
    let files = files_in(&made);
    let plain = std::fs::read(&made).ok();
    for c in &trace {
        for (action, want) in disturbances(c, false) {
            if made.is_dir() {
                std::fs::remove_dir_all(&made).unwrap();
            } else if made.exists() {
                std::fs::remove_file(&made).unwrap();
            }
            let (out, after) = stage.disturbed(c.number, &action);
            let what = format!("{words:?}: {action} at call {} ({} {})", c.number, c.function, c.class);
            *tally.faults.entry(c.function.clone()).or_default() += 1;
            assert_hit(&after, c, &action, &what);
            assert!(stage.bytes() == image, "{what}: the image is another");
            assert!(after.iter().all(|c| !c.is_store()), "{what}: it stores");
            match (out.status, want) {
                (s, Want::Done | Want::Any) if s == status => {
                    assert_eq!(out.out, whole.out, "{what}: standard output");
                    assert!(files_in(&made) == files && std::fs::read(&made).ok() == plain, "{what}: done, but other files");
                    tally.done += 1;
                }
                (3, Want::Told | Want::Any) => {
                    assert!(!out.err.is_empty(), "{what}: nothing said");
                    let parts = files_in(&made).into_iter().find(|f| files.get(&f.0) != Some(&f.1));
                    assert!(parts.is_none(), "{what}: half a file is left: {}", parts.unwrap().0);
                    assert!(made.is_dir() || !made.exists() || std::fs::read(&made).ok() == plain, "{what}: half a file is left");
                    tally.told += 1;
                }
                _ => panic!("{what}: status {} for {want:?}: {}{}", out.status, out.text(), out.err),
            }
        }
    }
}

#[test]
fn readers() {
    let mut tally = Tally::default();
    let wide = wide_box(128);
    for words in [
        &["list", "box.img"][..],
        &["list", "--json", "box.img"],
        &["check", "box.img"],
        &["map", "box.img"],
        &["map", "--svg", "out", "box.img"],
        &["get", "box.img", D],
        &["dump", "box.img", "out"],
        &["salvage", "box.img", "out"],
    ] {
        fault_reader(words, &wide, 0, &mut tally);
    }
    tally.tell("readers");
}

/// A conversion with a disturbance. The file `monday` is standard input too.
fn convert(scratch: &Scratch, words: &[&str], at: usize, what: &str) -> (Out, Vec<Call>) {
    let shim = Shim { at, what: what.to_string(), ..Shim::default() };
    let input = File::open(scratch.at("monday")).unwrap();
    tool(words).folder(&scratch.path).stdin(input).shim(&scratch.at("no.img"), &shim).traced()
}

/// A conversion: all of the output is there, or it is told. A read that fails writes nothing.
fn fault_convert(words: &[&str], text: &[u8], status: i32, tally: &mut Tally) {
    let scratch = Scratch::new("convert");
    scratch.file("monday", text);
    let run = |at: usize, what: &str| convert(&scratch, words, at, what);
    let (whole, trace) = run(0, "");
    assert_eq!((whole.status, whole.out.is_empty()), (status, status != 0), "{words:?}: {}", whole.err);
    for c in &trace {
        let mut list = disturbances(c, false);
        let writes = c.function == "write" && c.class == '1';
        if writes {
            list.push((format!("torn:100:{ENOSPC}"), Want::Told));
        }
        for (action, want) in list {
            let (out, after) = run(c.number, &action);
            let what = format!("{words:?}: {action} at call {} ({} {})", c.number, c.function, c.class);
            *tally.faults.entry(c.function.clone()).or_default() += 1;
            assert_hit(&after, c, &action, &what);
            match (out.status, want) {
                (s, Want::Done | Want::Any) if s == status => {
                    assert!(out.out == whole.out && out.err == whole.err, "{what}: done, but another output: {}", out.err);
                    tally.done += 1;
                }
                (3, Want::Told | Want::Any) => {
                    assert!(!out.err.is_empty() && !out.err.contains("in force"), "{what}: said {:?}", out.err);
                    assert_eq!(writes, out.err.contains("the output is not whole"), "{what}: said {:?}", out.err);
                    assert!(if writes { whole.out.starts_with(&out.out) } else { out.out.is_empty() }, "{what}: another output");
                    tally.told += 1;
                }
                _ => panic!("{what}: status {} for {want:?}: {}", out.status, out.err),
            }
        }
    }
    for k in [100, 511] {
        let (out, after) = run(0, &format!("stutter:{k}"));
        assert!(out.status == status && out.out == whole.out, "{words:?} with {k} bytes at a time: {} {}", out.status, out.err);
        assert!(after.len() > 2 * trace.len(), "{words:?} with {k} bytes at a time: {} calls", after.len());
    }
}

#[test]
fn conversions() {
    let mut tally = Tally::default();
    let h: String = (0..1500).map(|i| format!("{:08X};H;{i}\n", i * 2_654_435_761u32)).collect();
    let d: String = (0..1500).map(|i| format!("{:010};D;{i}\n", (i * 2_654_435_761u32).swap_bytes())).collect();
    fault_convert(&["convert", "D", "monday"], h.as_bytes(), 0, &mut tally);
    fault_convert(&["convert", "H", "-"], d.as_bytes(), 0, &mut tally);
    fault_convert(&["convert", "D", "monday"], format!("{h}x\n").as_bytes(), 1, &mut tally);
    fault_convert(&["convert", "H", "monday"], format!("{d}{h}").as_bytes(), 1, &mut tally);
    fault_convert(&["convert", "H", "-"], &[b'0'; 1_048_577], 2, &mut tally);
    tally.tell("conversions");
}

/// A format that fails is removed; one that is told done is whole.
#[test]
fn format() {
    let mut tally = Tally::default();
    let scratch = Scratch::new("format");
    let image = scratch.at("box.img");
    let run = |at: usize, what: &str| {
        let _ = std::fs::remove_file(&image);
        let shim = Shim { at, what: what.to_string(), end: true, ..Shim::default() };
        tool(&["format", "box.img", "96"]).folder(&scratch.path).shim(&image, &shim).traced()
    };
    let (whole, trace) = run(0, "");
    assert_eq!(whole.status, 0, "{}", whole.err);
    assert!(std::fs::read(&image).unwrap() == empty(96), "format: another image, or an unflushed one");
    for c in &trace {
        for (action, want) in disturbances(c, true) {
            let (out, after) = run(c.number, &action);
            let what = format!("format: {action} at call {} ({} {})", c.number, c.function, c.class);
            assert_hit(&after, c, &action, &what);
            *tally.faults.entry(c.function.clone()).or_default() += 1;
            match (out.status, want) {
                (0, Want::Done | Want::Any) => {
                    assert!(std::fs::read(&image).unwrap() == empty(96), "{what}: done, but another image");
                    tally.done += 1;
                }
                // Another program has the new file locked, or it is not known whether one has made a box of it: it stays.
                (3, _) if action == fail(EAGAIN) || (c.function == "stat" && c.class == 'i') => {
                    assert!(!out.err.is_empty() && std::fs::read(&image).unwrap().is_empty(), "{what}: {}", out.err);
                    tally.told += 1;
                }
                (3, Want::Told | Want::Any) => {
                    assert!(!image.exists(), "{what}: a failed format leaves its file");
                    tally.told += 1;
                }
                _ => panic!("{what}: status {} for {want:?}: {}{}", out.status, out.text(), out.err),
            }
        }
    }
    tally.tell("format");
}
