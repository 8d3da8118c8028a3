//! The plug is pulled behind every store of every changing command: with the write kept and with the unflushed write lost, in the command, in
//! the recovery behind it, and in the next change.

mod common;

use common::*;
use std::collections::HashSet;

#[derive(Default)]
struct Tally {
    cuts: usize,
    second: usize,
    ends: usize,
    turns: usize,
}

impl Tally {
    /// Every second time.
    fn turn(&mut self) -> bool {
        self.turns += 1;
        self.turns % 2 == 1
    }

    fn tell(&self, what: &str) {
        eprintln!("{what}: {} cuts, {} second cuts behind a cut, {} cuts at the end", self.cuts, self.second, self.ends);
        assert!(self.cuts > 0 && self.ends > 0);
    }
}

const MODES: [&str; 2] = ["cut-kept", "cut-lost"];

/// Whether the change is in force when the plug is pulled behind store i.
fn in_force(lists: &[usize], i: usize, mode: &str) -> bool {
    let list = *lists.last().expect("a list is stored");
    i > list || (i == list && mode == "cut-kept")
}

/// Cuts the words on the image `from` behind each store, and hands on what each cut leaves: place, whether it is in force, image.
fn cut_each(stage: &Stage, from: &[u8], words: &[&str], step: usize, mut look_at: impl FnMut(&str, bool, Vec<u8>)) -> usize {
    stage.set(from);
    let plain = Shim::default();
    let (out, trace) = stage.tool(words).shim(&stage.image, &plain).traced();
    assert_eq!(out.status, 0, "{words:?}: {}", out.err);
    assert_orderly(&trace, stage.case.what);
    let list = stores(&trace);
    let lists = list_stores(&list);
    let mut cuts = 0;
    for (i, &(number, block)) in list.iter().enumerate().step_by(step) {
        for mode in MODES {
            stage.set(from);
            let shim = Shim { at: number, what: mode.to_string(), ..Shim::default() };
            let out = stage.tool(words).shim(&stage.image, &shim).run();
            let what = format!("{}: {words:?} {mode} at store {} of {} (block {block})", stage.case.what, i + 1, list.len());
            assert_eq!(out.status, CUT, "{what}: {}", out.err);
            assert!(out.out.is_empty(), "{what}: said done: {}", out.text());
            cuts += 1;
            look_at(&what, !lists.is_empty() && in_force(&lists, i, mode), stage.bytes());
        }
    }
    cuts
}

/// The next change must go through, and take away what a cut put left.
fn next_change(stage: &Stage, left: &[u8], map: &Map, what: &str) {
    stage.set(left);
    let out = stage.tool(&["put", "box.img", NEXT, "next"]).run();
    assert_eq!(out.status, 0, "{what}: next put: {}", out.err);
    let mut wanted = without_second(map.clone());
    wanted.insert(name(NEXT), pattern(77, 700));
    assert!(matches!(look(&stage.bytes()), Seen::Sound { .. }), "{what}: behind the next put");
    assert_map(committed(&stage.bytes()), &wanted, &format!("{what}: behind the next put"));
}

/// The command's last word is said when all is on the device: what is unflushed at its end is lost.
fn end_cut(stage: &Stage, tally: &mut Tally) {
    stage.reset();
    let out = stage.command().shim(&stage.image, &Shim { end: true, ..Shim::default() }).run();
    assert_eq!(out.status, 0, "{}: {}", stage.case.what, out.err);
    assert!(matches!(look(&stage.bytes()), Seen::Sound { .. }), "{}: done, but not stored", stage.case.what);
    assert_map(committed(&stage.bytes()), &stage.case.after, &format!("{}: done, but not stored", stage.case.what));
    tally.ends += 1;
}

/// `pairs`: every so manieth state that a cut left is cut again, in a recovery and in the next change; 0: none.
fn cut_everywhere(case: Case, pairs: usize, tally: &mut Tally) {
    let stage = Stage::new(case);
    stage.whole();
    let case = &stage.case;
    let words: Vec<&str> = case.words.iter().map(String::as_str).collect();
    let mut left = Vec::new();
    tally.cuts += cut_each(&stage, &case.image, &words, 1, |what, force, image| {
        let wanted = if force { &case.after } else { &case.before };
        let found = committed(&image).map(|m| if force { m } else { seen(case, m) });
        assert_map(found, wanted, what);
        left.push((what.to_string(), image));
    });
    let mut known = HashSet::new();
    left.retain(|l| known.insert(l.1.clone()));
    for (n, (what, image)) in left.iter().enumerate() {
        let map = map_of(image);
        stage.set(image);
        assert_eq!(stage.tool(&["list", "box.img"]).run().text(), listing(image), "{what}: list");
        assert!(stage.recovered(what) == map, "{what}: recover made another map");
        next_change(&stage, image, &map, what);
        if pairs > 0 && n % pairs == 0 && matches!(look(image), Seen::Recover(_)) {
            cut_again(&stage, image, &map, tally);
        }
    }
    end_cut(&stage, tally);
}

/// A cut in the recovery behind a cut and, every second time, in the next change.
fn cut_again(stage: &Stage, left: &[u8], map: &Map, tally: &mut Tally) {
    let mut again = Vec::new();
    tally.second += cut_each(stage, left, &["recover", "box.img"], 1, |what, _, image| {
        assert_map(committed(&image), map, what);
        again.push((what.to_string(), image));
    });
    for (what, image) in again {
        stage.set(&image);
        assert!(stage.recovered(&what) == *map, "{what}: recover made another map");
    }
    if !tally.turn() {
        return;
    }
    let old = without_second(map.clone());
    let mut wanted = old.clone();
    wanted.insert(name(NEXT), pattern(77, 700));
    let mut again = Vec::new();
    tally.second += cut_each(stage, left, &["put", "box.img", NEXT, "next"], 1, |what, force, image| {
        let found = committed(&image).map(without_second);
        assert_map(found, if force { &wanted } else { &old }, what);
        again.push((what.to_string(), image));
    });
    for (what, image) in again {
        let was = map_of(&image);
        stage.set(&image);
        assert!(stage.recovered(&what) == was, "{what}: recover made another map");
    }
}

/// Restore makes one purse after the other: a cut leaves a first part of them, each whole.
#[test]
fn restore() {
    let mut tally = Tally::default();
    let stage = Stage::new(restore_case());
    stage.whole();
    let case = &stage.case;
    let words: Vec<&str> = case.words.iter().map(String::as_str).collect();
    let parts = case.parts();
    let mut reached = 0;
    let mut left = Vec::new();
    tally.cuts += cut_each(&stage, &case.image, &words, 1, |what, force, image| {
        let found = seen(case, committed(&image).unwrap_or_else(|| panic!("{what}: the image is not sound")));
        let at = parts.iter().position(|p| *p == found).unwrap_or_else(|| panic!("{what}: no first part: {}", show(&found)));
        assert!(
            at == reached || at == reached + 1 || (what.contains("cut-lost") && at + 1 == reached),
            "{what}: part {at} behind {reached}"
        );
        assert_eq!(force, at == parts.len() - 1, "{what}: part {at}");
        reached = at.max(reached);
        left.push((what.to_string(), image));
    });
    for (what, image) in left {
        let map = map_of(&image);
        stage.set(&image);
        assert!(stage.recovered(&what) == map, "{what}: recover made another map");
        next_change(&stage, &image, &map, &what);
        // Once more from the beginning.
        stage.set(&image);
        let out = stage.command().run();
        assert_eq!(out.status, 0, "{what}: again: {}", out.err);
        assert_map(committed(&stage.bytes()), &case.after, &what);
    }
    end_cut(&stage, &mut tally);
    tally.tell("restore");
}

/// How many of the lists of a load are stored before a call.
fn lists_before(list: &[(usize, usize)], call: usize) -> usize {
    list_stores(list).iter().filter(|&&i| list[i].0 < call).count()
}

/// What a cut has left of a load is told by the next one, which then goes on from there: no line is left out or loaded twice.
fn load_goes_on(stage: &Stage, left: &[u8], at: usize, what: &str) {
    let lines = stage.case.each.len();
    stage.set(left);
    if at > 0 {
        let out = stage.command().run();
        let next = match at == lines {
            true => "the cards of all lines from there on are in the box".to_string(),
            false => format!("the next line that is not refused so is {}", at + 1),
        };
        let wanted = format!("refused 14: a file has this name, line 1; no line was loaded before it; {next}\n");
        assert_eq!((out.status, out.err.ends_with(&wanted)), (1, true), "{what}: again: {}", out.err);
    }
    let out = stage.tool(&["load", "box.img", "monday", &(at + 1).to_string()]).run();
    assert_eq!(out.status, 0, "{what}: from line {}: {}", at + 1, out.err);
    let loaded = match lines - at {
        1 => "loaded 1 line\n".to_string(),
        n => format!("loaded {n} lines\n"),
    };
    assert_eq!(out.text(), loaded, "{what}");
    assert!(matches!(look(&stage.bytes()), Seen::Sound { .. }), "{what}: {}", listing(&stage.bytes()));
    assert_map(committed(&stage.bytes()), &stage.case.after, &format!("{what}: gone on with"));
}

/// A load makes one purse after the other: a cut leaves a first part of them, each whole, by the lists that are stored.
#[test]
fn load() {
    let mut tally = Tally::default();
    let stage = Stage::new(load_case());
    let (out, trace) = stage.whole();
    assert_eq!((out.text().as_str(), out.err.as_str()), ("loaded 4 lines\n", ""));
    let case = &stage.case;
    let words: Vec<&str> = case.words.iter().map(String::as_str).collect();
    let (parts, list) = (case.parts(), stores(&trace));
    assert_eq!((list.len(), list_stores(&list).len()), (33, 4));
    let (mut left, mut seen_at) = (Vec::new(), list.iter().flat_map(|s| [(s.0 + 1, true), (s.0, false)]));
    tally.cuts += cut_each(&stage, &case.image, &words, 1, |what, _, image| {
        // Kept: the store counts. Lost: it does not.
        let (call, kept) = seen_at.next().unwrap();
        assert_eq!(kept, what.contains("cut-kept"), "{what}");
        let at = lists_before(&list, call);
        assert_map(committed(&image), &parts[at], what);
        left.push((what.to_string(), at, image));
    });
    for (what, at, image) in left {
        stage.set(&image);
        assert!(stage.recovered(&what) == parts[at], "{what}: recover made another map");
        next_change(&stage, &image, &parts[at], &what);
        load_goes_on(&stage, &image, at, &what);
        if matches!(look(&image), Seen::Recover(_)) {
            cut_again(&stage, &image, &parts[at], &mut tally);
        }
    }
    for c in &trace {
        let (out, _) = stage.disturbed(c.number, "cut");
        let what = format!("load: the end before call {} ({})", c.number, c.function);
        assert_eq!(out.status, CUT, "{what}: {}", out.err);
        let (at, image) = (lists_before(&list, c.number), stage.bytes());
        assert_map(committed(&image), &parts[at], &what);
        load_goes_on(&stage, &image, at, &what);
    }
    end_cut(&stage, &mut tally);
    tally.tell("load");
    eprintln!("load: {} ends before a system call", trace.len());
}

/// A second load goes on behind a cut, and is cut at each of its stores: a first part of the lines is there, and no line is lost or doubled.
#[test]
fn load_cut_twice() {
    let mut cuts = 0;
    let stage = Stage::new(load_case());
    let (_, trace) = stage.whole();
    let (parts, list) = (stage.case.parts(), stores(&trace));
    for &(number, _) in list.iter().step_by(5) {
        stage.disturbed(number, "cut-kept");
        let image = stage.bytes();
        let at = lists_before(&list, number + 1);
        let from = (at + 1).to_string();
        let words = ["load", "box.img", "monday", from.as_str()];
        if at == parts.len() - 1 {
            continue;
        }
        let mut reached = at;
        cuts += cut_each(&stage, &image, &words, 1, |what, _, left| {
            let found = committed(&left).unwrap_or_else(|| panic!("{what}: not sound"));
            let now = parts.iter().position(|p| *p == found).unwrap_or_else(|| panic!("{what}: no first part: {}", show(&found)));
            assert!(now >= at && now + 1 >= reached && now <= reached + 1, "{what}: part {now} behind {reached}");
            reached = now.max(reached);
            load_goes_on(&stage, &left, now, what);
        });
        assert_eq!(reached, parts.len() - 1);
    }
    eprintln!("load: {cuts} cuts of a load that goes on behind a cut");
    assert!(cuts > 100);
}

/// The longest put on the largest box, cut at some of its stores.
#[test]
fn longest_put() {
    let mut tally = Tally::default();
    let bytes = pattern(90, 1_048_576);
    let case = Case::new("the longest put", wide_box(4096), &["put", "box.img", E, "file"], |m| {
        m.insert(name(E), pattern(90, 1_048_576));
    });
    let stage = Stage::new(case.file("file", &bytes).long());
    let (_, trace) = stage.whole();
    let all = stores(&trace).len();
    let case = &stage.case;
    let words: Vec<&str> = case.words.iter().map(String::as_str).collect();
    let mut left = Vec::new();
    tally.cuts += cut_each(&stage, &case.image, &words, 211, |what, force, image| {
        let found = committed(&image).map(|m| seen(case, m));
        assert_map(found, if force { &case.after } else { &case.before }, what);
        left.push((what.to_string(), image));
    });
    for (what, image) in left {
        next_change(&stage, &image, &map_of(&image), &what);
    }
    end_cut(&stage, &mut tally);
    tally.tell(&format!("the longest put, {all} stores"));
}

/// A flush fails, and what it was to flush stays in the system's cache alone: the next command reads it from there, but it is not on the disk.
/// Then the plug is pulled behind each store of the next command.
#[test]
fn behind_a_failed_flush() {
    let (mut flushes, mut cuts, mut ends) = (0, 0, 0);
    let wanted = ["put a new purse", "put in place of a purse", "remove", "recover", "put with a log pending", "load a line"];
    for case in short_cases().into_iter().filter(|c| wanted.contains(&c.what)) {
        let stage = Stage::new(case);
        let (_, trace) = stage.whole();
        let disk = stage.scratch.at("disk.img");
        let run = |words: &[&str], at: usize, what: &str, end: bool| {
            let shim = Shim { at, what: what.to_string(), end, disk: Some(disk.clone()) };
            stage.tool(words).shim(&stage.image, &shim).traced()
        };
        let words: Vec<&str> = stage.case.words.iter().map(String::as_str).collect();
        let list = stores(&trace);
        let force = list_stores(&list).last().map_or(usize::MAX, |&i| list[i].0);
        for c in trace.iter().filter(|c| c.is_flush()) {
            stage.reset();
            std::fs::write(&disk, &stage.case.image).unwrap();
            let (out, _) = run(&words, c.number, &format!("fail:{EIO}"), false);
            assert_eq!(out.status, 3, "{}: {}", stage.case.what, out.err);
            flushes += 1;
            let (cache, platter) = (stage.bytes(), std::fs::read(&disk).unwrap());
            let at_list = trace.iter().any(|t| t.number == force && t.number + 1 == c.number);
            let maps: Vec<&Map> = match c.number {
                _ if at_list => vec![&stage.case.before, &stage.case.after],
                n if n < force => vec![&stage.case.before],
                _ => vec![&stage.case.after],
            };
            let with_next = |m: &&Map| {
                let mut next = (*m).clone();
                next.insert(name(NEXT), pattern(77, 700));
                next
            };
            let next_maps: Vec<Map> = maps.iter().map(with_next).collect();
            for next in [&["recover", "box.img"][..], &["put", "box.img", NEXT, "next"]] {
                let set = || {
                    stage.set(&cache);
                    std::fs::write(&disk, &platter).unwrap();
                };
                let place = format!("{}: flush {} failed, then {next:?}", stage.case.what, c.number);
                set();
                let (out, trace) = run(next, 0, "", true);
                assert_eq!(out.status, 0, "{place}: {}", out.err);
                let found = committed(&stage.bytes()).unwrap_or_else(|| panic!("{place}: not sound behind its end"));
                let done = if next[0] == "put" { next_maps.contains(&found) } else { maps.contains(&&found) };
                assert!(done, "{place}: done, and the plug is pulled: {}", show(&found));
                ends += 1;
                for (number, block) in stores(&trace) {
                    for mode in MODES {
                        set();
                        let (out, _) = run(next, number, mode, false);
                        let what = format!("{place}, {mode} at call {number} (block {block})");
                        assert_eq!(out.status, CUT, "{what}: {}", out.err);
                        let found = committed(&stage.bytes()).unwrap_or_else(|| panic!("{what}: not sound"));
                        assert!(maps.contains(&&found) || next_maps.contains(&found), "{what}: {}", show(&found));
                        if cuts % 3 == 0 {
                            assert!(stage.recovered(&what) == found, "{what}: recover made another map");
                        }
                        cuts += 1;
                    }
                }
            }
        }
    }
    eprintln!("{flushes} failed flushes, {cuts} cuts and {ends} ends of the next command");
    assert!(flushes > 40 && cuts > 500);
}

/// The process ends before each of its system calls, whichever it is.
#[test]
fn every_call() {
    let mut cuts = 0;
    let mut cases = short_cases();
    cases.push(full_case());
    for case in cases {
        let stage = Stage::new(case);
        let (_, trace) = stage.whole();
        let list = stores(&trace);
        let force = list_stores(&list).last().map_or(usize::MAX, |&i| list[i].0);
        for c in &trace {
            let (out, _) = stage.disturbed(c.number, "cut");
            let what = format!("{}: the end before call {} ({})", stage.case.what, c.number, c.function);
            assert_eq!(out.status, CUT, "{what}: {}", out.err);
            let wanted = if c.number > force { &stage.case.after } else { &stage.case.before };
            assert_map(committed(&stage.bytes()), wanted, &what);
            assert!(stage.recovered(&what) == *wanted, "{what}: recover made another map");
            cuts += 1;
        }
    }
    eprintln!("{cuts} ends before a system call");
}

#[test]
fn one_transaction() {
    let mut tally = Tally::default();
    for case in short_cases() {
        cut_everywhere(case, 1, &mut tally);
    }
    tally.tell("commands of one transaction");
}

#[test]
fn thirty_blocks() {
    let mut tally = Tally::default();
    cut_everywhere(full_case(), 9, &mut tally);
    tally.tell("put of 30 blocks");
}

#[test]
fn long_puts() {
    let mut tally = Tally::default();
    for case in long_cases() {
        cut_everywhere(case, 40, &mut tally);
    }
    tally.tell("puts through a second purse");
}
