//! Two programs at once on one box, and programs that are killed.

mod common;

use common::*;
use std::fs;
use std::io::Write;
use std::time::{Duration, Instant};

/// A change, as the tool is told and as a map has it.
#[derive(Clone)]
struct Op {
    words: Vec<String>,
    apply: fn(&mut Map) -> bool,
}

fn op(words: &[&str], apply: fn(&mut Map) -> bool) -> Op {
    Op { words: words.iter().map(|w| w.to_string()).collect(), apply }
}

fn append(m: &mut Map, n: &str, bytes: Vec<u8>) -> bool {
    m.get_mut(&name(n)).map(|b| b.extend(bytes)).is_some()
}

fn rename(m: &mut Map, from: &str, to: &str) -> bool {
    if !m.contains_key(&name(from)) || m.contains_key(&name(to)) {
        return false;
    }
    let bytes = m.remove(&name(from)).unwrap();
    m.insert(name(to), bytes);
    true
}

/// Changes that do not commute: what is lost or done twice shows.
fn ops() -> Vec<Op> {
    vec![
        op(&["append", "box.img", A, "one"], |m| append(m, A, pattern(61, 100))),
        op(&["append", "box.img", A, "two"], |m| append(m, A, pattern(62, 700))),
        op(&["put", "box.img", A, "two"], |m| m.insert(name(A), pattern(62, 700)).is_some() || true),
        op(&["put", "box.img", B, "long"], |m| m.insert(name(B), pattern(63, 40 * 512)).is_some() || true),
        op(&["remove", "box.img", A], |m| m.remove(&name(A)).is_some()),
        op(&["rename", "box.img", A, NEXT], |m| rename(m, A, NEXT)),
        op(&["resize", "box.img", A, "5"], |m| m.get_mut(&name(A)).map(|b| b.resize(5, 0)).is_some()),
        op(&["batch", "box.img", "lines"], |m| append(m, B, Vec::new()) && rename(m, C, D)),
        op(&["load", "box.img", "monday"], |m| {
            let new = !m.contains_key(&name(CARDS[0].1));
            m.extend(CARDS.iter().filter(|_| new).map(|card| (name(card.1), cents(card.2))));
            new
        }),
    ]
}

fn stage() -> Stage {
    let mut image = empty(256);
    add(&mut image, name(A), &pattern(1, 1300), None);
    add(&mut image, name(B), &pattern(2, 1480), None);
    add(&mut image, name(C), &pattern(3, 10), None);
    let case = Case::new("a race", image, &["list", "box.img"], |_| ())
        .file("one", &pattern(61, 100))
        .file("two", &pattern(62, 700))
        .file("long", &pattern(63, 40 * 512))
        .file("lines", format!("rename {C} {D}\n").as_bytes())
        .file("monday", &monday());
    Stage::new(case)
}

fn is_busy(out: &Out) -> bool {
    out.status == 3 && (out.err.contains("busy") || out.err.contains("in use"))
}

fn orders(n: usize) -> Vec<Vec<usize>> {
    if n == 0 {
        return vec![vec![]];
    }
    let shorter = orders(n - 1);
    shorter.iter().flat_map(|o| (0..n).map(move |at| [&o[..at], &[n - 1], &o[at..]].concat())).collect()
}

/// The box is that of some order of those that were not busy: status 0 where the map accepts, 1 where it refuses.
fn assert_serial(stage: &Stage, ran: &[(&Op, Out)], what: &str) {
    for (op, out) in ran {
        assert!(matches!(out.status, 0 | 1) || is_busy(out), "{what}: {:?}: status {}: {}", op.words, out.status, out.err);
    }
    let took: Vec<&(&Op, Out)> = ran.iter().filter(|r| r.1.status != 3).collect();
    let image = stage.bytes();
    assert!(matches!(look(&image), Seen::Sound { .. }), "{what}: {}", listing(&image));
    let found = map_of(&image);
    let fits = |order: &Vec<usize>| {
        let mut map = stage.case.before.clone();
        order.iter().all(|&i| (took[i].0.apply)(&mut map) == (took[i].1.status == 0)) && map == found
    };
    let told: Vec<String> = ran.iter().map(|(o, out)| format!("{:?} {}", o.words, out.status)).collect();
    assert!(orders(took.len()).iter().any(fits), "{what}: no order gives this box\n {}\n {}", told.join("\n "), show(&found));
}

fn start(stage: &Stage, op: &Op, slow: u32) -> Running {
    let tool = tool(&op.words).folder(&stage.scratch.path);
    if slow > 0 {
        tool.slow(&stage.image, slow).spawn()
    } else {
        tool.spawn()
    }
}

/// Runs `first` up to call n, then `middle`, then the rest of `first`. None: there is no such call.
fn paused<T>(stage: &Stage, first: &[String], n: usize, middle: impl FnOnce() -> T) -> Option<(Out, T)> {
    stage.reset();
    let flag = stage.scratch.at("flag");
    let (here, go) = (stage.scratch.at("flag.here"), stage.scratch.at("flag.go"));
    let _ = (fs::remove_file(&here), fs::remove_file(&go));
    let shim = Shim { at: n, what: format!("pause:{}", path(&flag)), ..Shim::default() };
    let mut a = tool(first).folder(&stage.scratch.path).shim(&stage.image, &shim).spawn();
    let since = Instant::now();
    while !here.exists() {
        if a.child.try_wait().unwrap().is_some() {
            a.wait();
            return None;
        }
        assert!(since.elapsed() < Duration::from_secs(20), "{first:?} does not come to call {n}");
        std::thread::sleep(Duration::from_micros(200));
    }
    let done = middle();
    fs::write(&go, b"").unwrap();
    Some((a.wait(), done))
}

/// The same with `second` run as a whole in between.
fn inside(stage: &Stage, first: &[String], n: usize, second: &[String]) -> Option<(Out, Out)> {
    paused(stage, first, n, || {
        let since = Instant::now();
        let b = tool(second).folder(&stage.scratch.path).run();
        assert!(since.elapsed() < Duration::from_secs(5), "{second:?} waits for {first:?} at call {n}");
        b
    })
}

/// One change as a whole inside another one, at each of its calls.
#[test]
fn a_change_inside_a_change() {
    let (stage, ops) = (stage(), ops());
    let (mut places, mut busy, mut both) = (0, 0, 0);
    for (i, j) in [(0, 1), (1, 2), (2, 0), (0, 4), (4, 5), (5, 6), (6, 0), (7, 1), (3, 1), (1, 3), (8, 1), (1, 8), (8, 8)] {
        let step = if i == 3 || i == 8 { 9 } else { 1 };
        for n in (1..).step_by(step) {
            let Some((a, b)) = inside(&stage, &ops[i].words, n, &ops[j].words) else { break };
            places += 1;
            busy += (b.status == 3) as usize;
            both += (a.status == 0 && b.status == 0) as usize;
            assert_serial(&stage, &[(&ops[i], a), (&ops[j], b)], &format!("{:?} inside {:?} at call {n}", ops[j].words, ops[i].words));
        }
    }
    eprintln!("one change inside another: {places} places, the inner one busy {busy} times, both done {both} times");
    assert!(busy > 100 && both > 10);
}

/// A reader inside a change sees a whole state, or is told that the box is busy.
#[test]
fn a_reader_inside_a_change() {
    let (stage, ops) = (stage(), ops());
    let (mut places, mut busy) = (0, 0);
    for (i, step) in [(0, 1), (2, 1), (3, 11), (5, 1)] {
        stage.reset();
        let list = |image: &[u8]| listing(image).into_bytes();
        let old = stage.case.image.clone();
        assert_eq!(start(&stage, &ops[i], 0).wait().status, 0);
        let new = stage.bytes();
        for n in (1..).step_by(step) {
            let words = vec!["list".to_string(), "box.img".to_string()];
            let Some((a, b)) = inside(&stage, &ops[i].words, n, &words) else { break };
            places += 1;
            assert!(a.status == 0 || (a.status == 3 && stage.bytes() == old), "{:?}: {}", ops[i].words, a.err);
            match b.status {
                0 => assert!(b.out == list(&old) || b.out == list(&new), "inside {:?} at call {n}: {}", ops[i].words, b.text()),
                3 if is_busy(&b) => busy += 1,
                s => panic!("list inside {:?} at call {n}: status {s}", ops[i].words),
            }
        }
    }
    eprintln!("a reader inside a change: {places} places, busy {busy} times");
    assert!(busy > 50 && places > busy);
}

/// A change inside a reader: the reader's words are of one state. Two readers do not hinder each other.
#[test]
fn inside_a_reader() {
    let (stage, ops) = (stage(), ops());
    let (mut places, mut busy) = (0, 0);
    for words in [&["list", "box.img"][..], &["get", "box.img", A], &["dump", "box.img", "out"]] {
        let first: Vec<String> = words.iter().map(|w| w.to_string()).collect();
        let (mut old, mut new) = (Vec::new(), Vec::new());
        for (state, change) in [(&mut old, false), (&mut new, true)] {
            stage.reset();
            if change {
                assert_eq!(start(&stage, &ops[1], 0).wait().status, 0);
            }
            let _ = fs::remove_dir_all(stage.scratch.at("out"));
            let out = tool(&first).folder(&stage.scratch.path).run();
            state.push((out.out, fs::read(stage.scratch.at("out").join(A)).ok()));
        }
        for n in 1.. {
            let _ = fs::remove_dir_all(stage.scratch.at("out"));
            let Some((a, b)) = inside(&stage, &first, n, &ops[1].words) else { break };
            places += 1;
            let what = format!("{:?} inside {first:?} at call {n}", ops[1].words);
            assert!(b.status == 0 || is_busy(&b), "{what}: {}", b.err);
            busy += (b.status == 3) as usize;
            assert_eq!(a.status, 0, "{what}: {}", a.err);
            let seen = (a.out, fs::read(stage.scratch.at("out").join(A)).ok());
            assert!(seen == old[0] || seen == new[0], "{what}: the reader saw neither state");
            let mut map = stage.case.before.clone();
            if b.status == 0 {
                (ops[1].apply)(&mut map);
            }
            assert_map(committed(&stage.bytes()), &map, &what);
            let reader: Vec<String> = ["get", "box.img", B].iter().map(|w| w.to_string()).collect();
            let _ = fs::remove_dir_all(stage.scratch.at("out"));
            let (a, b) = inside(&stage, &first, n, &reader).expect("the same call");
            assert!(
                a.status == 0 && b.status == 0 && b.out == pattern(2, 1480),
                "two readers at call {n} of {first:?}: {} {}",
                a.err,
                b.err
            );
        }
    }
    eprintln!("inside a reader: {places} places, a change was busy {busy} times");
    assert!(busy > 5 && places > busy);
}

/// The words of every command on `box.img`, and whether it may store.
fn every_command() -> Vec<(Vec<&'static str>, bool)> {
    vec![
        (vec!["list", "box.img"], false),
        (vec!["list", "--json", "box.img"], false),
        (vec!["check", "box.img"], false),
        (vec!["map", "box.img"], false),
        (vec!["get", "box.img", A], false),
        (vec!["dump", "box.img", "out"], false),
        (vec!["salvage", "box.img", "out2"], false),
        (vec!["recover", "box.img"], true),
        (vec!["put", "box.img", A, "one"], true),
        (vec!["put", "box.img", A, "long"], true),
        (vec!["remove", "box.img", A], true),
        (vec!["rename", "box.img", A, NEXT], true),
        (vec!["resize", "box.img", A, "3"], true),
        (vec!["write", "box.img", A, "3", "one"], true),
        (vec!["append", "box.img", A, "one"], true),
        (vec!["batch", "box.img", "lines"], true),
        (vec!["load", "box.img", "monday"], true),
        (vec!["load", "box.img", "monday", "4"], true),
        (vec!["restore", "folder", "box.img"], true),
    ]
}

/// Another program holds the box: told at once, and the image is not touched. Readers may read beside readers.
#[test]
fn locked_from_outside() {
    let stage = stage();
    fs::create_dir(stage.scratch.at("folder")).unwrap();
    stage.scratch.file(&format!("folder/{A}"), b"bytes");
    let mut told = 0;
    for exclusive in [true, false] {
        for (words, stores) in every_command() {
            stage.reset();
            for folder in ["out", "out2"] {
                let _ = fs::remove_dir_all(stage.scratch.at(folder));
            }
            let file = fs::File::open(&stage.image).unwrap();
            if exclusive {
                file.lock().unwrap()
            } else {
                file.lock_shared().unwrap()
            }
            let since = Instant::now();
            let out = stage.tool(&words).run();
            assert!(since.elapsed() < Duration::from_secs(5), "{words:?} waits for the lock");
            if exclusive || stores {
                assert!(is_busy(&out), "{words:?} on a locked box: {} {}", out.status, out.err);
                assert!(out.out.is_empty(), "{words:?} on a locked box: {}", out.text());
                assert_eq!(out.err.contains("not in force"), stores, "{words:?}: {}", out.err);
                told += 1;
            } else {
                assert_eq!(out.status, 0, "{words:?} beside a reader: {}", out.err);
            }
            assert!(stage.bytes() == stage.case.image, "{words:?} on a locked box: the image is another");
            // Not by closing it alone: a child that another test starts at this moment has the file open until it runs its program.
            file.unlock().unwrap();
            drop(file);
            assert!(!exclusive || stage.tool(&words).run().status == 0, "{words:?} when the lock is gone");
        }
    }
    eprintln!("{told} commands on a locked box");
}

/// A recovery, and at each of its calls a change that recovers by itself, or a second recovery.
#[test]
fn inside_a_recovery() {
    let stage = stage();
    let mut after = stage.case.image.clone();
    add(&mut after, name(D), &pattern(9, 900), None);
    let image = pending(&stage.case.image, &after, 1);
    let stage = Stage { case: Case { image, ..stage.case.clone() }, ..stage };
    let map = map_of(&after);
    let recover: Vec<String> = ["recover", "box.img"].iter().map(|w| w.to_string()).collect();
    let (append, mut places, mut busy) = (&ops()[0], 0, 0);
    for (first, second) in [(&recover, &append.words), (&recover, &recover), (&append.words, &recover), (&append.words, &append.words)] {
        for n in 1.. {
            let Some((a, b)) = inside(&stage, first, n, second) else { break };
            let what = format!("{second:?} inside {first:?} at call {n}");
            places += 1;
            busy += is_busy(&b) as usize;
            let mut wanted = map.clone();
            for (words, out) in [(first, &a), (second, &b)] {
                assert!(out.status == 0 || is_busy(out), "{what}: {} {}", out.status, out.err);
                if words[0] == "append" && out.status == 0 {
                    (append.apply)(&mut wanted);
                }
            }
            assert!(a.status == 0 || b.status == 0, "{what}: both were told that the box is busy");
            assert!(matches!(look(&stage.bytes()), Seen::Sound { .. }), "{what}: {}", listing(&stage.bytes()));
            assert_map(committed(&stage.bytes()), &wanted, &what);
        }
    }
    eprintln!("inside a recovery: {places} places, busy {busy} times");
    assert!(busy > 20 && places > busy);
}

/// A format, and at each of its calls a put on the box that is not yet whole.
#[test]
fn inside_a_format() {
    let stage = stage();
    let format: Vec<String> = ["format", "new.img", "64"].iter().map(|w| w.to_string()).collect();
    let put: Vec<String> = ["put", "new.img", A, "one"].iter().map(|w| w.to_string()).collect();
    let (mut places, mut told) = (0, 0);
    let image = stage.scratch.at("new.img");
    for n in 1.. {
        let _ = fs::remove_file(&image);
        let Some((a, b)) = inside(&stage, &format, n, &put) else { break };
        let what = format!("{put:?} inside format at call {n}");
        places += 1;
        told += (b.status != 0) as usize;
        assert_eq!(a.status, 0, "{what}: {}", a.err);
        assert!(matches!(b.status, 0 | 1 | 3), "{what}: {} {}", b.status, b.err);
        let mut wanted = Map::new();
        if b.status == 0 {
            wanted.insert(name(A), pattern(61, 100));
        }
        assert_map(committed(&fs::read(&image).unwrap()), &wanted, &what);
    }
    eprintln!("inside a format: {places} places, the put was told {told} times");
    assert!(told > 3);
}

/// A format, and at each of its calls a program that makes a box of its own of a file that is missing or empty, as examples/sale.c does. What that
/// has stored stays, also where it still holds its lock.
#[test]
fn another_box_inside_a_format() {
    let stage = stage();
    let format: Vec<String> = ["format", "new.img", "64"].iter().map(|w| w.to_string()).collect();
    let image = stage.scratch.at("new.img");
    let theirs = small_box();
    let made = || {
        let mut file = fs::File::options().read(true).write(true).create(true).truncate(false).open(&image).unwrap();
        if file.try_lock().is_err() || file.metadata().unwrap().len() > 0 {
            return None;
        }
        file.write_all(&theirs).unwrap();
        Some(file)
    };
    let (mut places, mut told) = (0, 0);
    for held in [true, false] {
        for n in 1.. {
            let _ = fs::remove_file(&image);
            let middle = || made().map(|file| held.then_some(file).ok_or(()));
            let Some((a, other)) = paused(&stage, &format, n, middle) else { break };
            places += 1;
            told += other.is_some() as usize;
            let (status, wanted) = if other.is_some() { (3, &theirs) } else { (0, &empty(64)) };
            assert_eq!(a.status, status, "format at call {n}, held {held}: {}", a.err);
            assert!(fs::read(&image).ok().as_ref() == Some(wanted), "format at call {n}, held {held}: the box is another");
        }
    }
    eprintln!("another box inside a format: {places} places, the format was told {told} times");
    assert!(told > 3 && places > told);
}

/// The box is replaced by another file, at each call of a put up to the one that looks where its name leads, with and without another name for the
/// old one: the put is in the new box, or it is told that it is not in force.
#[test]
fn a_box_that_is_replaced() {
    let (stage, put) = (stage(), &ops()[2]);
    let (mut places, mut put_there, mut told) = (0, 0, 0);
    stage.reset();
    let trace = tool(&put.words).folder(&stage.scratch.path).shim(&stage.image, &Shim::default()).traced().1;
    let lock = trace.iter().position(|c| c.function == "flock").expect("a lock");
    let before_reading = trace[lock..].iter().take_while(|c| !matches!(c.function.as_str(), "read" | "pread"));
    let looked = before_reading.filter(|c| c.function == "stat").last().expect("a look behind the lock").number;
    let other_name = stage.scratch.at("other.img");
    for (n, named) in (1..=looked).flat_map(|n| [(n, false), (n, true)]) {
        let new = stage.scratch.file("new.img", &small_box());
        let replace = || {
            let _ = fs::remove_file(&other_name);
            if named {
                fs::hard_link(&stage.image, &other_name).unwrap();
            }
            fs::rename(&new, &stage.image).unwrap();
        };
        let (out, ()) = paused(&stage, &put.words, n, replace).expect("a call");
        let mut wanted = map_of(&small_box());
        if out.status == 0 {
            (put.apply)(&mut wanted);
        }
        assert!(out.status == 0 || out.status == 3 && out.err.contains("not in force"), "call {n}: {} {}", out.status, out.err);
        assert_map(committed(&stage.bytes()), &wanted, &format!("replaced at call {n}, another name {named}"));
        places += 1;
        *if out.status == 0 { &mut put_there } else { &mut told } += 1;
    }
    eprintln!("a box that is replaced: {places} places, the put was told {told} times");
    assert!(put_there > 0 && told > 0);
}

/// Three changes started together.
#[test]
fn races() {
    let (stage, ops) = (stage(), ops());
    let mut rng = Rng(0x9e37_79b9_7f4a_7c15);
    let (mut done, mut refused, mut busy) = (0, 0, 0);
    const RACES: usize = 250;
    for race in 0..RACES {
        stage.reset();
        let picked: Vec<&Op> = (0..3).map(|_| &ops[rng.below(ops.len())]).collect();
        let slow = rng.below(3) as u32 * 60;
        let running: Vec<Running> = picked.iter().map(|op| start(&stage, op, slow)).collect();
        let outs: Vec<Out> = running.into_iter().map(Running::wait).collect();
        for out in &outs {
            match out.status {
                0 => done += 1,
                1 => refused += 1,
                _ => busy += 1,
            }
        }
        let ran: Vec<(&Op, Out)> = picked.into_iter().zip(outs).collect();
        assert_serial(&stage, &ran, &format!("race {race}"));
    }
    eprintln!("{RACES} races of three changes: {done} done, {refused} refused, {busy} busy");
    assert!(done + refused >= RACES && busy > RACES / 10);
}

/// One box, two formats at once: one makes it, the other overwrites nothing.
#[test]
fn two_formats() {
    let scratch = Scratch::new("formats");
    let image = scratch.at("box.img");
    const RACES: usize = 60;
    for _ in 0..RACES {
        let _ = fs::remove_file(&image);
        let both: Vec<Running> = ["64", "128"].iter().map(|n| tool(&["format", "box.img", n]).folder(&scratch.path).spawn()).collect();
        let outs: Vec<Out> = both.into_iter().map(Running::wait).collect();
        let done: Vec<usize> = (0..2).filter(|&i| outs[i].status == 0).collect();
        assert_eq!(done.len(), 1, "{outs:?}");
        assert!(fs::read(&image).unwrap() == empty([64, 128][done[0]]), "the box of the one that was done");
    }
    eprintln!("{RACES} races of two formats");
}

/// A load is killed at a random moment: a first part of its lines is there, and it goes on behind them.
#[test]
fn kills_of_a_load() {
    let stage = Stage::new(load_case());
    let parts = stage.case.parts();
    let mut rng = Rng(99);
    let (mut logs, mut late, mut reached) = (0, 0, vec![0; parts.len()]);
    const KILLS: usize = 200;
    for k in 0..KILLS {
        stage.reset();
        let slow = rng.below(3) as u32 * 40;
        let t = stage.command();
        let mut a = if slow > 0 { t.slow(&stage.image, slow).spawn() } else { t.spawn() };
        std::thread::sleep(Duration::from_micros(rng.below(3000 + 100 * slow as usize) as u64));
        let _ = a.child.kill();
        let out = a.wait();
        late += (out.status == 0) as usize;
        assert!(out.status == -9 || out.status == 0, "status {}: {}", out.status, out.err);
        logs += matches!(look(&stage.bytes()), Seen::Recover(_)) as usize;
        let found = committed(&stage.bytes()).expect("a sound image behind a kill");
        let at = parts.iter().position(|p| *p == found).unwrap_or_else(|| panic!("kill {k}: no first part: {}", show(&found)));
        assert!(out.status == -9 || at == parts.len() - 1, "kill {k}: it said done");
        reached[at] += 1;
        let out = stage.tool(&["load", "box.img", "monday", &(at + 1).to_string()]).run();
        assert_eq!(out.status, 0, "kill {k}: from line {}: {}", at + 1, out.err);
        assert_map(committed(&stage.bytes()), &stage.case.after, "gone on with");
    }
    eprintln!("{KILLS} kills of a load: {reached:?} by the lines that were there, {logs} with a log pending, {late} came too late");
    assert!(reached[0] > 5 && reached[4] > 5);
}

/// Killed at a random moment; then the box is as before or as after, and recovers.
#[test]
fn kills() {
    let stage = {
        let bytes = pattern(70, 90 * 512 + 1);
        let case = Case::new("kill", wide_box(512), &["put", "box.img", E, "file"], |m| {
            m.insert(name(E), bytes.clone());
        });
        Stage::new(case.file("file", &bytes).file("part", &pattern(71, 5000)).long())
    };
    let mut appended = stage.case.before.clone();
    appended.get_mut(&name(A)).unwrap().extend(pattern(71, 5000));
    let mut rng = Rng(77);
    let (mut old, mut new, mut logs, mut second, mut late) = (0, 0, 0, 0, 0);
    const KILLS: usize = 500;
    for k in 0..KILLS {
        stage.reset();
        let (words, after): (Vec<String>, &Map) = match k % 3 {
            0 => (["append", "box.img", A, "part"].iter().map(|w| w.to_string()).collect(), &appended),
            _ => (stage.case.words.clone(), &stage.case.after),
        };
        let t = tool(&words).folder(&stage.scratch.path);
        let slow = rng.below(3) as u32 * 20;
        let mut a = if slow > 0 { t.slow(&stage.image, slow).spawn() } else { t.spawn() };
        let longest = if k % 3 == 0 { 3000 + 60 * slow as usize } else { 9000 + 400 * slow as usize };
        std::thread::sleep(Duration::from_micros(rng.below(longest) as u64));
        let _ = a.child.kill();
        let out = a.wait();
        late += (out.status == 0) as usize;
        assert!(out.status == -9 || out.status == 0, "status {}: {}", out.status, out.err);
        let image = stage.bytes();
        logs += matches!(look(&image), Seen::Recover(_)) as usize;
        let map = committed(&image).expect("a sound image behind a kill");
        second += map.contains_key(&SECOND) as usize;
        let seen = without_second(map.clone());
        assert!(seen == stage.case.before || seen == *after, "kill {k}: neither before nor after: {}", show(&seen));
        assert!(out.status == -9 || seen == *after, "kill {k}: it said done");
        *if seen == *after { &mut new } else { &mut old } += 1;
        assert!(stage.recovered("killed") == map, "kill {k}: recover made another map");
        let out = stage.command().run();
        assert_eq!(out.status, 0, "kill {k}: the next put: {}", out.err);
        let mut wanted = seen;
        wanted.insert(name(E), stage.case.after[&name(E)].clone());
        assert_map(committed(&stage.bytes()), &wanted, "the next put");
    }
    eprintln!("{KILLS} kills: {old} before, {new} after, {logs} with a log pending, {second} with a second purse, {late} came too late");
    assert!(old > 10 && new > 10 && logs > 0 && second > 0);
}
