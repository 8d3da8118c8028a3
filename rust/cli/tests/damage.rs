//! Images with bytes changed at random, and images damaged in ways that chance does not find: no command crashes or hangs, all agree on what the
//! image is and name the same record or block, and those that store nothing store nothing.

mod common;

use common::*;
use std::collections::BTreeMap;
use std::fs;

const CHANGES: usize = 700;
const DAMAGES: usize = 500;

/// A log whose redo gives no sound box.
fn bad_log() -> Vec<u8> {
    let before = small_box();
    let mut after = before.clone();
    add(&mut after, name(D), &pattern(9, 900), None);
    let mut image = pending(&before, &after, 0);
    let n = 1 + targets(&image).unwrap().iter().position(|&t| t == 33).unwrap();
    image[n * BLOCK + 6] ^= 0x10;
    image
}

fn bases() -> Vec<Vec<u8>> {
    let mut logged = small_box();
    add(&mut logged, name(D), &pattern(9, 900), None);
    let mut many = empty(512);
    let places: Vec<usize> = (0..140).map(|i| 42 + 2 * i).collect();
    add(&mut many, name(A), &pattern(1, 140 * 512 - 1), Some(&places));
    add(&mut many, name(B), &pattern(2, 3000), Some(&[53, 55, 57, 59, 61, 63]));
    vec![small_box(), wide_box(128), pending(&small_box(), &logged, 0), pending(&small_box(), &logged, 2), left_over_box(200, 20), many]
}

/// Boxes without a log, one with extent blocks among them.
fn sound_bases() -> Vec<Vec<u8>> {
    bases().into_iter().filter(|image| matches!(look(image), Seen::Sound { .. })).collect()
}

/// The places in a sound box where a slot is that names data.
fn data_slots(image: &[u8]) -> Vec<usize> {
    let of = |p: &Purse| match p.nodes.len() {
        0 => (0..p.extents.len()).map(|k| record_at(p.record) + 16 + 4 * k).collect(),
        _ => (0..p.extents.len()).map(|k| p.nodes[k / 128] * BLOCK + 4 * (k % 128)).collect::<Vec<_>>(),
    };
    purses(image).unwrap().iter().flat_map(of).collect()
}

fn record_at(i: usize) -> usize {
    34 * BLOCK + 32 * i
}

/// One kind of damage to a box that is sound so far.
fn damage(image: &mut [u8], rng: &mut Rng) {
    let (purses, slots, blocks) = (purses(image).unwrap(), data_slots(image), image.len() / BLOCK);
    let (one, other) = (&purses[rng.below(purses.len())], &purses[rng.below(purses.len())]);
    let (slot, second) = (slots[rng.below(slots.len())], slots[rng.below(slots.len())]);
    let free = (0..128).find(|&i| name_in(image, i).is_none()).unwrap();
    match rng.below(15) {
        0 => flip(image, rng.below(42)),
        1 | 2 => flip(image, 42 + rng.below(blocks - 42)),
        3 if blocks < 4096 => flip(image, blocks + rng.below(4096 - blocks)),
        // One name twice.
        4 => image.copy_within(record_at(one.record)..record_at(one.record) + 8, record_at(other.record)),
        // A record twice or three times, also under other names.
        5 | 6 => {
            for k in 1..=1 + rng.below(2) {
                image.copy_within(record_at(one.record)..record_at(one.record) + 32, record_at(free + k));
                image[record_at(free + k)] ^= (k * rng.below(2)) as u8;
            }
        }
        // An extent in the place of another.
        7 => image.copy_within(slot..slot + 2, second),
        // An extent block as data.
        8 if !one.nodes.is_empty() => image[slot..slot + 2].copy_from_slice(&(one.nodes[0] as u16).to_le_bytes()),
        // A byte of a record that should be empty, or of the next.
        9 => image[record_at(free + rng.below(3)) + rng.below(32)] = 1,
        _ => break_rule(image, one, rng),
    }
}

/// The record of a purse, or what belongs to it, as no rule allows.
fn break_rule(image: &mut [u8], p: &Purse, rng: &mut Rng) {
    let (at, blocks) = (record_at(p.record), image.len() / BLOCK);
    let slots = if p.nodes.is_empty() { p.extents.len() } else { p.nodes.len() };
    match rng.below(12) {
        0 => image[at + 10 + rng.below(2)] |= 0x80,
        1 => image[at + 12] = 2 + rng.below(254) as u8,
        2 => image[at + 13 + rng.below(3)] = 1,
        // A block without a count, or behind an unused slot.
        3 if slots < 4 => image[at + 16 + 4 * slots] = 42,
        4 if slots < 3 => image[at + 28 + 2 * rng.below(2)] = 50,
        5 if slots > 0 => image[at + 18] ^= 1,
        6 if slots > 0 => image[at + 16..at + 18].copy_from_slice(&([0, 33, 41, blocks, 65535][rng.below(5)] as u16).to_le_bytes()),
        7 => image[at + 9] ^= 2 << rng.below(4),
        // An extent in two parts.
        8 if p.nodes.is_empty() && slots == 1 && p.extents[0].1 > 1 => {
            let (first, count) = p.extents[0];
            for (k, n) in [first, 1, first + 1, count - 1].into_iter().enumerate() {
                image[at + 16 + 2 * k..at + 18 + 2 * k].copy_from_slice(&(n as u16).to_le_bytes());
            }
        }
        9 => image[at + 12] ^= 1,
        10 if !p.nodes.is_empty() => {
            // Any slot of the last extent block, or the first that is not used.
            let slot = [rng.below(128), p.extents.len() % 128][rng.below(2)];
            image[p.nodes.last().unwrap() * BLOCK + 4 * slot + rng.below(4)] ^= 1;
        }
        _ if p.size % BLOCK != 0 => {
            let &(first, count) = p.extents.last().unwrap();
            image[(first + count - 1) * BLOCK + p.size % BLOCK + rng.below(BLOCK - p.size % BLOCK)] = 1;
        }
        _ => image[at + 8 + rng.below(24)] ^= 1 << rng.below(8),
    }
}

/// A bit table for what the purses reach, where all records are sound.
fn mark_reached(image: &mut [u8]) {
    let Ok(purses) = purses(image) else { return };
    for b in 42..image.len() / BLOCK {
        if is_free(image, b) == purses.iter().any(|p| times(p, b) > 0) {
            flip(image, b);
        }
    }
}

/// A sound box damaged in one way or two; now and then with a bit table that fits it but for one bit, or with a log.
fn damaged(base: &[u8], rng: &mut Rng) -> Vec<u8> {
    let mut image = base.to_vec();
    damage(&mut image, rng);
    if rng.below(2) == 0 {
        mark_reached(&mut image);
    }
    match rng.below(6) {
        0 => flip(&mut image, rng.below(4096)),
        1 if purses(&image).is_ok() => damage(&mut image, rng),
        _ => (),
    }
    if rng.below(5) == 0 {
        idle_log(&mut image);
    }
    image
}

/// Changes one to six bytes, mostly where the tables are.
fn change(image: &mut [u8], rng: &mut Rng) {
    for _ in 0..1 + rng.below(6) {
        let at = match rng.below(8) {
            0 => rng.below(80),
            1 => 16 * rng.below(32) + rng.below(2),
            2 => 33 * BLOCK + 5 + rng.below(image.len() / BLOCK / 8),
            3 | 4 => 34 * BLOCK + rng.below(5) * 32 + rng.below(32),
            5 => BLOCK + rng.below(8 * BLOCK),
            6 => 42 * BLOCK + rng.below(image.len() - 42 * BLOCK),
            _ => rng.below(image.len()),
        };
        image[at] = match rng.below(5) {
            0 => 0,
            1 => 0xff,
            2 => image[at] ^ 1 << rng.below(8),
            3 => image[at].wrapping_add(1),
            _ => rng.next() as u8,
        };
    }
}

/// The first number on standard error or output behind the word `refused`.
fn refusal(out: &Out) -> Option<u32> {
    let text = format!("{}\n{}", out.err, out.text());
    let at = text.find("refused")?;
    text[at + 7..].split(|c: char| !c.is_ascii_digit()).find(|w| !w.is_empty())?.parse().ok()
}

#[derive(Default)]
struct Tally {
    sound: usize,
    pending: usize,
    bad_log: usize,
    refused: usize,
    runs: usize,
    salvaged: usize,
    /// Of each refusal, how often it was seen, also behind a redo.
    numbers: BTreeMap<u32, usize>,
    /// Of each kind of sentence, how often it was due, also behind a redo.
    told: BTreeMap<&'static str, usize>,
}

/// What the sentences of damage have in them, the longer before those that they contain.
const SENTENCES: [&str; 26] = [
    "and only 33 to",
    "it has other bytes than",
    "before it is empty",
    "its target is",
    "it has no name",
    "has too",
    "its size is",
    "neither 0 nor 1",
    "bytes 13 to 15",
    "of the record has no count",
    "of the record is behind",
    "its extent block",
    "has no count",
    "is behind an unused one",
    "outside of",
    "asks for",
    "extents touch",
    "and its depth is",
    "bytes behind its end",
    "belongs to the store",
    "behind the end of the box",
    "no purse has it",
    "has it more than once",
    "both have it",
    "more have it",
    "it is marked free, but record",
];

impl Tally {
    fn refusal(&mut self, number: u32, sentence: &str) {
        *self.numbers.entry(number).or_default() += 1;
        if let Some(kind) = SENTENCES.iter().find(|s| sentence.contains(**s)) {
            *self.told.entry(kind).or_default() += 1;
        }
    }

    /// In words, of the kinds of damage.
    fn kinds(&self) -> String {
        let told: Vec<String> = self.told.iter().map(|(kind, n)| format!("{n} '{kind}'")).collect();
        format!("refused {:?}; told {}", self.numbers, told.join(", "))
    }
}

const NO_REDO: &str = "; the pending log does not lead to a sound box, so nothing was stored";

/// Standard error has the sentence of a refused image, `more` behind it, as a line of its own.
fn assert_told(out: &Out, image: &[u8], found: &Seen, more: &str, what: &str) {
    let Seen::Refused(n, fault) = *found else { panic!("{what}: {found:?} is no refusal") };
    let wanted = told(image, n, fault);
    let is =
        |line: &str| if fault.is_some() { line == format!("{wanted}{more}") } else { line.starts_with(&wanted) && line.ends_with(more) };
    assert!(out.err.lines().any(is), "{what}: {:?}, not {wanted:?}", out.err);
}

/// Salvage tells what is wrong with the box, and of each record that is lost by itself why.
fn assert_salvage(out: &Out, image: &[u8], found: &Seen, behind: &[u8], what: &str) {
    match (found, look(behind)) {
        (Seen::Refused(10 | 22 | 23, _), Seen::Refused(n, fault)) => {
            assert!(out.err.starts_with(&told(image, n, fault)), "{what}: {}", out.err);
            for i in 0..128 {
                let start = format!("record {i} ");
                let line = out.text().lines().find(|l| l.starts_with(&start)).map(str::to_string);
                match (lost(image, i), line) {
                    (None, line) => {
                        assert!(line.is_none_or(|l| l.contains(" saved as ") || l.contains(" is claimed by ")), "{what}: record {i}")
                    }
                    (Some(why), line) => assert!(line.as_ref().is_some_and(|l| l.ends_with(&why)), "{what}: {line:?}, not {why}"),
                }
            }
        }
        (Seen::Recover(_), Seen::Refused(n, fault)) => assert!(out.err.contains(&told(behind, n, fault)), "{what}: {}", out.err),
        _ => (),
    }
}

/// Why the purse of a record is lost whatever else is in the box.
fn lost(image: &[u8], i: usize) -> Option<String> {
    if image[record_at(i)..][..32] == [0; 32] {
        return None;
    }
    let Some(purse) = name_in(image, i).map(|_| record(image, i)) else { return Some(" lost: the record has no name".into()) };
    match purse.map(|p| (42..image.len() / BLOCK).find(|&b| times(&p, b) > 1)) {
        None => Some(format!(" lost: its record is not sound (refused 22): {}", rule(image, i))),
        Some(Some(b)) => Some(format!(" lost: it has block {b} more than once (refused 23)")),
        Some(None) => None,
    }
}

/// Purses that a change of some bytes has left alone: their blocks are as before, and so are all records and extent blocks of the others.
fn untouched(base: &[u8], image: &[u8]) -> Vec<Purse> {
    let Seen::Sound { purses, .. } = look(base) else { return Vec::new() };
    let same = |b: usize| base[b * BLOCK..(b + 1) * BLOCK] == image[b * BLOCK..(b + 1) * BLOCK];
    let tables = (34..42).all(same) && purses.iter().flat_map(|p| &p.nodes).all(|&b| same(b));
    let whole = |p: &Purse| p.extents.iter().flat_map(|&(f, c)| f..f + c).all(same);
    purses.into_iter().filter(|p| tables && whole(p)).collect()
}

fn examine(stage: &Stage, image: &[u8], what: &str, tally: &mut Tally) {
    examine_from(stage, image, image, what, tally)
}

fn examine_from(stage: &Stage, base: &[u8], image: &[u8], what: &str, tally: &mut Tally) {
    let found = look(image);
    let map = committed(image);
    // What the redo of a pending log leaves.
    let behind = if matches!(found, Seen::Recover(_)) { redo(image) } else { image.to_vec() };
    let run = |words: &[&str]| {
        stage.set(image);
        let out = stage.tool(words).run();
        assert!(matches!(out.status, 0 | 1), "{what}: {words:?}: status {}: {}", out.status, out.err);
        out
    };
    let unchanged = |words: &[&str]| assert!(stage.bytes() == image, "{what}: {words:?} has changed the image");
    let readers: [&[&str]; 5] =
        [&["list", "box.img"], &["check", "box.img"], &["map", "box.img"], &["get", "box.img", A], &["list", "--json", "box.img"]];
    for (i, words) in readers.into_iter().enumerate() {
        let out = run(words);
        tally.runs += 1;
        unchanged(words);
        match &found {
            Seen::Refused(n, fault) => {
                let result = match words {
                    ["list", "--json", _] => told_in_json(*n, *fault),
                    ["list", _] => format!("refused {n}\n"),
                    _ => String::new(),
                };
                assert_eq!((out.status, out.text()), (1, result), "{what}: {words:?}: {}", out.err);
                assert_told(&out, image, &found, "", &format!("{what}: {words:?}"));
            }
            Seen::Recover(_) if i == 2 || i == 3 => {
                assert_eq!((out.status, refusal(&out)), (1, Some(12)), "{what}: {words:?} with a log pending: {}{}", out.text(), out.err)
            }
            Seen::Recover(_) if i == 1 && map.is_none() => {
                assert_eq!(out.status, 1, "{what}: {words:?} of a log whose redo does not open: {}", out.text());
                assert_told(&out, &behind, &look(&behind), NO_REDO, &format!("{what}: {words:?}"));
            }
            Seen::Recover(_) => assert_eq!(out.status, 0, "{what}: {words:?}: {}", out.err),
            Seen::Sound { .. } if i == 3 => {
                let bytes = map.as_ref().unwrap().get(&name(A));
                assert_eq!(out.status, bytes.is_none() as i32, "{what}: get: {}", out.err);
                assert!(bytes.is_none_or(|b| *b == out.out), "{what}: get gives other bytes");
            }
            Seen::Sound { .. } => assert_eq!(out.status, 0, "{what}: {words:?}: {}", out.err),
        }
        if i == 0 && !matches!(found, Seen::Refused(..)) {
            assert_eq!(out.text(), listing(image), "{what}: list");
        }
    }
    for words in [["salvage", "box.img", "out"], ["dump", "box.img", "out"]] {
        let _ = fs::remove_dir_all(stage.scratch.at("out"));
        stage.set(image);
        let (out, trace) = stage.tool(&words).shim(&stage.image, &Shim::default()).traced();
        tally.runs += 1;
        assert!(matches!(out.status, 0 | 1), "{what}: {words:?}: status {}: {}", out.status, out.err);
        assert!(trace.iter().all(|c| !c.is_store()), "{what}: {words:?} stores");
        unchanged(&words);
        if words[0] == "salvage" {
            assert_salvage(&out, image, &found, &behind, what);
        }
        if words[0] == "salvage" && matches!(found, Seen::Refused(10 | 22 | 23, _)) {
            for p in untouched(base, image) {
                let saved = fs::read(stage.scratch.at("out").join(hex(&p.name))).ok();
                assert!(saved == Some(p.bytes), "{what}: {} is untouched, and not salvaged: {}{}", hex(&p.name), out.text(), out.err);
                tally.salvaged += 1;
            }
        }
        if let (Seen::Sound { .. }, Some(map)) = (&found, &map) {
            assert_eq!(out.status, 0, "{what}: {words:?}: {}", out.err);
            for (n, bytes) in map {
                assert!(fs::read(stage.scratch.at("out").join(hex(n))).ok().as_ref() == Some(bytes), "{what}: {words:?}: {}", hex(n));
            }
        }
    }
    let changes: [&[&str]; 11] = [
        &["put", "box.img", NEXT, "next"],
        &["recover", "box.img"],
        &["remove", "box.img", A],
        &["resize", "box.img", B, "4000"],
        &["rename", "box.img", A, NEXT],
        &["write", "box.img", B, "100", "next"],
        &["append", "box.img", A, "next"],
        &["batch", "box.img", "lines"],
        &["restore", "folder", "box.img"],
        &["put", "box.img", A, "long"],
        &["load", "box.img", "monday"],
    ];
    // The first two on every image, of the others two in turn.
    let turn = 2 + tally.runs % 9;
    for words in [changes[0], changes[1], changes[turn], changes[2 + (turn + 3) % 9]] {
        let out = run(words);
        tally.runs += 1;
        match (&found, &map) {
            (Seen::Refused(..), _) => {
                assert_eq!((out.status, &*out.text()), (1, ""), "{what}: {words:?}: {}", out.err);
                assert_told(&out, image, &found, "", &format!("{what}: {words:?}"));
                unchanged(words);
            }
            (Seen::Recover(_), None) => {
                assert_eq!(out.status, 1, "{what}: {words:?}: a log whose redo does not open: {}", out.text());
                assert_told(&out, &behind, &look(&behind), NO_REDO, &format!("{what}: {words:?}"));
                unchanged(words);
            }
            _ => assert!(matches!(look(&stage.bytes()), Seen::Sound { .. }), "{what}: {words:?}: {}", listing(&stage.bytes())),
        }
        if words == changes[0] && out.status == 0 {
            let mut wanted = without_second(map.clone().unwrap());
            wanted.insert(name(NEXT), pattern(77, 700));
            assert_map(committed(&stage.bytes()), &wanted, &format!("{what}: put"));
        }
        if words[0] == "load" && out.status == 0 {
            let mut wanted = map.clone().unwrap();
            wanted.extend(CARDS.iter().map(|card| (name(card.1), cents(card.2))));
            assert_map(committed(&stage.bytes()), &wanted, &format!("{what}: load"));
        }
        if words[0] == "recover" && out.status == 0 {
            assert_map(committed(&stage.bytes()), map.as_ref().unwrap(), &format!("{what}: recover"));
        }
    }
    match (found, map) {
        (Seen::Sound { .. }, _) => tally.sound += 1,
        (Seen::Recover(_), Some(_)) => tally.pending += 1,
        (Seen::Recover(_), None) => tally.bad_log += 1,
        (Seen::Refused(..), _) => tally.refused += 1,
    }
    if let Seen::Refused(n, fault) = look(&behind) {
        tally.refusal(n, &told(&behind, n, fault));
    }
}

fn stage() -> Stage {
    let case = Case::new("damage", small_box(), &["list", "box.img"], |_| ());
    let case = case.file("long", &pattern(80, 35 * 512)).file(&format!("folder/{NEXT}"), &pattern(81, 600)).file("monday", &monday());
    Stage::new(case.file("lines", format!("rename {A} {NEXT}\ncreate {A}\nresize {A} 100\n").as_bytes()))
}

#[test]
fn changed_images() {
    let (bases, mut rng, mut tally) = (bases(), Rng(0x1234_5678_9abc_def1), Tally::default());
    let stage = stage();
    for (i, base) in bases.iter().enumerate() {
        examine(&stage, base, &format!("box {i}"), &mut tally);
    }
    examine(&stage, &bad_log(), "a log whose redo does not open", &mut tally);
    for i in 0..CHANGES {
        let mut image = bases[i % bases.len()].clone();
        change(&mut image, &mut rng);
        let kept = stage.scratch.at("examined.img");
        fs::write(&kept, &image).unwrap();
        examine_from(&stage, &bases[i % bases.len()], &image, &format!("changed image {i} ({})", path(&kept)), &mut tally);
    }
    eprintln!("{}", tally.kinds());
    let Tally { sound, pending, bad_log, refused, runs, salvaged, numbers, .. } = tally;
    eprintln!("{CHANGES} changed images, {runs} runs: {sound} sound, {pending} with a log, {bad_log} with a log that does not open, {refused} refused");
    eprintln!("  {salvaged} purses that were not touched were salvaged");
    assert!(sound > 50 && pending > 20 && bad_log > 10 && refused > 200 && salvaged > 100);
    assert!(numbers[&10] > 50 && numbers[&22] > 100 && numbers[&23] > 10);
}

/// Images damaged in the tables: each kind of damage, and each sentence of it.
#[test]
fn damaged_images() {
    let (bases, mut rng, mut tally) = (sound_bases(), Rng(0x0bad_b10c_0bad_b10d), Tally::default());
    let stage = stage();
    for i in 0..DAMAGES {
        let base = &bases[i % bases.len()];
        let image = damaged(base, &mut rng);
        let kept = stage.scratch.at("examined.img");
        fs::write(&kept, &image).unwrap();
        examine_from(&stage, base, &image, &format!("damaged image {i} ({})", path(&kept)), &mut tally);
    }
    eprintln!("{}", tally.kinds());
    let Tally { bad_log, refused, runs, salvaged, told, .. } = tally;
    eprintln!(
        "{DAMAGES} damaged images, {runs} runs: {bad_log} with a log that does not open, {refused} refused; {salvaged} purses salvaged"
    );
    assert!(bad_log > 20 && refused > 200 && salvaged > 100);
    assert!(SENTENCES[4..].iter().all(|kind| told.contains_key(kind)), "a kind of damage is missing");
}

/// Files that are no image at all.
#[test]
fn no_images() {
    let stage = stage();
    let mut tally = Tally::default();
    let mut odd = small_box();
    odd.pop();
    let mut long = small_box();
    long.push(0);
    let text = b"This is no box.\n".repeat(3000);
    for (what, bytes) in [
        ("an empty file", vec![]),
        ("one byte", vec![0]),
        ("one byte less", odd),
        ("one byte more", long),
        ("63 blocks", vec![0; 63 * BLOCK]),
        ("4,097 blocks", vec![0; 4097 * BLOCK]),
        ("zeros", vec![0; 64 * BLOCK]),
        ("ones", vec![0xff; 64 * BLOCK]),
        ("text", text[..80 * BLOCK].to_vec()),
        ("text of odd length", text),
    ] {
        examine(&stage, &bytes, what, &mut tally);
    }
    eprintln!("{} files that are no image, {} runs", tally.refused, tally.runs);
    assert_eq!(tally.refused, 10);
}
