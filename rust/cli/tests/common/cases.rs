//! Changing commands, each with a box, its map before and its map after: what the cuts, faults and races are tried on.

use super::*;

#[derive(Clone)]
pub struct Case {
    pub what: &'static str,
    pub image: Vec<u8>,
    /// The words behind `purse`. The image is `box.img` and files are beside it.
    pub words: Vec<String>,
    pub files: Vec<(String, Vec<u8>)>,
    /// Standard input is the file `file`.
    pub input: bool,
    pub before: Map,
    pub after: Map,
    /// Several transactions: a second purse may be there until the next put.
    pub long: bool,
    /// Each of these purses changes by itself, in this order: a cut leaves a first part of them changed.
    pub each: Vec<Name>,
}

impl Case {
    pub fn new(what: &'static str, image: Vec<u8>, words: &[&str], change: impl FnOnce(&mut Map)) -> Case {
        let before = without_second(map_of(&image));
        let mut after = before.clone();
        change(&mut after);
        let words = words.iter().map(|w| w.to_string()).collect();
        Case { what, image, words, files: Vec::new(), input: false, before, after, long: false, each: Vec::new() }
    }

    pub fn file(mut self, name: &str, bytes: &[u8]) -> Case {
        self.files.push((name.to_string(), bytes.to_vec()));
        self
    }

    /// The file `file` is standard input.
    pub fn input(mut self, bytes: &[u8]) -> Case {
        self.input = true;
        self.file("file", bytes)
    }

    pub fn long(mut self) -> Case {
        self.long = true;
        self
    }

    /// The maps of a change of several purses, one for each first part of them.
    pub fn parts(&self) -> Vec<Map> {
        let mut maps = vec![self.before.clone()];
        for n in &self.each {
            let mut next = maps.last().unwrap().clone();
            next.insert(*n, self.after[n].clone());
            maps.push(next);
        }
        maps
    }
}

/// A case in a folder of its own.
pub struct Stage {
    pub case: Case,
    pub scratch: Scratch,
    pub image: PathBuf,
}

impl Stage {
    pub fn new(case: Case) -> Stage {
        let scratch = Scratch::new("case");
        for (name, bytes) in &case.files {
            let at = scratch.at(name);
            fs::create_dir_all(at.parent().unwrap()).unwrap();
            fs::write(at, bytes).unwrap();
        }
        scratch.file("next", &pattern(77, 700));
        let image = scratch.at("box.img");
        Stage { case, scratch, image }
    }

    pub fn set(&self, bytes: &[u8]) {
        fs::write(&self.image, bytes).unwrap();
    }

    pub fn reset(&self) {
        self.set(&self.case.image);
    }

    pub fn bytes(&self) -> Vec<u8> {
        fs::read(&self.image).unwrap()
    }

    pub fn tool(&self, words: &[&str]) -> Tool {
        let tool = tool(words).folder(&self.scratch.path);
        if self.case.input && words.contains(&"-") {
            tool.stdin(File::open(self.scratch.at("file")).unwrap())
        } else {
            tool
        }
    }

    pub fn command(&self) -> Tool {
        let words: Vec<&str> = self.case.words.iter().map(String::as_str).collect();
        self.tool(&words)
    }

    /// The command with a disturbance, from the case's box on.
    pub fn disturbed(&self, at: usize, what: &str) -> (Out, Vec<Call>) {
        self.reset();
        self.command().shim(&self.image, &Shim { at, what: what.to_string(), ..Shim::default() }).traced()
    }

    /// The command undisturbed, with its trace; the box is then as the case says.
    pub fn whole(&self) -> (Out, Vec<Call>) {
        let (out, trace) = self.disturbed(0, "");
        let what = self.case.what;
        assert_eq!(out.status, 0, "{what}: {}", out.err);
        assert!(matches!(look(&self.bytes()), Seen::Sound { .. }), "{what}: {}", listing(&self.bytes()));
        assert_map(committed(&self.bytes()), &self.case.after, what);
        (out, trace)
    }

    /// Recovers and gives the map.
    pub fn recovered(&self, what: &str) -> Map {
        let out = self.tool(&["recover", "box.img"]).run();
        assert_eq!(out.status, 0, "{what}: recover: {}", out.err);
        let bytes = self.bytes();
        assert!(matches!(look(&bytes), Seen::Sound { .. }), "{what}: {}behind recover", listing(&bytes));
        map_of(&bytes)
    }
}

/// The part of `map` that a cut may have left: without the second purse where there may be one.
pub fn seen(case: &Case, map: Map) -> Map {
    if case.long {
        without_second(map)
    } else {
        map
    }
}

fn set(n: &str, bytes: Vec<u8>) -> impl FnOnce(&mut Map) {
    let n = name(n);
    move |m| {
        m.insert(n, bytes);
    }
}

/// The box with a log pending whose recovery gives `after`; one block of it is stored already.
fn cut_box(before: &[u8], change: impl FnOnce(&mut Vec<u8>)) -> Vec<u8> {
    let mut after = before.to_vec();
    change(&mut after);
    pending(before, &after, 1)
}

fn logged_box() -> Vec<u8> {
    cut_box(&small_box(), |image| add(image, name(D), &pattern(9, 900), None))
}

/// A box of `wide_box` in which a long put was cut: a second purse is left.
pub fn left_over_box(blocks: usize, left: usize) -> Vec<u8> {
    let mut image = wide_box(blocks);
    add(&mut image, SECOND, &pattern(8, left * 512), None);
    image
}

/// One transaction each.
pub fn short_cases() -> Vec<Case> {
    let put = |n| ["put", "box.img", n, "file"];
    let mut list = vec![
        Case::new("put a new purse", small_box(), &put(D), set(D, pattern(20, 600))).file("file", &pattern(20, 600)),
        Case::new("put in place of a purse", small_box(), &put(A), set(A, pattern(21, 2000))).file("file", &pattern(21, 2000)),
        Case::new("put from standard input", small_box(), &["put", "box.img", A, "-"], set(A, pattern(26, 900))).input(&pattern(26, 900)),
        Case::new("append from standard input", small_box(), &["append", "box.img", C, "-"], set(C, pattern(27, 20)))
            .input(&pattern(27, 20)),
        Case::new("put an empty purse", small_box(), &put(B), set(B, vec![])).file("file", b""),
        Case::new("remove", small_box(), &["remove", "box.img", B], |m| {
            m.remove(&name(B));
        }),
        Case::new("remove with an extent block", wide_box(128), &["remove", "box.img", D], |m| {
            m.remove(&name(D));
        }),
        Case::new("rename", small_box(), &["rename", "box.img", A, D], |m| {
            let bytes = m.remove(&name(A)).unwrap();
            m.insert(name(D), bytes);
        }),
        Case::new("resize up", small_box(), &["resize", "box.img", A, "3000"], |m| m.get_mut(&name(A)).unwrap().resize(3000, 0)),
        Case::new("resize down", small_box(), &["resize", "box.img", A, "100"], |m| m.get_mut(&name(A)).unwrap().truncate(100)),
        Case::new("resize down from an extent block", wide_box(128), &["resize", "box.img", D, "1600"], |m| {
            m.get_mut(&name(D)).unwrap().truncate(1600)
        }),
        Case::new("write", small_box(), &["write", "box.img", B, "1000", "file"], |m| {
            m.get_mut(&name(B)).unwrap()[1000..1400].copy_from_slice(&pattern(22, 400))
        })
        .file("file", &pattern(22, 400)),
        Case::new("write behind the end", small_box(), &["write", "box.img", C, "700", "file"], |m| {
            let bytes = m.get_mut(&name(C)).unwrap();
            bytes.resize(700, 0);
            bytes.extend(pattern(23, 10));
        })
        .file("file", &pattern(23, 10)),
        Case::new("append", small_box(), &["append", "box.img", A, "file"], |m| m.get_mut(&name(A)).unwrap().extend(pattern(24, 600)))
            .file("file", &pattern(24, 600)),
        Case::new("batch", small_box(), &["batch", "box.img", "lines"], |m| {
            let bytes = m.remove(&name(B)).unwrap();
            m.insert(name(D), bytes);
            m.remove(&name(E));
            m.get_mut(&name(A)).unwrap().truncate(700);
            let mut new = vec![0; 5];
            new.extend(pattern(25, 300));
            m.insert(name(B), new);
        })
        .file("part", &pattern(25, 300))
        .file("lines", format!("# a sale\n\nrename {B} {D}\nremove {E}\ncreate {B}\nwrite {B} 5 part\nresize {A} 700\n").as_bytes()),
        Case::new("recover", logged_box(), &["recover", "box.img"], |_| ()),
        Case::new("load a line", small_box(), &["load", "box.img", "monday"], set(CARDS[0].1, cents(CARDS[0].2)))
            .file("monday", CARDS[0].0.as_bytes()),
        Case::new("load from standard input", small_box(), &["load", "box.img", "-"], set(CARDS[1].1, cents(CARDS[1].2)))
            .input(CARDS[1].0.as_bytes()),
        Case::new("load from a line on", small_box(), &["load", "box.img", "monday", "4"], set(CARDS[3].1, cents(CARDS[3].2)))
            .file("monday", &monday()),
    ];
    list.extend(logged_cases());
    list
}

/// Changes on a box with a pending log.
fn logged_cases() -> Vec<Case> {
    vec![
        Case::new("put with a log pending", logged_box(), &["put", "box.img", A, "file"], set(A, pattern(30, 800)))
            .file("file", &pattern(30, 800)),
        Case::new("remove with a log pending", logged_box(), &["remove", "box.img", D], |m| {
            m.remove(&name(D));
        }),
        Case::new("rename with a log pending", logged_box(), &["rename", "box.img", D, NEXT], |m| {
            let bytes = m.remove(&name(D)).unwrap();
            m.insert(name(NEXT), bytes);
        }),
        Case::new("resize with a log pending", logged_box(), &["resize", "box.img", D, "1025"], |m| {
            m.get_mut(&name(D)).unwrap().resize(1025, 0)
        }),
        Case::new("write with a log pending", logged_box(), &["write", "box.img", D, "0", "file"], |m| {
            m.get_mut(&name(D)).unwrap()[..9].copy_from_slice(&pattern(31, 9))
        })
        .file("file", &pattern(31, 9)),
        Case::new("append with a log pending", logged_box(), &["append", "box.img", D, "file"], |m| {
            m.get_mut(&name(D)).unwrap().extend(pattern(32, 200))
        })
        .file("file", &pattern(32, 200)),
        Case::new("batch with a log pending", logged_box(), &["batch", "box.img", "lines"], |m| {
            m.remove(&name(A));
            m.get_mut(&name(D)).unwrap().truncate(1);
        })
        .file("lines", format!("remove {A}\nresize {D} 1\n").as_bytes()),
        Case::new("load with a log pending", logged_box(), &["load", "box.img", "monday"], set(CARDS[2].1, cents(CARDS[2].2)))
            .file("monday", CARDS[2].0.as_bytes()),
    ]
}

/// Lines of a Monday file: line, name, cents.
pub const CARDS: [(&str, &str, u64); 4] = [
    ("04A1B2C3;H;1250\n", "0404A1B2C3000000", 1250),
    ("69495546249912580;D;5\n", "0704A1B2C3D4E5F6", 5),
    ("80E91F04;H;99999999\n", "0480E91F04000000", 99_999_999),
    ("0000000000;D;0\n", "0400000000000000", 0),
];

/// The bytes of an amount.
pub fn cents(n: u64) -> Vec<u8> {
    n.to_le_bytes().to_vec()
}

/// All four lines.
pub fn monday() -> Vec<u8> {
    CARDS.iter().flat_map(|card| card.0.bytes()).collect()
}

/// A load of several lines: each is a transaction of its own.
pub fn load_case() -> Case {
    let mut case = Case::new("load", small_box(), &["load", "box.img", "monday"], |m| {
        m.extend(CARDS.iter().map(|card| (name(card.1), cents(card.2))))
    });
    case.each = CARDS.iter().map(|card| name(card.1)).collect();
    case.file("monday", &monday())
}

/// The most of one transaction: 30 blocks of data.
pub fn full_case() -> Case {
    let bytes = pattern(40, 30 * 512 - 9);
    Case::new("put of 30 blocks", wide_box(160), &["put", "box.img", NEXT, "file"], set(NEXT, bytes.clone())).file("file", &bytes)
}

/// Puts through a second purse.
pub fn long_cases() -> Vec<Case> {
    let new = pattern(50, 70 * 512 - 17);
    let over = pattern(51, 65 * 512);
    vec![
        Case::new("long put of a new purse", wide_box(256), &["put", "box.img", NEXT, "file"], set(NEXT, new.clone()))
            .file("file", &new)
            .long(),
        Case::new("long put in place of a purse", wide_box(256), &["put", "box.img", E, "file"], set(E, over.clone()))
            .file("file", &over)
            .long(),
        Case::new("long put behind a cut one", left_over_box(256, 50), &["put", "box.img", D, "file"], set(D, over.clone()))
            .file("file", &over)
            .long(),
        Case::new("short put behind a cut long one", left_over_box(256, 50), &["put", "box.img", D, "file"], set(D, pattern(52, 900)))
            .file("file", &pattern(52, 900))
            .long(),
    ]
}

/// A folder put back: some purses new, some in place of old ones, one of them long.
pub fn restore_case() -> Case {
    let files = [(A, pattern(60, 300)), (C, pattern(61, 1000)), (E, pattern(62, 45 * 512)), (NEXT, pattern(63, 5))];
    let mut list = files.to_vec();
    list.sort();
    let mut case = Case::new("restore", wide_box(256), &["restore", "folder", "box.img"], |m| {
        m.extend(files.iter().map(|(n, b)| (name(n), b.clone())))
    });
    for (n, bytes) in &list {
        case = case.file(&format!("folder/{n}"), bytes);
    }
    case.each = list.iter().map(|f| name(f.0)).collect();
    case.long()
}
