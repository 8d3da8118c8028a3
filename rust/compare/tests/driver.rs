//! Three hundred lists, and the driver's own parts.

use compare::cards::{cards_of, converted, line_at, read, Card, Converted};
use compare::faults;
use compare::image::{bit, map_of, mix_records, name_of, record_place, records, set_bit, sound_device, File, Shape};
use compare::monday;
use compare::pair::CONVERT;
use compare::rng::Rng;
use compare::table;
use compare::verdict::{self, bit_due, damage_of, file_of, times_reached};
use plain::sound::{check, Damage, Rule};
use std::collections::{BTreeMap, BTreeSet};

#[test]
fn three_hundred_lists() {
    let tally = table::run(300, 1).unwrap_or_else(|(seed, fault)| panic!("the list of seed {seed}: {fault}"));
    for number in [1, 2, 12, 14, 15, 16, 20, 21] {
        assert!(tally.refused_steps[number] > 0, "no step of a load was refused with {number}");
    }
    assert!(tally.lines > 100, "{} lines", tally.lines);
    for number in [20, 21, 24, 25] {
        assert!(tally.refused_conversions[number] > 20, "few conversions were refused with {number}");
    }
    assert!(tally.accepted[CONVERT] > 1000, "{} conversions", tally.accepted[CONVERT]);
    assert!(tally.refused[22] > 300 && tally.refused[23] > 200, "{} and {}", tally.refused[22], tally.refused[23]);
    assert_eq!(tally.refused[11], 0, "11 no longer occurs");
}

#[test]
fn lists_repeat() {
    let once = table::run(20, 77).unwrap();
    let again = table::run(20, 77).unwrap();
    assert_eq!((once.calls, once.cuts, once.refused), (again.calls, again.cuts, again.refused));
    assert_eq!((once.lines, once.refused_steps), (again.lines, again.refused_steps));
    assert_eq!((once.accepted, once.refused_conversions), (again.accepted, again.refused_conversions));
}

#[test]
fn cards_are_spelled() {
    let four = Card { serial: vec![0x04, 0xa1, 0xb2, 0xc3], amount: 1250 };
    assert_eq!((four.spell('H'), four.spell('D')), ("04A1B2C3;H;1250".into(), "3283263748;D;1250".into()));
    assert_eq!((four.name(), four.content()), ([4, 4, 0xa1, 0xb2, 0xc3, 0, 0, 0], [0xe2, 4, 0, 0, 0, 0, 0, 0]));
    let seven = Card { serial: vec![0x04, 0xa1, 0xb2, 0xc3, 0xd4, 0xe5, 0xf6], amount: 0 };
    assert_eq!((seven.spell('H'), seven.spell('D')), ("04A1B2C3D4E5F6;H;0".into(), "69495546249912580;D;0".into()));
    assert_eq!(seven.name(), [7, 4, 0xa1, 0xb2, 0xc3, 0xd4, 0xe5, 0xf6]);
    for card in [&four, &seven] {
        assert_eq!(read(card.spell('H').as_bytes()).as_ref(), Some(card));
        assert_eq!(read(card.spell('D').as_bytes()).as_ref(), Some(card));
    }
    for line in ["", ";H;1", "04a1b2c3;H;1", "04A1B2C3;h;1", "04A1B2C3;H;01", "04A1B2C3;H;+1", "04A1B2C3;H;100000000", "04A1B2C3;H"] {
        assert_eq!(read(line.as_bytes()), None, "{line}");
    }
    for line in ["4294967296;D;1", "72057594037927936;D;1", "+283263748;D;1", "04A1B2C3;HH;1", "04A1B2C3;H;1;1", "+4A1B2C3;H;1"] {
        assert_eq!(read(line.as_bytes()), None, "{line}");
    }
}

#[test]
fn lines_at_places() {
    let text = b"04A1B2C3;H;1250\n\n04A1";
    let told = |place| line_at(text, place).map(|l| (l.number, l.end, l.card.err()));
    assert_eq!(told(0), Some((1, 16, None)));
    assert_eq!(told(1), Some((1, 16, Some(21))));
    assert_eq!(told(15), Some((1, 16, Some(21))));
    assert_eq!(told(16), Some((2, 17, Some(21))));
    assert_eq!(told(17), Some((3, 21, Some(21))));
    assert_eq!((told(21), told(22), told(usize::MAX)), (None, None, None));
}

#[test]
fn lines_are_converted() {
    let told = |text: &str, wanted| converted(text.as_bytes(), wanted);
    let due = |output: &str, refused| Converted { output: output.into(), refused };
    let (h, d) = ("04A1B2C3;H;1250\n01000000000000;H;0\n", "3283263748;D;1250\n00000000000000001;D;0\n");
    assert_eq!((told(h, 'D'), told(d, 'H')), (due(d, None), due(h, None)));
    assert_eq!((told(h, 'H'), told(d, 'D')), (due("", Some((24, 1))), due("", Some((24, 1)))));
    assert_eq!(told(&format!("{h}{d}"), 'D'), due(d, Some((24, 3))));
    assert_eq!(told(&format!("{h}\n{d}"), 'D'), due(d, Some((21, 3))));
    assert_eq!(told(&format!("{d}{d:0<99}"), 'H'), due(&h.repeat(2), Some((21, 5))));
    assert_eq!(told(&format!("{d}{:65}{h}", ""), 'H'), due(h, Some((20, 3))));
    assert_eq!(told(h.trim_end(), 'D'), due("3283263748;D;1250\n", Some((21, 2))));
    assert_eq!((told("", 'H'), told("\n", 'H')), (due("", None), due("", Some((21, 1)))));
    assert_eq!(cards_of(h.as_bytes()), cards_of(d.as_bytes()));
    assert_eq!((cards_of(h.as_bytes()).map(|c| c.len()), cards_of(b"\n")), (Ok(2), Err(21)));
}

/// Files that are accepted, short and long, and each refusal of a line at the first one and behind others.
#[test]
fn files_to_convert_are_of_every_kind() {
    let mut rng = Rng::new(4);
    let (mut accepted, mut first, mut later) = ([0; 301], [0; 25], [0; 25]);
    for i in 0..4000 {
        let wanted = ['H', 'D'][i % 2];
        let text = monday::to_convert(&mut rng, wanted, &[]);
        match converted(&text, wanted).refused {
            None => accepted[cards_of(&text).unwrap().len()] += 1,
            Some((number, 1)) => first[number as usize] += 1,
            Some((number, _)) => later[number as usize] += 1,
        }
    }
    assert!([0, 1, 2, 12, 300].iter().all(|&n| accepted[n] > 10), "{accepted:?}");
    assert!([20, 21, 24].iter().all(|&n| first[n] > 20 && later[n] > 20), "{first:?} {later:?}");
}

/// Right lines and lines of 64 and 65 bytes, with and without a feed.
#[test]
fn files_are_of_every_kind() {
    let mut rng = Rng::new(3);
    let (mut right, mut lengths, mut open) = ([0; 18], [0; 67], 0);
    for _ in 0..4000 {
        let text = monday::file(&mut rng, &[]);
        open += !text.is_empty() as usize - text.ends_with(b"\n") as usize;
        for line in text.split(|&x| x == b'\n') {
            lengths[line.len().min(66)] += 1;
            right[read(line).map_or(0, |card| card.spell('D').find(';').unwrap())] += 1;
        }
    }
    assert!(right[10] > 1000 && right[17] > 1000 && open > 100);
    assert!([0, 63, 64, 65, 66].iter().all(|&n| lengths[n] > 20), "{lengths:?}");
}

#[test]
fn images_are_sound() {
    for seed in 0..60 {
        let mut rng = Rng::new(seed);
        let blocks = rng.range(64, 1200) as usize;
        let (files, stretch) = (rng.range(1, 5) as usize, rng.range(1, 4));
        let shape = Shape { blocks, files, empty: 2, stretch, spare: seed % 4, mixed: seed % 2 == 0, turns: seed % 3 == 0 };
        let device = sound_device(&mut rng, &shape);
        assert_eq!((plain::sound::check_whole(&device), verdict::sound_whole(&device)), (Ok(()), Ok(())), "{shape:?}");
        assert_eq!(map_of(&device).len(), files + 2);
        let mut mixed = device.clone();
        mix_records(&mut rng, &mut mixed);
        assert_eq!(verdict::sound_whole(&mixed), Ok(()), "{shape:?}");
        assert_eq!(map_of(&mixed), map_of(&device));
    }
}

#[test]
fn images_reach_the_limit_of_extents() {
    let shape = Shape { blocks: 1100, files: 2, empty: 0, stretch: 1, spare: 0, mixed: false, turns: true };
    let device = sound_device(&mut Rng::new(5), &shape);
    let (work, mut session) = (vec![0; plain::WORK_SIZE], plain::Session::never_opened());
    plain::open(&device, &mut session).unwrap();
    let last = plain::nth_extent(&device, &work, &session, &name_of(0), 0, u64::MAX, 511).unwrap();
    assert!(last.is_some());
}

/// Three files of a device of 64 blocks: 600 bytes in record 2, five single blocks in record 5, nothing in record 9.
fn three_files() -> Vec<u8> {
    let mut d = vec![0; 64 * plain::BLOCK];
    (0..4096).for_each(|b| set_bit(&mut d, b, !(42..64).contains(&b)));
    let five = File { name: [0x42; 8], size: 2560, blocks: vec![44, 46, 48, 50, 52], nodes: vec![54] };
    File { name: [1, 2, 3, 4, 5, 6, 7, 8], size: 600, blocks: vec![42, 43], nodes: vec![] }.put(&mut d, 2);
    five.put(&mut d, 5);
    File { name: [0x43; 8], size: 0, blocks: vec![], nodes: vec![] }.put(&mut d, 9);
    d
}

/// What the verdict is once some bytes of `three_files` are changed and the bits of some blocks are turned.
fn told(bytes: &[(usize, &[u8])], bits: &[usize]) -> Option<(u32, u64)> {
    let mut d = three_files();
    bytes.iter().for_each(|(at, x)| d[*at..at + x.len()].copy_from_slice(x));
    bits.iter().for_each(|&b| set_bit(&mut d, b, !bit(&three_files(), b)));
    damage_of(&d)
}

#[test]
fn verdicts() {
    let name = [1, 2, 3, 4, 5, 6, 7, 8];
    let record = |i| record_place(i).start;
    let (slots, leaf) = (record(2) + 16, 54 * plain::BLOCK);
    let twice: (usize, &[u8]) = (slots, &[43, 0, 1, 0, 43, 0, 1, 0]);
    assert_eq!(told(&[], &[]), None);
    assert_eq!(told(&[(record(5), &name)], &[]), Some((22, 5)));
    assert_eq!(told(&[(record(5), &name), (record(9), &name)], &[]), Some((22, 5)));
    assert_eq!(told(&[(record(5), &name), (record(3) + 20, &[1])], &[]), Some((22, 3)));
    assert_eq!(told(&[(slots, &[41])], &[]), Some((22, 2)));
    assert_eq!(told(&[(slots, &[42, 0, 1, 0, 43, 0, 1, 0])], &[]), Some((22, 2)));
    assert_eq!((told(&[twice], &[]), told(&[twice], &[42])), (Some((23, 42)), Some((23, 43))));
    assert_eq!((told(&[twice], &[42, 43]), told(&[twice], &[42, 5])), (Some((23, 43)), Some((23, 5))));
    assert_eq!((told(&[(leaf, &[54])], &[]), told(&[(leaf, &[54])], &[44])), (Some((23, 44)), Some((23, 54))));
    assert_eq!(told(&[(43 * plain::BLOCK + 88, &[1])], &[0]), Some((22, 2)));
    assert_eq!(told(&[(record(5) + 12, &[0])], &[]), Some((23, 44)));
    for b in [0, 41, 42, 43, 54, 60, 63, 64, 100, 4095] {
        assert_eq!(told(&[], &[b]), Some((23, b as u64)));
    }
    assert_eq!(damage_of(&[0; 64 * plain::BLOCK]), Some((23, 0)));
}

/// The number of later records with the name of an earlier one.
fn later_ones(device: &[u8]) -> usize {
    let names: Vec<_> = records(device).map(|r| &r[..8]).filter(|name| **name != [0; 8]).collect();
    names.len() - names.iter().collect::<BTreeSet<_>>().len()
}

/// What is to be seen in a device with a damaged record, where the lowest one breaks a rule.
fn kinds_of_records(device: &[u8], rule: Rule) -> Vec<&'static str> {
    let index = [Rule::S2, Rule::S3, Rule::S4, Rule::S5, Rule::S6, Rule::S8].iter().position(|r| *r == rule).unwrap();
    let mut kinds = vec![["S2", "S3", "S4", "S5", "S6", "S8"][index]];
    let alone = records(device).filter(|r| **r != [0; 32] && file_of(device, r).is_none()).count();
    let mut add = |holds: bool, kind| kinds.extend(holds.then_some(kind));
    add(alone > 1, "several records by themselves");
    add(later_ones(device) > 1, "several equal names");
    add(later_ones(device) > 0 && rule != Rule::S2, "an equal name behind another fault");
    add(later_ones(device) > 0 && rule == Rule::S2 && alone > 0, "an equal name beside another fault");
    add((0..4096).any(|b| bit_due(&[0; 4096], b, device.len() / plain::BLOCK) && !bit(device, b)), "a record and a bit");
    kinds
}

/// What is to be seen in a device where all records are fine.
fn kinds_of_blocks(device: &[u8], times: &[usize], told: usize) -> Vec<&'static str> {
    let n = device.len() / plain::BLOCK;
    let wrong = |b: &usize| bit(device, *b) != bit_due(times, *b, n);
    let (bits, twice): (Vec<usize>, Vec<usize>) = ((0..4096).filter(wrong).collect(), (0..4096).filter(|&b| times[b] > 1).collect());
    let files: Vec<File> = records(device).filter_map(|r| file_of(device, r)).collect();
    let all = |f: &File| f.blocks.iter().chain(&f.nodes).copied().collect::<Vec<usize>>();
    let mut kinds = vec![match told {
        0..=41 => "below 42",
        _ if told < n => "data area",
        _ => "from N up",
    }];
    let mut add = |holds: bool, kind| kinds.extend(holds.then_some(kind));
    let is_node = |b: &usize| files.iter().any(|f| f.nodes.contains(b));
    add(files.iter().any(|f| all(f).iter().collect::<BTreeSet<_>>().len() < all(f).len()), "twice in one file");
    add(
        files.iter().map(|f| all(f).into_iter().collect::<BTreeSet<_>>().len()).sum::<usize>() > times.iter().filter(|&&t| t > 0).count(),
        "twice by two files",
    );
    add(twice.iter().any(is_node), "extent block reached twice");
    add(twice.first() == Some(&told) && bits.is_empty(), "doubled alone");
    add(twice.first() == Some(&told) && bits.first() == Some(&told), "doubled, not marked");
    add(twice.first() == Some(&told) && bits.first() > Some(&told), "doubled below a wrong bit");
    add(bits.first() == Some(&told) && twice.first() > Some(&told), "wrong bit below a doubled block");
    add(bits.len() > 1, "several bits");
    kinds
}

/// Each rule by itself, several faults in one device, below and above each other; also behind a log.
#[test]
fn faults_are_of_every_kind() {
    let mut seen: BTreeMap<&str, usize> = BTreeMap::new();
    for seed in 0..6000 {
        let rng = &mut Rng::new(seed);
        let blocks = if seed % 40 == 0 { 1100 } else { rng.range(64, 200) as usize };
        let (files, turns) = (rng.range(1, 4) as usize, rng.one_in(2));
        let stretch = rng.range(1, 4);
        let shape = Shape { blocks, files, empty: 2, stretch, spare: rng.below(4), mixed: !turns, turns };
        let mut device = sound_device(rng, &shape);
        mix_records(rng, &mut device);
        faults::several(rng, &mut device);
        let told = damage_of(&device);
        let kinds = match check(&device) {
            Ok(()) => vec!["none"],
            Err(Damage::Record(i, rule)) => {
                assert_eq!(told, Some((22, i as u64)));
                kinds_of_records(&device, rule)
            }
            Err(Damage::Block(b, _)) => {
                assert_eq!(told, Some((23, b as u64)));
                kinds_of_blocks(&device, &times_reached(&device).unwrap(), b)
            }
        };
        assert_eq!(told.is_none(), kinds == ["none"]);
        kinds.into_iter().for_each(|kind| *seen.entry(kind).or_default() += 1);
    }
    println!("{seen:?}");
    assert!(seen.values().all(|&n| n > 40), "{seen:?}");
    assert_eq!(seen.len(), 23, "{seen:?}");
}

/// What open tells behind a recovery whose log brings faults.
#[test]
fn logs_bring_faults() {
    let mut told = [0; 24];
    for seed in 0..1500 {
        let rng = &mut Rng::new(seed);
        let shape = Shape { blocks: rng.range(64, 128) as usize, files: 3, empty: 2, stretch: 2, spare: 3, mixed: true, turns: false };
        let sound = sound_device(rng, &shape);
        let mut faulty = sound.clone();
        faults::several(rng, &mut faulty);
        let mut device = faults::with_log(rng, &sound, &faulty);
        let (work, mut session) = (vec![0; plain::WORK_SIZE], plain::Session::never_opened());
        assert_eq!(plain::open(&device, &mut session), Ok(()));
        assert_eq!(session.phase, plain::Phase::Recovering(0));
        while plain::advance(&mut device, &work, &mut session).unwrap().is_some() {}
        told[damage_of(&device).map_or(0, |t| t.0 as usize)] += 1;
    }
    assert!(told[0] > 100 && told[22] > 100 && told[23] > 100, "{told:?}");
}
