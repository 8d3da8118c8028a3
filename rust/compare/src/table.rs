//! Many lists, and the table at the end.

use crate::lists;
use crate::pair::Tally;
use std::panic::catch_unwind;

const CALLS: [&str; 19] = [
    "format",
    "open",
    "advance",
    "commit",
    "abort",
    "create",
    "remove",
    "rename",
    "write",
    "set-size",
    "read",
    "size",
    "free count",
    "record i",
    "run list",
    "n-th extent",
    "load begin",
    "load step",
    "convert",
];

/// The numbers of the papers so far.
const NUMBERS: [usize; 19] = [1, 2, 3, 4, 10, 12, 13, 14, 15, 16, 17, 18, 19, 20, 21, 22, 23, 24, 25];

impl Tally {
    fn add(&mut self, other: &Tally) {
        self.calls += other.calls;
        self.cuts += other.cuts;
        self.tampered += other.tampered;
        self.most_extents = self.most_extents.max(other.most_extents);
        self.lines += other.lines;
        self.refused_steps.iter_mut().zip(other.refused_steps).for_each(|(a, b)| *a += b);
        self.refused_conversions.iter_mut().zip(other.refused_conversions).for_each(|(a, b)| *a += b);
        self.refused.iter_mut().zip(other.refused).for_each(|(a, b)| *a += b);
        self.accepted.iter_mut().zip(other.accepted).for_each(|(a, b)| *a += b);
    }

    pub fn print(&self, lists: u64) {
        println!("lists {lists}");
        println!("calls {}", self.calls);
        println!("cuts {}", self.cuts);
        println!("tampered calls {}", self.tampered);
        println!("most extents of a file {}", self.most_extents);
        println!("lines taken up {}", self.lines);
        for (name, n) in CALLS.iter().zip(self.accepted) {
            println!("accepted {name:<12} {n:>9}");
        }
        for number in NUMBERS {
            println!("refused {number:>2} {:>9}", self.refused[number]);
        }
        for (what, refused) in [("a load step", &self.refused_steps), ("a conversion", &self.refused_conversions)] {
            for (number, n) in refused.iter().enumerate().filter(|(_, n)| **n > 0) {
                println!("refused {number:>2} {n:>9} as {what}");
            }
        }
    }
}

/// Runs lists of consecutive seeds. A fault is told with the seed of its list alone; a panic is one too.
pub fn run(lists: u64, seed: u64) -> Result<Tally, (u64, String)> {
    let mut total = Tally::default();
    for seed in seed..seed + lists {
        let (tally, result) = catch_unwind(|| lists::run(seed, false)).map_err(|_| (seed, "a panic".to_string()))?;
        total.add(&tally);
        result.map_err(|fault| (seed, fault))?;
    }
    Ok(total)
}
