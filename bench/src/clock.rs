//! Timing: both sides in turn, several rounds, the smallest of each: what else the machine does only adds.

use std::time::Instant;

/// Nanoseconds for one call, and how far the rounds lie apart (median over smallest, of the side where that is more).
#[derive(Clone, Copy)]
pub struct Pair {
    pub proved: f64,
    pub rust: f64,
    pub noise: f64,
}

fn timed(n: u64, first: bool, f: &mut impl FnMut(u64, bool)) -> f64 {
    let start = Instant::now();
    f(n, first);
    start.elapsed().as_nanos() as f64
}

/// As many calls as take about two milliseconds.
fn enough(first: bool, f: &mut impl FnMut(u64, bool)) -> u64 {
    let mut n = 1;
    while timed(n, first, f) < 2e6 {
        n *= 2;
    }
    n
}

pub fn spread(rounds: usize, mut f: impl FnMut(u64, bool)) -> Pair {
    let (a, b) = (enough(true, &mut f), enough(false, &mut f));
    let (mut xs, mut ys) = (Vec::new(), Vec::new());
    for _ in 0..rounds {
        xs.push(timed(a, true, &mut f) / a as f64);
        ys.push(timed(b, false, &mut f) / b as f64);
    }
    xs.sort_by(f64::total_cmp);
    ys.sort_by(f64::total_cmp);
    let noise = (xs[rounds / 2] / xs[0]).max(ys[rounds / 2] / ys[0]);
    Pair { proved: xs[0], rust: ys[0], noise }
}

#[derive(Default)]
pub struct Table {
    rows: usize,
    slower: usize,
}

impl Table {
    pub fn head(&self, title: &str) {
        println!("\n{title}\n{:<52}{:>12}{:>12}{:>8}{:>8}", "", "proved ns", "rust ns", "ratio", "spread");
    }

    pub fn row(&mut self, what: &str, p: Pair) {
        let ratio = p.rust / p.proved;
        self.rows += 1;
        self.slower += usize::from(ratio < 1.0);
        println!("{what:<52}{:>12.0}{:>12.0}{ratio:>8.2}{:>8.2}", p.proved, p.rust, p.noise);
    }

    pub fn note(&self, what: &str, n: f64) {
        println!("{what:<52}{n:>12.2}");
    }

    pub fn foot(&self) {
        println!("\n{} of {} rows have a ratio of at least 1.", self.rows - self.slower, self.rows);
    }
}
