//! `compare LISTS [SEED]`: runs so many lists of calls on both stores. Exit status 1 at the first
//! difference.

use compare::{lists, table};
use std::env;
use std::process::ExitCode;

fn main() -> ExitCode {
    let numbers: Vec<u64> = env::args().skip(1).filter_map(|a| a.parse().ok()).collect();
    let (count, seed) = match numbers[..] {
        [count] => (count, 1),
        [count, seed] => (count, seed),
        _ => {
            eprintln!("usage: compare LISTS [SEED]");
            return ExitCode::from(2);
        }
    };
    println!("seed {seed}");
    match table::run(count, seed) {
        Ok(tally) => {
            tally.print(count);
            println!("differences 0");
            ExitCode::SUCCESS
        }
        Err((seed, fault)) => {
            println!("the list of seed {seed} (compare 1 {seed}):");
            let _ = std::panic::catch_unwind(|| lists::run(seed, true));
            println!("difference: {fault}");
            ExitCode::FAILURE
        }
    }
}
