//! Times the library against plain Rust, both in one process, and prints the library's rate in
//! thousandths of plain Rust's, one line for each pair of batches. The two batches of a pair run
//! side by side, so that what slows the machine down slows both, and each comes first in every
//! other pair. How the output lies to the input in a page changes the time by some per cent, so
//! that each pair has a place of its own.

mod case;
mod library;
mod plain;

use std::time::{Duration, Instant};
use std::{env, process};

use case::{Case, Implementation, LAST_PLACE, PLAIN};

const LIBRARY: Implementation = Implementation {
    seal: library::seal,
    open: library::open,
};

const PAIRS: usize = 20;
/// What plain Rust's batches last at least.
const BATCH: Duration = Duration::from_millis(5);

fn main() {
    let words: Vec<String> = env::args().skip(1).collect();
    let Some(mut case) = Case::new(&words) else {
        eprintln!("usage: time seal|open|damaged FORM KEY_BYTES MESSAGE_BYTES");
        process::exit(2);
    };
    let calls = calls_in_batch(&mut case);
    for pair in 0..PAIRS {
        case.place = LAST_PLACE * pair / PAIRS / 16 * 16;
        println!("{}", rate(&mut case, calls, pair % 2 == 0));
    }
}

fn calls_in_batch(case: &mut Case) -> usize {
    let mut calls = 1;
    while time(case, &PLAIN, calls) < BATCH {
        calls *= 2;
    }
    calls
}

fn rate(case: &mut Case, calls: usize, library_first: bool) -> u128 {
    let (library, plain) = if library_first {
        let library = time(case, &LIBRARY, calls);
        (library, time(case, &PLAIN, calls))
    } else {
        let plain = time(case, &PLAIN, calls);
        (time(case, &LIBRARY, calls), plain)
    };
    1000 * plain.as_nanos() / library.as_nanos()
}

fn time(case: &mut Case, implementation: &Implementation, calls: usize) -> Duration {
    let start = Instant::now();
    case.repeat(implementation, calls);
    start.elapsed()
}
