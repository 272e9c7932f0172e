//! Makes one call of plain Rust so many times, and prints the last answer with the whole output,
//! which held a5 before. calls.c is the same for the library.

mod case;
mod plain;

use std::{env, process};

use case::{Case, PLAIN};

fn main() {
    let words: Vec<String> = env::args().skip(1).collect();
    let Some((mut case, calls)) = read(&words) else {
        eprintln!("usage: calls seal|open|damaged FORM KEY_BYTES MESSAGE_BYTES CALLS");
        process::exit(2);
    };
    print!("{} ", case.repeat(&PLAIN, calls));
    for byte in case.output() {
        print!("{byte:02x}");
    }
    println!();
}

fn read(words: &[String]) -> Option<(Case, usize)> {
    let (calls, case) = words.split_last()?;
    Some((Case::new(case)?, calls.parse().ok()?))
}
