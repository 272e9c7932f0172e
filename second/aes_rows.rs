//! The command `aes-rows`: two rows in each edition and form with AES in E's place.

use crate::aes::Aes;
use crate::data_pass::FirstMask;
use crate::edition::Edition::{self, First, Third};
use crate::form::Form::{Parallel, Serial};
use crate::rows::Row;
use crate::rules;

/// Few cipher calls in each: the library's checker computes these rows from its definitions.
pub fn command() -> String {
    [
        line(Third(Parallel), 16, 17, 0),
        line(Third(Parallel), 32, 16, 0),
        line(Third(Serial), 16, 1, 5),
        line(Third(Serial), 16, 16, 0),
        line(First, 16, 17, 0),
        line(First, 24, 16, 5),
    ]
    .concat()
}

/// `EDITION FORM KEYLEN MESSAGELEN DATALEN K T RUNS HEX` and the end of the line.
fn line(edition: Edition, key_bytes: usize, message: usize, data: usize) -> String {
    let aes = aes_by_rule(key_bytes);
    let row = Row {
        edition,
        message,
        data,
        k: 12,
        t: 16,
    };
    let rest = row.lengths_and_sealed(&|b| aes.cipher(b), FirstMask::Ciphered);
    format!("{} {} {}", edition.mode(), key_bytes, rest)
}

/// Only for the key lengths 16, 24 and 32.
fn aes_by_rule(key_bytes: usize) -> Aes {
    Aes::new(&rules::key(key_bytes)).expect("a key length of FIPS 197")
}
