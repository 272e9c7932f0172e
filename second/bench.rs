//! The commands `night` and `bench`: what the benchmark's programs must print.

use crate::edition::{Mode, THIRD_PARALLEL};
use crate::failure::{bad_input, Failure};
use crate::hex;
use crate::key::Key;
use crate::request::{Kind, Request};
use crate::rules;

const TAG_BYTES: usize = 16;

/// `NUMBER LENGTH RUNS TAG`, as the program told `prepared 16 64 3`.
pub fn night() -> String {
    let raw = sealing(THIRD_PARALLEL, 16, 64);
    let (answer, output) = raw.under_record(|_| ()).call();
    let tag = hex::encode(&output[answer.length - TAG_BYTES..answer.length]);
    format!(
        "{} {} {} {tag}\n",
        answer.number, answer.length, answer.runs
    )
}

/// `NUMBER OUTPUT`, as the program told `EDITION seal FORM KEY_BYTES MESSAGE_BYTES 1`.
pub fn sealed(words: &[String]) -> Result<String, Failure> {
    let bad = || bad_input("bench: expected EDITION FORM KEY_BYTES MESSAGE_BYTES".to_string());
    let numbers: Result<Vec<usize>, _> = words.iter().map(|word| word.parse()).collect();
    let [edition, form, key_bytes, message_bytes] = numbers.map_err(|_| bad())?[..] else {
        return Err(bad());
    };
    let sealing = sealing(Mode::new(edition, form), key_bytes, message_bytes);
    let (answer, output) = sealing.call();
    Ok(format!("{} {}\n", answer.number, hex::encode(&output)))
}

/// The benchmark's strings have the rule of the rows' messages.
fn sealing(mode: Mode, key_bytes: usize, message_bytes: usize) -> Request {
    Request {
        kind: Kind::Seal,
        mode,
        key: Key::Raw(rules::message(key_bytes)),
        nonce: rules::message(12),
        data: rules::message(16),
        body: rules::message(message_bytes),
        t: TAG_BYTES,
        room: message_bytes + TAG_BYTES,
    }
}
