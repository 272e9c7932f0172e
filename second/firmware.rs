//! The command `firmware`: the requests of the host program, which calls the library from C.

use crate::edition::{Mode, FIRST, THIRD_PARALLEL, THIRD_SERIAL};
use crate::failure::{bad_input, Failure};
use crate::files;
use crate::generator::Generator;
use crate::request::{Kind, Request};
use crate::seam_lengths::{Lengths, DATA, KEYS, MESSAGES, NONCES, TAGS, USUAL};
use crate::seam_requests::{other_bytes, sealing, two_faults};

const SEED: u64 = u64::MAX - 1;
const BEYOND_32_BITS: usize = 1 << 32;

pub fn command(
    edition: &str,
    form: &str,
    file_requests: &str,
    file_answers: &str,
) -> Result<String, Failure> {
    let mode = match (edition, form) {
        ("3", "0") => THIRD_PARALLEL,
        ("3", "1") => THIRD_SERIAL,
        ("1", "0") => FIRST,
        _ => {
            let what = "firmware: EDITION FORM is not 3 0, 3 1 or 1 0";
            return Err(bad_input(format!("{what}: {edition} {form}")));
        }
    };
    let requests = requests(mode);
    files::write_requests(&requests, file_requests, file_answers)?;
    Ok(format!(
        "edition {edition}, form {form}: {} requests. Keys of {KEYS:?}, nonces of {NONCES:?}, \
         tags of {TAGS:?}, data of {DATA:?}, messages of {MESSAGES:?}, each with each; and \
         refusals\n",
        requests.len()
    ))
}

/// The refusals first: a fault in what comes before the passes is then found at once.
pub fn requests(mode: Mode) -> Vec<Request> {
    let draw = &mut Generator::new(SEED);
    let mut requests = wide_numbers(draw, mode);
    requests.extend(two_faults(draw, mode, Kind::Seal));
    requests.extend(two_faults(draw, mode, Kind::Open));
    for lengths in every_seam() {
        requests.push(sealing(draw, mode, lengths));
    }
    requests
}

/// Every seam message of 01 with every seam data, key, nonce and tag.
fn every_seam() -> Vec<Lengths> {
    let mut list = vec![USUAL];
    list = vary(&list, &KEYS, |lengths, key| lengths.key = key);
    list = vary(&list, &NONCES, |lengths, nonce| lengths.nonce = nonce);
    list = vary(&list, &TAGS, |lengths, t| lengths.t = t);
    list = vary(&list, &DATA, |lengths, data| lengths.data = data);
    vary(&list, &MESSAGES, |lengths, message| {
        lengths.message = message;
    })
}

fn vary(list: &[Lengths], choices: &[usize], set: fn(&mut Lengths, usize)) -> Vec<Lengths> {
    let mut varied = Vec::new();
    for &lengths in list {
        for &choice in choices {
            let mut lengths = lengths;
            set(&mut lengths, choice);
            varied.push(lengths);
        }
    }
    varied
}

/// Editions, forms and tag lengths that no 32 bits hold; without the bits beyond, some would
/// be sound.
fn wide_numbers(draw: &mut Generator, mode: Mode) -> Vec<Request> {
    let sealing = sealing(draw, mode, USUAL);
    let opening = other_bytes(draw, &sealing);
    let mut list = Vec::new();
    for request in [sealing, opening] {
        for mode in wide_modes(mode) {
            list.push(Request {
                mode,
                ..request.clone()
            });
        }
        for t in [BEYOND_32_BITS + 16, usize::MAX] {
            list.push(Request {
                t,
                ..request.clone()
            });
        }
    }
    list
}

fn wide_modes(mode: Mode) -> [Mode; 4] {
    let edition = |edition| Mode { edition, ..mode };
    let form = |form| Mode { form, ..mode };
    [
        edition(BEYOND_32_BITS + mode.edition),
        edition(usize::MAX),
        form(BEYOND_32_BITS + mode.form),
        form(usize::MAX),
    ]
}
