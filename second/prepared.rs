//! The command `prepared`: keys prepared, and calls under records (wish 9 of 02). First
//! those that are always the same, whatever the seed.

use crate::block::BLOCK_BYTES;
use crate::call::{DATA_MAX, MESSAGE_MAX};
use crate::edition::{Mode, MODES};
use crate::exchange::Exchange;
use crate::failure::Failure;
use crate::generator::Generator;
use crate::key::Key;
use crate::random_prepared::random_prepared;
use crate::request::{Kind, Request};
use crate::requests::write_seeded;
use crate::seam_lengths::{at_every_tag, Lengths, DATA, MESSAGES, USUAL};
use crate::seam_requests::{
    around, in_other_modes, other_bytes, refused_modes, sealing, two_faults_in,
};

const SEED: u64 = u64::MAX - 2;
/// On both sides of each key length.
const KEYS: [usize; 11] = [0, 1, 15, 16, 17, 23, 24, 25, 31, 32, 33];
/// Of 266, 268 and 270 the last byte alone would be sound.
const ROUNDS: [usize; 12] = [0, 9, 10, 11, 12, 13, 14, 15, 266, 268, 270, 65_535];

pub fn command(arguments: &[String]) -> Result<String, Failure> {
    write_seeded("prepared", arguments, fixed, |draw| [random_prepared(draw)])
}

pub fn fixed() -> Vec<Exchange> {
    let draw = &mut Generator::new(SEED);
    let mut list = Vec::new();
    for len in KEYS {
        list.push(Exchange::of_preparing(&draw.bytes(len)));
    }
    list.extend(calls(draw).iter().map(Exchange::of_call));
    list
}

fn calls(draw: &mut Generator) -> Vec<Request> {
    let mut list = Vec::new();
    for (turn, mode) in MODES.into_iter().enumerate() {
        for lengths in lengths(turn) {
            let sealing = prepared(draw, mode, lengths);
            list.extend(sealing.opening().iter().flat_map(in_other_modes));
            list.extend(sealed_opened_damaged(draw, sealing));
        }
        let sealing = prepared(draw, mode, USUAL);
        list.extend(around(draw, &sealing));
        list.extend(foreign_masks(draw, mode));
        list.extend(foreign_round_keys(draw, mode));
        list.extend(unused_words(draw, mode));
        list.extend(round_counts(draw, mode));
        for kind in [Kind::Seal, Kind::Open] {
            list.extend(two_faults_in(draw, kind, |draw| {
                prepared(draw, mode, USUAL)
            }));
            list.extend(other_faults(draw, mode, kind));
        }
    }
    for mode in refused_modes() {
        let sealing = prepared(draw, mode, USUAL);
        list.extend(sealed_opened_damaged(draw, sealing));
    }
    list
}

/// Every seam message of 01, every seam data with a message of 33 bytes and with none, both at
/// their longest, and the shortest, a usual and the longest nonce with every tag. The key
/// lengths take turns.
fn lengths(turn: usize) -> Vec<Lengths> {
    let with_message = |message, data| Lengths {
        message,
        data,
        ..USUAL
    };
    let mut list = Vec::new();
    list.extend(MESSAGES.map(|message| with_message(message, USUAL.data)));
    list.extend(DATA.map(|data| with_message(33, data)));
    list.extend(DATA.map(|data| with_message(0, data)));
    list.push(with_message(MESSAGE_MAX, DATA_MAX));
    list.extend(at_every_tag(&[1, 12, 15]));
    for (place, lengths) in list.iter_mut().enumerate() {
        lengths.key = [16, 24, 32][(place + turn) % 3];
    }
    list
}

/// A sealing with exact room under the record that preparing gave.
fn prepared(draw: &mut Generator, mode: Mode, lengths: Lengths) -> Request {
    sealing(draw, mode, lengths).under_record(|_| ())
}

/// The sealing, its opening with exact room, and that with one bit changed. Where the sealing
/// is refused: an opening of other bytes.
fn sealed_opened_damaged(draw: &mut Generator, sealing: Request) -> Vec<Request> {
    match sealing.opening() {
        Some(opening) => {
            let mut damaged = opening.clone();
            draw.change_bit(&mut damaged.body);
            vec![sealing, opening, damaged]
        }
        None => {
            let opening = other_bytes(draw, &sealing);
            vec![sealing, opening]
        }
    }
}

/// What a sealing that succeeds wrote, opened under another record.
fn opened_under(sealing: &Request, key: &Key) -> Option<Request> {
    let opening = sealing.opening()?;
    Some(Request {
        key: key.clone(),
        ..opening
    })
}

/// First masks that are not E(0^n), with and without data; and what the prepared record
/// sealed, opened with such a mask.
fn foreign_masks(draw: &mut Generator, mode: Mode) -> Vec<Request> {
    let mut list = Vec::new();
    for (key, data) in [(16, 0), (24, 0), (16, 5), (24, 16), (32, 33)] {
        let lengths = Lengths { key, data, ..USUAL };
        let sealing = prepared(draw, mode, lengths);
        let foreign = sealing.under_record(|record| draw.fill(&mut record.zero));
        list.extend(opened_under(&sealing, &foreign.key));
        list.push(sealing);
        list.extend(sealed_opened_damaged(draw, foreign));
    }
    list
}

/// All 240 bytes arbitrary: no key expands to them.
fn foreign_round_keys(draw: &mut Generator, mode: Mode) -> Vec<Request> {
    let mut list = Vec::new();
    for rounds in [10, 12, 14] {
        for data in [0, 17] {
            let lengths = Lengths { data, ..USUAL };
            let foreign = prepared(draw, mode, lengths).under_record(|record| {
                record.rounds = rounds;
                draw.fill(&mut record.round_keys);
                draw.fill(&mut record.zero);
            });
            list.extend(sealed_opened_damaged(draw, foreign));
        }
    }
    list
}

/// Words that are not used and not zero: each answer is the prepared record's. 14 rounds use
/// all of them.
fn unused_words(draw: &mut Generator, mode: Mode) -> Vec<Request> {
    let mut list = Vec::new();
    for key in [16, 24] {
        let sealing = prepared(draw, mode, Lengths { key, ..USUAL });
        for request in sealed_opened_damaged(draw, sealing) {
            list.push(request.under_record(|record| {
                draw.fill(&mut record.round_keys[BLOCK_BYTES * (record.rounds + 1)..]);
            }));
            list.push(request);
        }
    }
    list
}

/// Over one record of 14 rounds; and what it sealed, opened with each round count.
fn round_counts(draw: &mut Generator, mode: Mode) -> Vec<Request> {
    let sealing = prepared(draw, mode, Lengths { key: 32, ..USUAL });
    let mut list = Vec::new();
    for rounds in ROUNDS {
        let counted = sealing.under_record(|record| record.rounds = rounds);
        list.extend(opened_under(&sealing, &counted.key));
        list.extend(sealed_opened_damaged(draw, counted));
    }
    list
}

/// The record of a refused key, the largest numbers, the shortest nonce and sealed bytes:
/// what is beside the two faults of the raw key's requests.
fn other_faults(draw: &mut Generator, mode: Mode, kind: Kind) -> Vec<Request> {
    let of_zeros = prepared(draw, mode, Lengths { key: 17, ..USUAL });
    let sound = prepared(draw, mode, USUAL);
    let mut most = sound.under_record(|record| record.rounds = 65_535);
    most.mode.form = 65_535;
    let mut most_of_all = most.clone();
    most_of_all.mode.edition = 65_535;
    let no_nonce = Request {
        nonce: Vec::new(),
        ..sound.clone()
    };
    let eleven = no_nonce.under_record(|record| record.rounds = 11);
    let list = [of_zeros, most, most_of_all, no_nonce, eleven];
    match kind {
        Kind::Seal => list.into(),
        Kind::Open => {
            let mut openings = list.map(|sealing| other_bytes(draw, &sealing)).to_vec();
            for len in [0, 15, 16] {
                openings.push(Request {
                    body: draw.bytes(len),
                    ..other_bytes(draw, &sound)
                });
            }
            openings
        }
    }
}
