//! Tests of how many times the cipher ran (wish 6 of 02). Only here is it worked out by
//! formulas; the program counts.

use std::cell::RefCell;

use crate::block::{double, pad, times_3, times_3_squared, xor, Block};
use crate::call::Answer;
use crate::data_pass::FirstMask;
use crate::edition::{Edition, Mode, FIRST, MODES, THIRD_PARALLEL, THIRD_SERIAL};
use crate::exchange::Exchange;
use crate::form::Form::{Parallel, Serial};
use crate::generator::Generator;
use crate::key::Key;
use crate::otr::{format, otr_d, otr_e};
use crate::request::{Kind, Request};
use crate::rules;
use crate::seam_requests::{two_faults, FAULTS};
use crate::standin::stand_in;
use crate::tests::EDITIONS;

pub const KEYS: [usize; 3] = [16, 24, 32];
pub const DATA: [usize; 8] = [0, 1, 15, 16, 17, 32, 33, 4_096];
pub const MESSAGES: [usize; 14] = [0, 1, 15, 16, 17, 31, 32, 33, 47, 48, 49, 64, 65, 16_384];

pub fn sealing(mode: Mode, key: usize, data: usize, message: usize) -> Request {
    Request {
        kind: Kind::Seal,
        mode,
        key: Key::Raw(rules::key(key)),
        nonce: rules::nonce(12),
        data: rules::data(data),
        body: rules::message(message),
        t: 16,
        room: message + 16,
    }
}

pub fn answer(request: &Request) -> Answer {
    request.call().0
}

/// Wish 6, for parallel data: 2, plus the message length over 16 rounded up, plus, if there
/// is associated data, its blocks and one.
pub fn parallel_formula(data: usize, message: usize) -> usize {
    let data_runs = match data {
        0 => 0,
        _ => data.div_ceil(16) + 1,
    };
    2 + message.div_ceil(16) + data_runs
}

/// Figure 3, where E is applied, for a blocks of data and m blocks of message.
/// AF-S, only where A is not empty (OTR-E and OTR-D, lines 1 and 2): line 2 once; line 5 for
/// each block but the last, a - 1 times; line 7 or 8 once. Together a + 1.
/// EF-S and DF-S: line 2 once, for the nonce block; lines 6 and 7 once each for each of the
/// ceil(m/2) - 1 pairs; if m is even EF-S, lines 11 and 13, or DF-S, lines 11 and 12, once
/// each; if m is odd line 17 once, but not for the empty block; line 20 or 21 once, for the
/// tag. TA goes into U (line 2) without a run of its own.
fn serial_formula(data: usize, message: usize) -> usize {
    let a = data.div_ceil(16);
    let af_s = if a == 0 { 0 } else { 1 + (a - 1) + 1 };
    let m = message.div_ceil(16).max(1);
    let pairs = 2 * (m.div_ceil(2) - 1);
    let last_blocks = match (m % 2 == 0, message == 0) {
        (true, _) => 2,
        (false, true) => 0,
        (false, false) => 1,
    };
    af_s + 1 + pairs + last_blocks + 1
}

/// The serial steps come to as many runs as the parallel ones.
#[test]
fn both_formulas_agree() {
    for data in DATA {
        for message in 0..100 {
            assert_eq!(
                serial_formula(data, message),
                parallel_formula(data, message)
            );
        }
    }
}

#[test]
fn parallel_calls_count_what_the_wish_says() {
    check_seams(THIRD_PARALLEL, parallel_formula);
}

#[test]
fn calls_of_the_first_edition_count_what_parallel_ones_do() {
    check_seams(FIRST, parallel_formula);
}

#[test]
fn serial_calls_count_what_the_figure_says() {
    check_seams(THIRD_SERIAL, serial_formula);
}

fn check_seams(mode: Mode, formula: fn(usize, usize) -> usize) {
    for key in KEYS {
        for data in DATA {
            for message in MESSAGES {
                let sealing = sealing(mode, key, data, message);
                check_sealed_opened_damaged(&sealing, formula(data, message));
            }
        }
    }
}

/// Damaged in the first byte, which is of the ciphertext if it has one, and in the tag's last.
pub fn check_sealed_opened_damaged(sealing: &Request, runs: usize) {
    let sealed = answer(sealing);
    assert_eq!((sealed.number, sealed.runs), (0, runs));
    let opening = sealing.opening().unwrap();
    let opened = answer(&opening);
    assert_eq!((opened.number, opened.runs), (0, runs));
    for place in [0, opening.body.len() - 1] {
        let mut damaged = opening.clone();
        damaged.body[place] ^= 1;
        let refused = answer(&damaged);
        assert_eq!((refused.number, refused.runs), (7, runs));
    }
}

/// Data bytes, message bytes and runs, counted on the figures by hand.
#[test]
fn small_calls_by_hand() {
    for mode in MODES {
        for (data, message, runs) in [
            (0, 0, 2),
            (7, 0, 4),
            (16, 0, 4),
            (17, 0, 5),
            (0, 16, 3),
            (7, 16, 5),
            (0, 17, 4),
            (0, 33, 5),
            (0, 49, 6),
            (33, 65, 11),
        ] {
            check_sealed_opened_damaged(&sealing(mode, 16, data, message), runs);
        }
    }
}

/// Neither the nonce's length nor the tag's is in the number.
#[test]
fn nonce_and_tag_lengths_do_not_count() {
    for mode in MODES {
        for k in 1..=15 {
            for t in 4..=16 {
                let request = Request {
                    nonce: rules::nonce(k),
                    t,
                    ..sealing(mode, 16, 5, 20)
                };
                check_sealed_opened_damaged(&request, 6);
            }
        }
    }
}

/// An empty message without data hands E the nonce block and the tag's block, and not L.
#[test]
fn an_empty_message_hands_over_two_blocks() {
    let (n, ciphered) = (rules::nonce(12), FirstMask::Ciphered);
    for edition in EDITIONS {
        let handed_over = RefCell::new(Vec::new());
        let e = |b: &Block| {
            handed_over.borrow_mut().push(*b);
            stand_in(b)
        };
        let (c, tag) = otr_e(edition, &e, ciphered, 16, &n, &[], &[]);
        assert!(otr_d(edition, &e, ciphered, &n, &[], &c, &tag).is_some());
        let once = nonce_and_tag_blocks(edition, &n);
        assert_eq!(handed_over.into_inner(), [once, once].concat());
    }
}

fn nonce_and_tag_blocks(edition: Edition, n: &[u8]) -> [Block; 2] {
    let nonce_block = match edition {
        Edition::First => pad(n),
        Edition::Third(_) => format(16, n),
    };
    let ciphered = stand_in(&nonce_block);
    let mask = match edition {
        Edition::First => times_3(&double(&double(&ciphered))),
        Edition::Third(Parallel) => times_3_squared(&ciphered),
        Edition::Third(Serial) => times_3_squared(&double(&ciphered)),
    };
    [nonce_block, xor(&mask, &pad(&[]))]
}

/// Each of 10, 8 and 1 to 6 alone, and every two together.
#[test]
fn the_other_refusals_report_0() {
    let draw = &mut Generator::new(1);
    for kind in [Kind::Seal, Kind::Open] {
        for mode in MODES {
            let answers: Vec<Answer> = two_faults(draw, mode, kind).iter().map(answer).collect();
            for number in FAULTS {
                assert!(answers.iter().any(|answer| answer.number == number));
            }
            for answer in answers {
                assert!(FAULTS.contains(&answer.number));
                assert_eq!(answer.runs, 0);
            }
        }
    }
}

#[test]
fn sealed_bytes_shorter_than_the_tag_report_0() {
    for mode in MODES {
        let mut opening = sealing(mode, 16, 5, 20).opening().unwrap();
        opening.body.truncate(15);
        let refused = answer(&opening);
        assert_eq!((refused.number, refused.runs), (5, 0));
    }
}

#[test]
fn the_answer_line_has_the_runs_third() {
    let line = Exchange::of_call(&sealing(THIRD_PARALLEL, 16, 7, 16)).answer;
    assert!(line.starts_with("0 32 5 "));
    assert_eq!(line.split_whitespace().count(), 4);
    let refused = Exchange::of_call(&sealing(Mode::new(3, 2), 16, 7, 16)).answer;
    assert!(refused.starts_with("8 0 0 a5a5"));
}
