//! Tests of sealers in parts (wish 3 of 02), and of the count over them (wish 6).

use std::cell::RefCell;

use crate::block::Block;
use crate::call::{Answer, MESSAGE_MAX};
use crate::data_pass::FirstMask;
use crate::division::Division::{self, Of};
use crate::edition::Edition::Third;
use crate::edition::THIRD_SERIAL;
use crate::form::Form::{Parallel, Serial};
use crate::generator::Generator;
use crate::otr::otr_e;
use crate::otr_parts::OtrParts;
use crate::parts::{DIVISIONS, FAULTS, THIRD};
use crate::request::{Request, FILL};
use crate::rules;
use crate::runs_tests::{parallel_formula, sealing};
use crate::sealer::Sealer;
use crate::seam_lengths::USUAL;
use crate::seam_requests::{self, two_faults_of};
use crate::standin::stand_in;

const DATA: [usize; 4] = [0, 5, 16, 17];

/// What has come out after n bytes fed: the pairs that are not the last, however short.
pub fn given_out(n: usize) -> usize {
    n.saturating_sub(1) / 32 * 32
}

fn begin(sealing: &Request) -> (Sealer, Answer) {
    let key = sealing.key.raw().unwrap();
    Sealer::begin(
        sealing.mode.form,
        key,
        &sealing.nonce,
        &sealing.data,
        sealing.t,
    )
}

fn begun(sealing: &Request) -> Sealer {
    let (sealer, answer) = begin(sealing);
    assert_eq!((answer.number, answer.length), (0, 0));
    sealer
}

/// The runs of an accepted call, and what it wrote; the room behind is kept.
fn accepted(room: usize, call: impl FnOnce(&mut [u8]) -> Answer) -> (usize, Vec<u8>) {
    let mut output = vec![FILL; room];
    let answer = call(&mut output);
    assert_eq!(answer.number, 0);
    let (written, behind) = output.split_at(answer.length);
    assert!(behind.iter().all(|&byte| byte == FILL));
    (answer.runs, written.to_vec())
}

fn check_refused(number: u8, room: usize, call: impl FnOnce(&mut [u8]) -> Answer) {
    let mut output = vec![FILL; room];
    let answer = call(&mut output);
    assert_eq!((answer.number, answer.length, answer.runs), (number, 0, 0));
    assert_eq!(output, vec![FILL; room]);
}

#[test]
fn however_divided_the_outputs_joined_are_what_one_call_seals() {
    let draw = &mut Generator::new(1);
    for mode in THIRD {
        for message in 0..=130 {
            let sealing = sealing(mode, 24, DATA[message % 4], message);
            for division in DIVISIONS.into_iter().chain([Of(1)]) {
                check_divided(draw, &sealing, division);
            }
        }
        for message in [MESSAGE_MAX - 1, MESSAGE_MAX] {
            for division in DIVISIONS {
                check_divided(draw, &sealing(mode, 16, 5, message), division);
            }
        }
    }
}

fn check_divided(draw: &mut Generator, sealing: &Request, division: Division) {
    let (mut sealer, beginning) = begin(sealing);
    assert_eq!((beginning.number, beginning.length), (0, 0));
    let (mut runs, mut joined) = (beginning.runs, Vec::new());
    let mut n = 0;
    for part in division.parts(draw, &sealing.body) {
        let room = part.len() + 31;
        let (runs_now, written) = accepted(room, |output| sealer.feed(part, output));
        assert_eq!(runs_now, written.len() / 16);
        runs += runs_now;
        joined.extend(written);
        n += part.len();
        assert_eq!(joined.len(), given_out(n));
    }
    let rest = n - given_out(n);
    let room = rest + sealing.t + 7;
    let (runs_now, written) = accepted(room, |output| sealer.end(output));
    assert_eq!(runs_now, rest.div_ceil(16) + 1);
    runs += runs_now;
    joined.extend(written);
    assert_eq!(joined, sealing.call().1);
    assert_eq!(runs, parallel_formula(sealing.data.len(), n));
}

#[test]
fn empty_parts_anywhere_change_nothing() {
    for mode in THIRD {
        for message in [0, 1, 31, 32, 33, 64, 65] {
            let sealing = sealing(mode, 16, 5, message);
            let mut sealer = begun(&sealing);
            let mut joined = Vec::new();
            for part in [&[], &sealing.body[..message / 2], &[], &[]] {
                joined.extend(accepted(64, |output| sealer.feed(part, output)).1);
            }
            let part = &sealing.body[message / 2..];
            joined.extend(accepted(64, |output| sealer.feed(part, output)).1);
            assert_eq!(accepted(3, |output| sealer.feed(&[], output)), (0, vec![]));
            joined.extend(accepted(64, |output| sealer.end(output)).1);
            assert_eq!(joined, sealing.call().1);
        }
    }
}

/// Not only as many: over the calls E gets the blocks of one call, in their order, and each in
/// the call that needs it.
#[test]
fn the_blocks_handed_over_are_those_of_one_call() {
    let (n, message, ciphered) = (rules::nonce(12), rules::message(100), FirstMask::Ciphered);
    for edition in [Third(Parallel), Third(Serial)] {
        for data in DATA {
            let a = rules::data(data);
            let handed_over = RefCell::new(Vec::new());
            let e = |b: &Block| {
                handed_over.borrow_mut().push(*b);
                stand_in(b)
            };
            let count = || handed_over.borrow().len();
            let mut sealer = OtrParts::begin(edition, &e, ciphered, 16, &n, &a);
            let mut counts = vec![count()];
            for part in [&message[..20], &message[20..50], &message[50..]] {
                sealer.feed(&e, part);
                counts.push(count());
            }
            sealer.end(&e);
            counts.push(count());
            let beginning = parallel_formula(data, 0) - 1;
            assert_eq!(counts, [0, 0, 2, 6, 8].map(|more| beginning + more));
            let in_parts = handed_over.take();
            otr_e(edition, &e, ciphered, 16, &n, &a, &message);
            assert_eq!(in_parts, handed_over.take());
        }
    }
}

/// Data bytes and the runs of a beginning: the nonce block, the zero block only with data, and
/// the data's blocks.
#[test]
fn beginnings_count_the_nonce_block_and_the_data_pass() {
    for mode in THIRD {
        for (data, runs) in [(0, 1), (1, 3), (16, 3), (17, 4), (4_096, 258)] {
            assert_eq!(begin(&sealing(mode, 32, data, 0)).1.runs, runs);
        }
    }
}

/// What is left and the runs of an end: its blocks, and the tag's.
#[test]
fn ends_count_what_is_left_and_the_tag() {
    for mode in THIRD {
        for (message, runs) in [(0, 1), (1, 2), (16, 2), (17, 3), (32, 3), (33, 2), (64, 3)] {
            let sealing = sealing(mode, 16, 5, message);
            let mut sealer = begun(&sealing);
            accepted(64, |output| sealer.feed(&sealing.body, output));
            assert_eq!(accepted(64, |output| sealer.end(output)).0, runs);
        }
    }
}

/// Before each right call: what would be due with one byte too few, a part too long with room
/// and without, an end with one byte too few.
#[test]
fn refused_calls_change_nothing() {
    for mode in THIRD {
        for message in 0..=100 {
            let sealing = sealing(mode, 16, 5, message);
            let mut sealer = begun(&sealing);
            let mut joined = Vec::new();
            let mut n = 0;
            for part in sealing.body.chunks(23) {
                check_refusals(&mut sealer, n, part, sealing.t);
                joined.extend(accepted(64, |output| sealer.feed(part, output)).1);
                n += part.len();
            }
            check_refusals(&mut sealer, n, &[], sealing.t);
            joined.extend(accepted(64, |output| sealer.end(output)).1);
            assert_eq!(joined, sealing.call().1);
        }
    }
}

fn check_refusals(sealer: &mut Sealer, n: usize, part: &[u8], t: usize) {
    let due = given_out(n + part.len()) - given_out(n);
    if due > 0 {
        check_refused(6, due - 1, |output| sealer.feed(part, output));
        check_refused(6, 0, |output| sealer.feed(part, output));
    }
    let too_long = vec![0; MESSAGE_MAX + 1 - n];
    for room in [0, MESSAGE_MAX] {
        check_refused(5, room, |output| sealer.feed(&too_long, output));
    }
    let due_at_end = n - given_out(n) + t;
    for room in [0, due_at_end - 1] {
        check_refused(6, room, |output| sealer.end(output));
    }
}

/// A part that ends at 16,384 is the last with bytes in it; the sealer goes on.
#[test]
fn at_most_16384_bytes_are_fed() {
    for mode in THIRD {
        let sealing = sealing(mode, 16, 5, MESSAGE_MAX);
        let (first, second) = sealing.body.split_at(MESSAGE_MAX - 1);
        let mut sealer = begun(&sealing);
        let mut joined = accepted(MESSAGE_MAX, |output| sealer.feed(first, output)).1;
        check_refused(5, 0, |output| sealer.feed(&[0; 2], output));
        joined.extend(accepted(0, |output| sealer.feed(second, output)).1);
        check_refused(5, 64, |output| sealer.feed(&[0], output));
        accepted(0, |output| sealer.feed(&[], output));
        joined.extend(accepted(64, |output| sealer.end(output)).1);
        assert_eq!(joined, sealing.call().1);
    }
}

#[test]
fn ended_stays_ended() {
    let mut never_begun = Sealer::default();
    check_ended(&mut never_begun);
    for mode in THIRD {
        for message in [0, 20, 40] {
            let sealing = sealing(mode, 16, 5, message);
            let mut sealer = begun(&sealing);
            accepted(64, |output| sealer.feed(&sealing.body, output));
            accepted(64, |output| sealer.end(output));
            check_ended(&mut sealer);
        }
    }
}

/// Twice, and whatever else is wrong.
fn check_ended(sealer: &mut Sealer) {
    for _ in 0..2 {
        for part in [0, 1, 40, MESSAGE_MAX + 1] {
            for room in [0, 100] {
                check_refused(9, room, |output| sealer.feed(&vec![0; part], output));
            }
        }
        for room in [0, 100] {
            check_refused(9, room, |output| sealer.end(output));
        }
    }
}

/// 8 and 1 to 4: the one checked first is the answer, and the sealer has ended.
#[test]
fn refused_beginnings_count_as_ended() {
    let draw = &mut Generator::new(1);
    let firsts = (0..5).flat_map(|place| vec![FAULTS[place]; 5 - place]);
    let sound = |draw: &mut Generator| seam_requests::sealing(draw, THIRD_SERIAL, USUAL);
    let list = two_faults_of(draw, &FAULTS, sound);
    assert_eq!(list.len(), 15);
    for (refused, number) in list.iter().zip(firsts) {
        let (mut sealer, answer) = begin(refused);
        assert_eq!((answer.number, answer.length, answer.runs), (number, 0, 0));
        check_ended(&mut sealer);
    }
}
