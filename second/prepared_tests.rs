//! Tests of prepared keys and of calls under records (wish 9 of 02).

use crate::aes::{substitute, Aes, ZERO_ROUND_KEYS};
use crate::block::{double, pad, times_3, times_3_squared, xor, Block, BLOCK_BYTES, ZERO};
use crate::data_pass::FirstMask;
use crate::edition::Edition::{First, Third};
use crate::edition::{FIRST, MODES, THIRD_PARALLEL, THIRD_SERIAL};
use crate::exchange::Exchange;
use crate::form::Form::{Parallel, Serial};
use crate::generator::Generator;
use crate::otr::{format, otr_e};
use crate::prepared;
use crate::record::prepare;
use crate::request::{Kind, Request};
use crate::rules;
use crate::runs_tests::{answer, check_sealed_opened_damaged, sealing, DATA, KEYS, MESSAGES};
use crate::seam_lengths::USUAL;
use crate::seam_requests::{self, two_faults_in, FAULTS};
use crate::standin::{self, stand_in};
use crate::tests::{block, bytes};

/// Appendix A: the words behind the key's own, and those of the last round. The cipher of the
/// zero block under these keys is in the examples of NIST SP 800-38B.
#[test]
fn the_keys_of_fips_197() {
    check_record(
        "2b7e151628aed2a6abf7158809cf4f3c",
        10,
        "a0fafe1788542cb123a339392a6c7605",
        "d014f9a8c9ee2589e13f0cc8b6630ca6",
        "7df76b0c1ab899b33e42f047b91b546f",
    );
    check_record(
        "8e73b0f7da0e6452c810f32b809079e562f8ead2522c6b7b",
        12,
        "fe0c91f72402f5a5ec12068e6c827f6b",
        "e98ba06f448c773c8ecc720401002202",
        "22452d8e49a8a5939f7321ceea6d514b",
    );
    check_record(
        "603deb1015ca71be2b73aef0857d77811f352c073b6108d72d9810a30914dff4",
        14,
        "9ba354118e6925afa51a8b5f2067fcde",
        "fe4890d1e6188d0b046df344706c631e",
        "e568f68194cf76d6174d4cc04310a854",
    );
}

fn check_record(key: &str, rounds: usize, behind_key: &str, last: &str, zero: &str) {
    let key = bytes(key);
    let prepared = prepare(&key);
    assert_eq!((prepared.number, prepared.runs), (0, 1));
    let record = prepared.record;
    assert_eq!(record.rounds, rounds);
    let front = [key, bytes(behind_key)].concat();
    assert!(record.round_keys.starts_with(&front));
    let (used, unused) = record.round_keys.split_at(BLOCK_BYTES * (rounds + 1));
    assert!(used.ends_with(&bytes(last)));
    assert!(unused.iter().all(|&byte| byte == 0));
    assert_eq!(record.zero, block(zero));
}

#[test]
fn other_key_lengths_give_a_record_of_zeros() {
    for len in (0..=64).filter(|len| !KEYS.contains(len)) {
        let prepared = prepare(&rules::key(len));
        assert_eq!((prepared.number, prepared.runs), (1, 0));
        let record = prepared.record;
        assert_eq!((record.rounds, record.zero), (0, ZERO));
        assert_eq!(record.round_keys, ZERO_ROUND_KEYS);
    }
}

/// Round keys of one byte each, also behind the last round: the state's bytes stay the same
/// in all places, since column mixing's factors 2, 3, 1 and 1 add up to 1.
#[test]
fn rounds_over_round_keys_as_they_stand() {
    let round_key_byte = |round: usize| (29 * round + 3) as u8;
    let mut round_keys = ZERO_ROUND_KEYS;
    for (i, byte) in round_keys.iter_mut().enumerate() {
        *byte = round_key_byte(i / BLOCK_BYTES);
    }
    for rounds in [10, 12, 14] {
        let aes = Aes::over(rounds, round_keys).unwrap();
        let start = 0x5a ^ round_key_byte(0);
        let end = (1..=rounds).fold(start, |byte, round| {
            substitute(byte) ^ round_key_byte(round)
        });
        assert_eq!(aes.cipher(&[0x5a; 16]), [end; 16]);
        assert_eq!(aes.runs(), 1);
    }
}

#[test]
fn under_its_record_a_call_answers_as_with_its_key() {
    for_each_seam(|sealing| {
        let opening = sealing.opening().unwrap();
        let mut damaged = opening.clone();
        damaged.body[0] ^= 1;
        for raw in [sealing, &opening, &damaged] {
            check_same_but_zero_block(raw, &under_its_record(raw));
        }
    });
}

fn for_each_seam(check: impl Fn(&Request)) {
    for mode in MODES {
        for key in KEYS {
            for data in DATA {
                for message in MESSAGES {
                    check(&sealing(mode, key, data, message));
                }
            }
        }
    }
}

fn check_same_but_zero_block(raw: &Request, under_record: &Request) {
    let (with_key, output_with_key) = raw.call();
    let (answer, output) = under_record.call();
    assert_eq!(answer.number, with_key.number);
    assert_eq!(answer.length, with_key.length);
    assert_eq!(output, output_with_key);
    let zero_block = usize::from(!raw.data.is_empty());
    assert_eq!(answer.runs + zero_block, with_key.runs);
}

fn under_its_record(raw: &Request) -> Request {
    raw.under_record(|_| ())
}

/// Wish 6's formula without the one for the zero block, in each edition and form.
#[test]
fn the_zero_block_is_not_ciphered_again() {
    for_each_seam(|sealing| {
        let blocks = sealing.body.len().div_ceil(16) + sealing.data.len().div_ceil(16);
        check_sealed_opened_damaged(&under_its_record(sealing), 2 + blocks);
    });
}

/// With parallel ADP TA goes into the tag alone, with serial ADP into U.
#[test]
fn a_foreign_mask_matters_where_there_is_data() {
    for mode in MODES {
        for data in DATA {
            let sealing = under_its_record(&sealing(mode, 24, data, 33));
            let foreign = sealing.under_record(|record| record.zero = rules::lent_mask());
            check_sealed_opened_damaged(&foreign, 5 + data.div_ceil(16));
            let (sealed, sealed_foreign) = (sealing.call().1, foreign.call().1);
            assert_eq!(sealed[33..] == sealed_foreign[33..], data == 0);
            let same_ciphertext = data == 0 || mode != THIRD_SERIAL;
            assert_eq!(sealed[..33] == sealed_foreign[..33], same_ciphertext);
            let opening = Request {
                key: foreign.key,
                ..sealing.opening().unwrap()
            };
            assert_eq!(answer(&opening).number, if data == 0 { 0 } else { 7 });
        }
    }
}

/// AF: 3Q for a short last block, 3^2 Q for a full one; AF-S: 2Q and 4Q; AF of 003: 4Q xor Q
/// and 4Q xor 2Q, where its gamma is Q. TE of an empty message is E(3^2 U xor 80 00...), and in
/// 003 E(3 4 delta xor 80 00...).
#[test]
fn a_lent_mask_by_hand() {
    let (n, q) = (rules::nonce(12), rules::lent_mask());
    assert_eq!(q, block("071a2d405366798c9fb2c5d8ebfe1124"));
    let tag = |edition, a: &[u8]| otr_e(edition, &stand_in, FirstMask::Lent(q), 16, &n, a, &[]).1;
    let te = |u: &Block| stand_in(&xor(&times_3_squared(u), &pad(&[])));
    let nonce_block = stand_in(&format(16, &n));
    let l = double(&double(&stand_in(&pad(&n))));
    let te_first = stand_in(&xor(&times_3(&l), &pad(&[])));
    let (q2, q4) = (double(&q), double(&double(&q)));
    for (a, mask, mask_s, mask_first) in [
        (vec![0xff], times_3(&q), q2, xor(&q4, &q)),
        (vec![0xff; 16], times_3_squared(&q), q4, xor(&q4, &q2)),
    ] {
        let ta = |mask| stand_in(&xor(mask, &pad(&a)));
        assert_eq!(tag(Third(Parallel), &a), xor(&te(&nonce_block), &ta(&mask)));
        let u = double(&xor(&nonce_block, &ta(&mask_s)));
        assert_eq!(tag(Third(Serial), &a), te(&u));
        assert_eq!(tag(First, &a), xor(&te_first, &ta(&mask_first)));
    }
}

/// `EDITION FORM MESSAGELEN DATALEN K T RUNS HEX`.
#[test]
fn the_rows_with_a_lent_mask_count_no_zero_block() {
    let rows = standin::command_lent();
    for row in rows.lines() {
        let numbers: Vec<usize> = row
            .split(' ')
            .take(7)
            .map(|field| field.parse().unwrap())
            .collect();
        let blocks = numbers[2].div_ceil(16) + numbers[3].div_ceil(16);
        assert_eq!(numbers[6], 2 + blocks, "{row}");
    }
    assert_eq!(rows.lines().count(), 24);
}

#[test]
fn words_not_used_do_not_matter() {
    for mode in MODES {
        for key in [16, 24] {
            let sealing = sealing(mode, key, 17, 33);
            for raw in [sealing.opening().unwrap(), sealing] {
                let filled = raw.under_record(|record| {
                    record.round_keys[BLOCK_BYTES * (record.rounds + 1)..].fill(0xff);
                });
                check_same_but_zero_block(&raw, &filled);
            }
        }
    }
}

#[test]
fn round_counts_but_10_12_and_14_are_refused_with_1_and_the_output_kept() {
    for mode in MODES {
        let sealing = under_its_record(&sealing(mode, 32, 5, 20));
        for request in [sealing.opening().unwrap(), sealing] {
            for rounds in (0..=300).chain([65_535, usize::MAX]) {
                let counted = request.under_record(|record| record.rounds = rounds);
                let (answer, output) = counted.call();
                if [10, 12, 14].contains(&rounds) {
                    assert_ne!((answer.number, answer.runs), (1, 0));
                } else {
                    assert_eq!((answer.number, answer.length, answer.runs), (1, 0, 0));
                    assert_eq!(output, vec![0xa5; request.room]);
                }
            }
        }
    }
}

#[test]
fn of_two_faults_the_one_checked_first_is_the_answer() {
    let draw = &mut Generator::new(1);
    let firsts = (0..FAULTS.len()).flat_map(|place| vec![FAULTS[place]; FAULTS.len() - place]);
    for (mode, kind) in [THIRD_SERIAL, FIRST]
        .into_iter()
        .flat_map(|mode| [(mode, Kind::Seal), (mode, Kind::Open)])
    {
        let list = two_faults_in(draw, kind, |draw| {
            under_its_record(&seam_requests::sealing(draw, mode, USUAL))
        });
        let answers = list.iter().map(answer);
        let answers: Vec<_> = answers.map(|a| (a.number, a.length, a.runs)).collect();
        let expected: Vec<_> = firsts.clone().map(|number| (number, 0, 0)).collect();
        assert_eq!(answers, expected);
    }
}

#[test]
fn the_fixed_requests_meet_every_answer() {
    let answers: Vec<String> = prepared::fixed().into_iter().map(|e| e.answer).collect();
    for number in (0..=8).chain([10]) {
        let start = format!("{number} ");
        assert!(answers.iter().any(|answer| answer.starts_with(&start)));
    }
}

#[test]
fn the_lines_of_wish_9() {
    let refused = Exchange::of_preparing(&[]);
    assert_eq!(refused.request, "prepare -\n");
    let zeros = format!("1 0 0 {} {}\n", "00".repeat(240), "00".repeat(16));
    assert_eq!(refused.answer, zeros);
    let call = Exchange::of_call(&under_its_record(&sealing(THIRD_PARALLEL, 16, 7, 16)));
    let record = prepare(&rules::key(16)).record.fields();
    assert!(call
        .request
        .starts_with(&format!("seal-with 3 0 {record} ")));
    assert_eq!(call.request.split_whitespace().count(), 11);
    assert!(call.answer.starts_with("0 32 4 "));
}
