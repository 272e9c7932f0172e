//! The program's own tests: `rustc --test`.

use crate::aes::{substitute, Aes};
use crate::bits::n2s;
use crate::block::{double, pad, times_3_squared, times_7, Block, BLOCK_BYTES, ZERO};
use crate::call::{open, seal};
use crate::data_pass::FirstMask;
use crate::edition::Edition::{self, First, Third};
use crate::edition::{Mode, MODES};
use crate::firmware;
use crate::form::Form::{Parallel, Serial};
use crate::hex;
use crate::key::Key;
use crate::otr::{format, otr_d, otr_e};
use crate::rules;
use crate::standin::stand_in;

pub const EDITIONS: [Edition; 3] = [Third(Parallel), Third(Serial), First];

pub fn bytes(text: &str) -> Vec<u8> {
    hex::decode(text).unwrap()
}

pub fn block(text: &str) -> Block {
    bytes(text).try_into().unwrap()
}

fn check_aes(key: &str, plaintext: &str, ciphertext: &str) {
    let aes = Aes::new(&bytes(key)).unwrap();
    assert_eq!(hex::encode(&aes.cipher(&block(plaintext))), ciphertext);
}

#[test]
fn fips_197_examples() {
    check_aes(
        "2b7e151628aed2a6abf7158809cf4f3c",
        "3243f6a8885a308d313198a2e0370734",
        "3925841d02dc09fbdc118597196a0b32",
    );
    let plaintext = "00112233445566778899aabbccddeeff";
    check_aes(
        "000102030405060708090a0b0c0d0e0f",
        plaintext,
        "69c4e0d86a7b0430d8cdb78070b4c55a",
    );
    check_aes(
        "000102030405060708090a0b0c0d0e0f1011121314151617",
        plaintext,
        "dda97ca4864cdfe06eaf70a0ec0d7191",
    );
    check_aes(
        "000102030405060708090a0b0c0d0e0f101112131415161718191a1b1c1d1e1f",
        plaintext,
        "8ea2b7ca516745bfeafc49904b496089",
    );
}

/// Rows W1 to W12 of 01.
#[test]
fn small_rows() {
    let one = block("00000000000000000000000000000001");
    assert_eq!(pad(&[]), block("80000000000000000000000000000000"));
    assert_eq!(pad(&[0xaa; 15]), block("aaaaaaaaaaaaaaaaaaaaaaaaaaaaaa80"));
    assert_eq!(double(&one), block("00000000000000000000000000000002"));
    assert_eq!(double(&pad(&[])), block("00000000000000000000000000000087"));
    assert_eq!(
        double(&[0xff; 16]),
        block("ffffffffffffffffffffffffffffff79")
    );
    assert_eq!(
        times_3_squared(&one),
        block("00000000000000000000000000000005")
    );
    assert_eq!(times_7(&one), block("00000000000000000000000000000007"));
    assert_eq!(
        format(16, &[0xcd; 12]),
        block("00000001cdcdcdcdcdcdcdcdcdcdcdcd")
    );
    assert_eq!(
        format(4, &[0xcd; 12]),
        block("40000001cdcdcdcdcdcdcdcdcdcdcdcd")
    );
    assert_eq!(
        format(8, &[0xab]),
        block("800000000000000000000000000001ab")
    );
    assert_eq!(substitute(0x00), 0x63);
    assert_eq!(substitute(0x53), 0xed);
}

/// 000, section 1.3: n2s(11, 5) = 01011.
#[test]
fn n2s_example() {
    assert_eq!(n2s(11, 5), [false, true, false, true, true]);
}

/// For |N| = 120 the figures have no zeros between the seven bits and the 1:
/// t = 15 is 1111000 1, t = 16 is 0000000 1, t = 4 is 0100000 1.
#[test]
fn format_of_15_bytes() {
    let nonce = bytes("0123456789abcdeffedcba98765432");
    assert_eq!(
        format(15, &nonce),
        block("f10123456789abcdeffedcba98765432")
    );
    assert_eq!(
        format(16, &nonce),
        block("010123456789abcdeffedcba98765432")
    );
    assert_eq!(format(4, &nonce), block("410123456789abcdeffedcba98765432"));
}

/// 01, "The nonce block": its words hold for nonces of 1 to 14 bytes.
#[test]
fn format_of_1_to_14_bytes() {
    for t in 4..=16 {
        for k in 1..=14 {
            let nonce = rules::nonce(k);
            let mut expected = ZERO;
            expected[0] = (2 * (8 * t % 128)) as u8;
            expected[15 - k] = 0x01;
            expected[16 - k..].copy_from_slice(&nonce);
            assert_eq!(format(t, &nonce), expected);
        }
    }
}

#[test]
fn nonces_of_0_and_16_bytes_are_refused_and_the_output_kept() {
    for mode in MODES {
        for k in [0, 16] {
            for t in 4..=16 {
                check_refused_and_kept(mode, 16, k, t, 2);
            }
        }
    }
}

/// Sealing and opening 40 bytes with room enough.
pub fn check_refused_and_kept(mode: Mode, key_bytes: usize, k: usize, t: usize, number: u8) {
    let (key, nonce) = (Key::Raw(rules::key(key_bytes)), rules::nonce(k));
    let (data, body) = (rules::data(5), rules::message(40));
    for call in [seal, open] {
        let mut output = vec![0xa5; 60];
        let answer = call(mode, &key, &nonce, &data, &body, t, &mut output);
        assert_eq!((answer.number, answer.length), (number, 0));
        assert_eq!(output, [0xa5; 60]);
    }
}

#[test]
fn a_nonce_of_15_bytes_seals_and_opens_at_every_t() {
    for mode in MODES {
        for t in 4..=16 {
            for len in [0, 1, 16, 17, 33] {
                check_round_trip(mode, t, len);
            }
        }
    }
}

fn check_round_trip(mode: Mode, t: usize, len: usize) {
    let key = Key::Raw(rules::key(32));
    let (nonce, data, message) = (rules::nonce(15), rules::data(17), rules::message(len));
    let mut sealed = vec![0xa5; len + t];
    let answer = seal(mode, &key, &nonce, &data, &message, t, &mut sealed);
    assert_eq!((answer.number, answer.length), (0, len + t));
    let mut output = vec![0xa5; len];
    let answer = open(mode, &key, &nonce, &data, &sealed, t, &mut output);
    assert_eq!((answer.number, answer.length), (0, len));
    assert_eq!(output, message);
}

#[test]
fn opening_undoes_sealing() {
    let (n, ciphered) = (rules::nonce(12), FirstMask::Ciphered);
    for edition in EDITIONS {
        for a in [rules::data(0), rules::data(17)] {
            for len in 0..200 {
                let m = rules::message(len);
                let (c, tag) = otr_e(edition, &stand_in, ciphered, 16, &n, &a, &m);
                assert_eq!((c.len(), tag.len()), (len, BLOCK_BYTES));
                let opened = otr_d(edition, &stand_in, ciphered, &n, &a, &c, &tag);
                assert_eq!(opened, Some(m));
            }
        }
    }
}

#[test]
fn every_changed_bit_is_refused_and_the_output_zeroed() {
    for mode in MODES {
        for k in [14, 15] {
            for len in [0, 1, 16, 17, 32, 33, 48, 49] {
                check_changed_bits(mode, &rules::nonce(k), len);
            }
        }
    }
}

fn check_changed_bits(mode: Mode, nonce: &[u8], len: usize) {
    let key = Key::Raw(rules::key(24));
    let (data, message) = (rules::data(5), rules::message(len));
    let mut sealed = vec![0xa5; len + 12];
    let answer = seal(mode, &key, nonce, &data, &message, 12, &mut sealed);
    assert_eq!((answer.number, answer.length), (0, len + 12));
    for bit in 0..8 * sealed.len() {
        sealed[bit / 8] ^= 1 << (bit % 8);
        let mut output = vec![0xa5; len + 3];
        let answer = open(mode, &key, nonce, &data, &sealed, 12, &mut output);
        assert_eq!((answer.number, answer.length), (7, 0));
        assert_eq!(output, [vec![0; len], vec![0xa5; 3]].concat());
        sealed[bit / 8] ^= 1 << (bit % 8);
    }
}

/// For one short odd block TE = E(3^2 L xor padded M), L = E(Format): 01 by hand.
#[test]
fn empty_message_is_one_short_block() {
    let (n, ciphered) = (rules::nonce(12), FirstMask::Ciphered);
    let u = stand_in(&format(16, &n));
    let mut input = times_3_squared(&u);
    input[0] ^= 0x80;
    let (c, tag) = otr_e(Third(Parallel), &stand_in, ciphered, 16, &n, &[], &[]);
    assert!(c.is_empty());
    assert_eq!(tag, stand_in(&input));
}

#[test]
fn the_host_program_gets_every_seam_and_every_refusal() {
    for mode in MODES {
        let mut answers = [0; 11];
        for request in firmware::requests(mode) {
            answers[usize::from(request.call().0.number)] += 1;
        }
        let keys_nonces_tags = 3 * 3 * 3;
        assert_eq!(answers[0], keys_nonces_tags * 6 * 11);
        for refusal in [1, 2, 3, 4, 5, 6, 8, 10] {
            assert!(answers[refusal] > 0, "{refusal}");
        }
    }
}
