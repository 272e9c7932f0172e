//! Tests of what an early part may reveal (wish 12 of 02).

use crate::aes::Aes;
use crate::block::Cipher;
use crate::data_pass::FirstMask::Ciphered;
use crate::edition::Edition::{self, First, Third};
use crate::form::Form::{Parallel, Serial};
use crate::generator::Generator;
use crate::message_pass::df;
use crate::otr::{masks, otr_e, ta};
use crate::rules;
use crate::standin::stand_in;

const T: usize = 16;
const NONCE: usize = 12;
const PARALLEL: [Edition; 2] = [First, Third(Parallel)];

fn ciphertext(edition: Edition, e: Cipher, data: &[u8], message: &[u8]) -> Vec<u8> {
    otr_e(edition, e, Ciphered, T, &rules::nonce(NONCE), data, message).0
}

fn agree(bytes: usize, one: &[u8], other: &[u8]) -> bool {
    one[..bytes] == other[..bytes]
}

/// Two messages with j pairs and something behind them, the pairs equal in half of the cases;
/// each with data of its own.
#[test]
fn early_parts_agree_exactly_if_the_messages_do() {
    let aes = Aes::new(&rules::key(16)).unwrap();
    let mut generator = Generator::new(12);
    for round in 0..2000 {
        let bytes = 32 * (1 + generator.below(5));
        let pairs = generator.bytes(bytes);
        let mut others = pairs.clone();
        if round % 2 == 1 {
            others[generator.below(bytes)] ^= 1 << generator.below(8);
        }
        let mut behind = |pairs: &[u8]| {
            let len = 1 + generator.below(70);
            [pairs, &generator.bytes(len)].concat()
        };
        let (one, other) = (behind(&pairs), behind(&others));
        let mut data = || {
            let len = generator.below(40);
            generator.bytes(len)
        };
        let (data_one, data_other) = (data(), data());
        for edition in PARALLEL {
            let e = |b: &_| aes.cipher(b);
            let c_one = ciphertext(edition, &e, &data_one, &one);
            let c_other = ciphertext(edition, &e, &data_other, &other);
            assert_eq!(agree(bytes, &c_one, &c_other), round % 2 == 0);
        }
    }
}

/// Whether two messages agree on their first bytes, and whether their ciphertexts do, over the
/// stand-in cipher and without data.
fn seen(bytes: usize, edition: Edition, one: &[u8], other: &[u8]) -> (bool, bool) {
    let c_one = ciphertext(edition, &stand_in, &[], one);
    let c_other = ciphertext(edition, &stand_in, &[], other);
    (agree(bytes, one, other), agree(bytes, &c_one, &c_other))
}

/// 32 bytes are no pair where nothing follows. The longer message whose pair comes out as they
/// do is another: DF of what they give and one byte more.
#[test]
fn exactly_one_pair_stays_out() {
    let one = rules::message(32);
    for edition in PARALLEL {
        assert_eq!(seen(32, edition, &one, &rules::message(33)), (true, false));

        let c = [ciphertext(edition, &stand_in, &[], &one), vec![0]].concat();
        let ta = ta(edition, &stand_in, Ciphered, &[]);
        let masks = masks(edition, &stand_in, T, &rules::nonce(NONCE), &ta);
        let (longer, _) = df(&stand_in, masks, &c);
        assert_eq!(seen(32, edition, &one, &longer), (false, true));
    }
}

/// A pair and a half, with other bytes behind them.
#[test]
fn half_a_pair_stays_out() {
    let one = rules::message(65);
    let other = [&one[..48], &rules::message(17)].concat();
    for edition in PARALLEL {
        assert_eq!(seen(48, edition, &one, &other), (true, false));
        assert_eq!(seen(32, edition, &one, &other), (true, true));
    }
}

/// The serial U is made of the data: figure 3 of 000, EF-S, line 2.
#[test]
fn the_serial_form_stays_out() {
    for (edition, alike) in [
        (First, true),
        (Third(Parallel), true),
        (Third(Serial), false),
    ] {
        let sealed = |data| ciphertext(edition, &stand_in, &rules::data(data), &rules::message(33));
        assert_eq!(agree(32, &sealed(5), &sealed(6)), alike);
    }
}
