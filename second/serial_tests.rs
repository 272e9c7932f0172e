//! Tests of the serial form, by hand from figure 3 of 000, and of the form that a call names.

use crate::block::{double, pad, times_3_squared, times_7, xor, Block, ZERO};
use crate::data_pass::{af_s, FirstMask};
use crate::edition::{Edition::Third, Mode};
use crate::form::Form::Serial;
use crate::otr::{format, otr_e};
use crate::rules;
use crate::standin::stand_in;
use crate::tests::{block, check_refused_and_kept};

/// What AF-S gives E last for the single byte ff: 2Q xor ff 80 00...
const LAST_FOR_FF: &str = "e9a432404e5c6a788694a2b0beccdae8";

/// Q = E(0^n), byte i of which is 7i + 11, doubled twice.
#[test]
fn masks_of_data() {
    let q = stand_in(&ZERO);
    assert_eq!(q, block("0b121920272e353c434a51585f666d74"));
    let q2 = double(&q);
    assert_eq!(q2, block("162432404e5c6a788694a2b0beccdae8"));
    assert_eq!(double(&q2), block("2c4864809cb8d4f10d2945617d99b5d0"));
}

/// AF-S: 2Q for a short last block, 4Q for a full one. Byte i of E(01...01) is 7i + 19;
/// the second of three blocks is just that, so that line 5 then gives E(0^n) = Q.
#[test]
fn ta_of_one_two_and_three_blocks() {
    let (ones, all) = ([0x01; 16], [0xff; 16]);
    let e_ones = block("131a21282f363d444b525960676e757c");
    for (data, last_input) in [
        (vec![0xff], LAST_FOR_FF),
        (all.to_vec(), "d3b79b7f63472b0ef2d6ba9e82664a2f"),
        (
            [&ones[..], &[0xff]].concat(),
            "fabe1368616a573ccdc6fbd0d9a2af94",
        ),
        ([ones, all].concat(), "c0adba574c71164ab984e3fee5083f53"),
        (
            [&ones[..], &e_ones, &[0xff]].concat(),
            "e2b62b6069725f44c5def3e8e1aab79c",
        ),
    ] {
        let ta = af_s(&stand_in, stand_in(&ZERO), &data);
        assert_eq!(ta, stand_in(&block(last_input)));
    }
}

/// EF-S, line 2: TA is zero, and U is doubled all the same.
#[test]
fn empty_data_still_doubles_u() {
    let u = double(&stand_in(&format(16, &rules::nonce(12))));
    check_one_block(16, &[], &u);
}

/// OTR-E, line 4: TA goes into U and not into the tag.
#[test]
fn the_tag_does_not_take_ta() {
    let ta = stand_in(&block(LAST_FOR_FF));
    for t in [4, 7, 16] {
        let u = double(&xor(&stand_in(&format(t, &rules::nonce(12))), &ta));
        check_one_block(t, &[0xff], &u);
    }
}

/// One odd block, short and full: EF-S, lines 17 to 21.
fn check_one_block(t: usize, a: &[u8], u: &Block) {
    let sealed = |m: &[u8]| {
        let (n, ciphered) = (rules::nonce(12), FirstMask::Ciphered);
        otr_e(Third(Serial), &stand_in, ciphered, t, &n, a, m)
    };
    let short = sealed(&[0x5a]);
    let te = stand_in(&xor(&times_3_squared(u), &pad(&[0x5a])));
    assert_eq!(short, (vec![stand_in(u)[0] ^ 0x5a], te[..t].to_vec()));
    let m = [0x5a; 16];
    let full = sealed(&m);
    let te = stand_in(&xor(&times_7(u), &m));
    assert_eq!(full, (xor(&stand_in(u), &m).to_vec(), te[..t].to_vec()));
}

/// Wish 1 of 02: 8 is checked before 1, so that no other fault of the third edition hides it.
#[test]
fn other_forms_are_refused_with_8_and_the_output_kept() {
    for form in [2, 3, 255, 256, 257, 65_536, 99_999, usize::MAX] {
        for (key, k, t) in [(16, 12, 16), (17, 12, 16), (16, 16, 16), (17, 0, 3)] {
            check_refused_and_kept(Mode::new(3, form), key, k, t, 8);
        }
    }
}
