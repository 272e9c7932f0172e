//! Tests of the first edition, by hand from figure 1 of 003, and of the edition that a call
//! names (wish 7 of 02).

use crate::aes::Aes;
use crate::block::{double, full, pad, times_3, xor, xor_first, Block, Cipher, ZERO};
use crate::data_pass::{af_first, FirstMask};
use crate::edition::Edition::First;
use crate::edition::{Mode, FIRST, MODES, THIRD_PARALLEL, THIRD_SERIAL};
use crate::exchange::Exchange;
use crate::generator::Generator;
use crate::otr::otr_e;
use crate::request::{Request, FILL};
use crate::rules;
use crate::runs_tests::{answer, sealing};
use crate::seam_lengths::{DATA, MESSAGES};
use crate::seam_requests::{cut_down, in_other_modes, seam_requests, NO_EDITIONS};
use crate::standin::stand_in;
use crate::tests::{block, check_refused_and_kept};

/// gamma = E(0^n), doubled four times: 2 gamma, Q, and Q once and twice doubled.
#[test]
fn masks_of_data() {
    let mut x = stand_in(&ZERO);
    for expected in [
        "0b121920272e353c434a51585f666d74",
        "162432404e5c6a788694a2b0beccdae8",
        "2c4864809cb8d4f10d2945617d99b5d0",
        "5890c9013971a9e21a528ac2fb336ba0",
        "b121920272e353c434a51585f666d740",
    ] {
        assert_eq!(x, block(expected));
        x = double(&x);
    }
}

/// AF: Q xor gamma for a short last block, Q xor 2 gamma for a full one. The blocks before are
/// their own masks Q, so that line 5 gives E(0^n) = gamma for each.
#[test]
fn ta_of_one_two_and_three_blocks() {
    let (all, gamma) = ([0xff; 16], stand_in(&ZERO));
    let q = double(&double(&gamma));
    let q2 = double(&q);
    for (data, last_input) in [
        (vec![0xff], "d8da7da0bb96e1cd4e63143922ffd8a4"),
        (all.to_vec(), "c593a93f2d1b41767442182e3caa90c7"),
        (
            [&q[..], &[0xff]].concat(),
            "a710c9013971a9e21a528ac2fb336ba0",
        ),
        ([q, all].concat(), "ba591d9eaffc0959207386d5e56623c3"),
        (
            [&q[..], &q2, &[0xff]].concat(),
            "45b38b2255cd66f877ef44dda900ba34",
        ),
    ] {
        let ta = af_first(&stand_in, gamma, &data);
        assert_eq!(ta, stand_in(&block(last_input)));
    }
}

/// EF, line 2: the nonce, delta, L = 4 delta and 3L, with which an empty message has
/// TE = E(3L xor 80 00...). The tag length is in none of them.
#[test]
fn nonces_of_1_12_and_15_bytes() {
    for (k, nonce_block, delta, l, l3) in [
        (
            1,
            "01800000000000000000000000000000",
            "90921920272e353c434a51585f666d77",
            "424864809cb8d4f10d2945617d99b4d2",
            "c6d8ad81a5c97d13177bcfa386aadd76",
        ),
        (
            12,
            "010e1b2835424f5c6976839080000000",
            "3aa91887f665d443b22190a8df666d77",
            "eaa4621fd997510ec88642a37d99b5dc",
            "3feca6206ab9f313598ac7e586aadee3",
        ),
        (
            15,
            "010e1b2835424f5c697683909daab780",
            "3aa91887f665d443b22190ff6edd80f7",
            "eaa4621fd997510ec88643fdbb7603dc",
            "3feca6206ab9f313598ac406cd9a04e3",
        ),
    ] {
        assert_eq!(pad(&rules::nonce(k)), block(nonce_block));
        assert_eq!(stand_in(&block(nonce_block)), block(delta));
        assert_eq!(double(&double(&block(delta))), block(l));
        assert_eq!(times_3(&block(l)), block(l3));
        let te = stand_in(&xor(&block(l3), &pad(&[])));
        for t in 4..=16 {
            let (c, tag) = sealed(&stand_in, t, &rules::nonce(k), &[], &[]);
            assert_eq!((c, tag), (vec![], te[..t].to_vec()));
        }
    }
}

fn sealed(e: Cipher, t: usize, n: &[u8], a: &[u8], m: &[u8]) -> (Vec<u8>, Vec<u8>) {
    otr_e(First, e, FirstMask::Ciphered, t, n, a, m)
}

/// Figure 1 as it stands.
#[test]
fn every_length_as_the_figure_says() {
    let aes = Aes::new(&rules::key(24)).unwrap();
    for len in 0..=130 {
        for (k, data) in [(1, 0), (7, 5), (12, 16), (14, 17), (15, 48)] {
            let (n, a, m) = (rules::nonce(k), rules::data(data), rules::message(len));
            check_as_the_figure_says(&stand_in, &n, &a, &m);
            check_as_the_figure_says(&|b| aes.cipher(b), &n, &a, &m);
        }
    }
}

/// OTR-E, lines 1 to 5.
fn check_as_the_figure_says(e: Cipher, n: &[u8], a: &[u8], m: &[u8]) {
    let (c, te) = ef(e, n, m);
    let ta = if a.is_empty() { ZERO } else { af(e, a) };
    let tag = xor(&te, &ta);
    for t in [4, 15, 16] {
        assert_eq!(sealed(e, t, n, a, m), (c.clone(), tag[..t].to_vec()));
    }
}

/// EF, line by line. M[i] is message_block(i), and c[0] is not used.
fn ef(e: Cipher, n: &[u8], message: &[u8]) -> (Vec<u8>, Block) {
    let mut sigma = ZERO;
    let delta = e(&pad(n));
    let mut l = double(&double(&delta));
    let m = message.len().div_ceil(16).max(1);
    let message_block = |i: usize| &message[16 * (i - 1)..message.len().min(16 * i)];
    let mut c = vec![Vec::new(); m + 1];
    for i in 1..=m.div_ceil(2) - 1 {
        let [odd, even] = [2 * i - 1, 2 * i].map(|place| full(message_block(place)));
        let c_odd = xor(&e(&xor(&l, &odd)), &even);
        let c_even = xor(&e(&xor(&xor(&l, &delta), &c_odd)), &odd);
        (c[2 * i - 1], c[2 * i]) = (c_odd.to_vec(), c_even.to_vec());
        sigma = xor(&sigma, &even);
        l = double(&l);
    }
    let last = message_block(m);
    let l_star;
    if m % 2 == 0 {
        l_star = xor(&l, &delta);
        let before = full(message_block(m - 1));
        let z = e(&xor(&l, &before));
        c[m] = xor_first(&z, last);
        c[m - 1] = xor(&e(&xor(&l_star, &pad(&c[m]))), &before).to_vec();
        sigma = xor(&xor(&sigma, &z), &pad(&c[m]));
    } else {
        l_star = l;
        c[m] = xor_first(&e(&l_star), last);
        sigma = xor(&sigma, &pad(last));
    }
    let te = if last.len() != 16 {
        e(&xor(&times_3(&l_star), &sigma))
    } else {
        e(&xor(&xor(&times_3(&l_star), &delta), &sigma))
    };
    (c.concat(), te)
}

/// AF, line by line.
fn af(e: Cipher, data: &[u8]) -> Block {
    let mut xi = ZERO;
    let gamma = e(&ZERO);
    let mut q = double(&double(&gamma));
    let a = data.len().div_ceil(16);
    for i in 1..a {
        xi = xor(&xi, &e(&xor(&q, &full(&data[16 * (i - 1)..16 * i]))));
        q = double(&q);
    }
    let last = &data[16 * (a - 1)..];
    xi = xor(&xi, &pad(last));
    if last.len() != 16 {
        e(&xor(&xor(&q, &gamma), &xi))
    } else {
        e(&xor(&xor(&q, &double(&gamma)), &xi))
    }
}

#[test]
fn at_the_seams_opening_gives_the_message_back() {
    for mode in MODES {
        for k in [1, 12, 15] {
            for data in DATA {
                for message in MESSAGES {
                    let sealing = Request {
                        nonce: rules::nonce(k),
                        ..sealing(mode, 16, data, message)
                    };
                    let (answer, output) = sealing.opening().unwrap().call();
                    assert_eq!((answer.number, answer.length), (0, message));
                    assert_eq!(output, sealing.body);
                }
            }
        }
    }
}

/// The first edition does not take in the tag length; the third does, in both forms.
#[test]
fn a_shorter_tag_is_a_prefix_in_the_first_edition_alone() {
    for data in [0, 5, 16] {
        for message in [0, 1, 16, 17, 32, 33, 48] {
            for t in 4..=15 {
                for mode in MODES {
                    let whole = sealing(mode, 16, data, message);
                    let shorter = Request {
                        t,
                        room: message + t,
                        ..whole.clone()
                    };
                    let (whole, shorter) = (whole.call().1, shorter.call().1);
                    assert_eq!(whole.starts_with(&shorter), mode == FIRST);
                    let same_ciphertext = whole[..message] == shorter[..message];
                    assert_eq!(same_ciphertext, mode == FIRST || message == 0);
                }
            }
        }
    }
}

/// So what one edition sealed with 16 bytes of tag opens with fewer in the first alone.
#[test]
fn a_tag_cut_down_opens_in_the_first_edition_alone() {
    let draw = &mut Generator::new(1);
    for mode in MODES {
        let openings = cut_down(draw, mode);
        assert_eq!(openings.len(), 12);
        for opening in openings {
            let number = if mode == FIRST { 0 } else { 7 };
            assert_eq!(answer(&opening).number, number);
        }
    }
}

/// Wish 7 of 02: 10 is checked before 8 and 1, so that no other fault hides it.
#[test]
fn other_editions_are_refused_with_10_and_the_output_kept() {
    for edition in NO_EDITIONS
        .into_iter()
        .chain([65_537, (1 << 32) + 1, (1 << 32) + 3, usize::MAX])
    {
        for form in [0, 1, 2, usize::MAX] {
            for (key, k, t) in [(16, 12, 16), (17, 12, 16), (16, 16, 16), (17, 0, 3)] {
                check_refused_and_kept(Mode::new(edition, form), key, k, t, 10);
            }
        }
    }
}

/// 8 is then checked before 1.
#[test]
fn edition_1_has_no_form_but_the_parallel_one() {
    for form in [1, 2, 3, 255, 256, 65_536, 1 << 32, usize::MAX] {
        for (key, k, t) in [(16, 12, 16), (17, 12, 16), (16, 16, 16), (17, 0, 3)] {
            check_refused_and_kept(Mode::new(1, form), key, k, t, 8);
        }
    }
    for (key, k, t, number) in [(17, 16, 3, 1), (16, 16, 3, 2), (16, 12, 3, 3)] {
        check_refused_and_kept(FIRST, key, k, t, number);
    }
}

/// But with the serial form edition 1 answers 8, whoever sealed.
#[test]
fn what_one_edition_or_form_sealed_the_others_refuse() {
    for mode in MODES {
        for data in [0, 5, 16, 17] {
            for message in [0, 1, 16, 17, 32, 33, 48] {
                let opening = Request {
                    room: message + 3,
                    ..sealing(mode, 16, data, message).opening().unwrap()
                };
                let others = in_other_modes(&opening);
                assert_eq!(others.len(), 3);
                others.iter().for_each(check_refused_in_other_mode);
            }
        }
    }
}

fn check_refused_in_other_mode(opening: &Request) {
    let message = opening.room - 3;
    let (answer, output) = opening.call();
    let number = if opening.mode == Mode::new(1, 1) {
        8
    } else {
        7
    };
    assert_eq!((answer.number, answer.length), (number, 0));
    let first = if number == 8 { FILL } else { 0 };
    assert_eq!(output, [vec![first; message], vec![FILL; 3]].concat());
}

/// Each edition meets every answer that it has; 10 comes where there is no edition.
#[test]
fn the_seam_requests_meet_every_answer_in_each_edition() {
    let requests = seam_requests();
    let meets = |edition: usize, number: u8| {
        requests
            .iter()
            .filter(|request| request.mode.edition == edition)
            .any(|request| answer(request).number == number)
    };
    for number in 0..=8 {
        assert!(meets(1, number) && meets(3, number), "{number}");
    }
    assert!(NO_EDITIONS.into_iter().all(|edition| meets(edition, 10)));
}

#[test]
fn the_request_line_has_the_edition_and_then_the_form() {
    for (mode, start) in [
        (THIRD_PARALLEL, "seal 3 0 02132435"),
        (THIRD_SERIAL, "seal 3 1 02132435"),
        (FIRST, "seal 1 0 02132435"),
    ] {
        let line = Exchange::of_call(&sealing(mode, 16, 7, 16));
        assert!(line.request.starts_with(start));
        assert_eq!(line.request.split_whitespace().count(), 9);
        assert!(line.answer.starts_with("0 32 5 "));
    }
    let refused = Exchange::of_call(&sealing(Mode::new(2, 2), 16, 7, 16));
    assert!(refused.answer.starts_with("10 0 0 a5a5"));
}
