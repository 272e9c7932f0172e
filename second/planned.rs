//! The calls of wish 13 of 02: a message sealed by a plan, in the third edition with parallel
//! data and under a raw key, and the planner.

use crate::block::{full, partition, xor, Block, Cipher, BLOCK_BYTES, ZERO};
use crate::call::{checked_to_6, done, refused, Answer, MESSAGE_MAX};
use crate::edition::THIRD_PARALLEL;
use crate::field::times_power_of_2;
use crate::key::Key;
use crate::masks::Masks;
use crate::message_pass::{ef_last, Core};
use crate::otr::{format, ta, tag};
use crate::plan::{accepted, pairs, plan_bytes, planner, Entry};

/// Checks 1 to 6 as sealing has them, then 13 for a plan that is not accepted.
pub fn seal_planned(
    key: &[u8],
    nonce: &[u8],
    data: &[u8],
    message: &[u8],
    plan: &[u8],
    t: usize,
    output: &mut [u8],
) -> Answer {
    let key = Key::Raw(key.to_vec());
    let room = output.len();
    let checked = checked_to_6(THIRD_PARALLEL, &key, nonce, data, message, t, room);
    let (edition, aes, first_mask) = match checked {
        Ok(checked) => checked,
        Err(number) => return refused(number),
    };
    let Some(plan) = accepted(plan, pairs(message.len())) else {
        return refused(13);
    };
    let e: Cipher = &|b| aes.cipher(b);
    let ta = ta(edition, e, first_mask, data);
    let u = e(&format(t, nonce));
    let (c, te) = ef_by_plan(e, &u, &plan, message);
    let tag = tag(edition, t, &te, &ta);
    done(&[c, tag].concat(), aes.runs(), output)
}

/// EF by a plan that is accepted: each entry's pair in the plan's order, into its own place;
/// then what remains, with the checksum of the pairs. The ciphertext C and TE.
pub fn ef_by_plan(e: Cipher, u: &Block, plan: &[Entry], message: &[u8]) -> (Vec<u8>, Block) {
    let blocks = partition(message);
    let (pairs, last) = blocks.split_at(2 * plan.len());
    let mut c = vec![0; BLOCK_BYTES * pairs.len()];
    for entry in plan {
        let i = usize::from(entry.pair);
        let (p, r) = (full(pairs[2 * i]), full(pairs[2 * i + 1]));
        c[2 * BLOCK_BYTES * i..][..2 * BLOCK_BYTES].copy_from_slice(&pair(e, u, i, &p, &r));
    }
    let mut core = Core::at(e, masks_of(u, plan.len()), checksum(pairs));
    let (c_last, te) = ef_last(&mut core, last);
    ([c, c_last].concat(), te)
}

/// Pair i by itself: 01, the message pass.
fn pair(e: Cipher, u: &Block, i: usize, p: &Block, r: &Block) -> Vec<u8> {
    let masks = masks_of(u, i);
    let first = xor(&e(&xor(&masks.l(), p)), r);
    let second = xor(&e(&xor(&masks.l_sharp(), &first)), p);
    [first, second].concat()
}

/// What pair i has, from U alone: L is U doubled i times, and L' is 3L. Behind all pairs the
/// last one or two blocks have it.
pub fn masks_of(u: &Block, i: usize) -> Masks {
    Masks::third(&times_power_of_2(u, i))
}

/// The second block of each pair.
fn checksum(pairs: &[&[u8]]) -> Block {
    pairs
        .chunks(2)
        .fold(ZERO, |sum, pair| xor(&sum, &full(pair[1])))
}

/// The planner: 5, then 6 for room for less than the whole plan. The cipher does not run.
pub fn plan(length: usize, output: &mut [u8]) -> Answer {
    if length > MESSAGE_MAX {
        return refused(5);
    }
    let plan = plan_bytes(&planner(pairs(length)));
    if output.len() < plan.len() {
        return refused(6);
    }
    done(&plan, 0, output)
}
