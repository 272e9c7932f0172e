//! Carryings with two keys that are equal (11, wish 8 of 02) or nearly so.

use crate::carry_request::CarryRequest;
use crate::carry_requests::Way;
use crate::generator::Generator;
use crate::key::Key;
use crate::request::Request;
use crate::seam_lengths::{KEYS, USUAL};
use crate::seam_requests::sealing;

/// A shorter key and a longer one.
const LENGTHS: [(usize, usize); 3] = [(16, 24), (24, 32), (16, 32)];

pub fn pairs_of_keys(draw: &mut Generator, way: Way) -> Vec<CarryRequest> {
    let mut pairs = Vec::new();
    for len in KEYS {
        pairs.extend(one_length(&draw.bytes(len)));
    }
    for (short, long) in LENGTHS {
        pairs.extend(beginning(short, &draw.bytes(long)));
        pairs.extend(beginning(short, &vec![0; long]));
    }
    pairs
        .into_iter()
        .map(|pair| under(draw, way, pair))
        .collect()
}

/// Equal keys; and such as differ in one bit: the first, one in the middle and the last.
fn one_length(key: &[u8]) -> Vec<[Vec<u8>; 2]> {
    let changed = |place: usize, bit: u8| {
        let mut other = key.to_vec();
        other[place] ^= bit;
        [key.to_vec(), other]
    };
    let last = key.len() - 1;
    vec![
        [key.to_vec(), key.to_vec()],
        changed(0, 0x80),
        changed(key.len() / 2, 0x10),
        changed(last, 0x01),
    ]
}

/// Keys that differ in length alone: they are not equal. Either is the old side's.
fn beginning(short: usize, long: &[u8]) -> [[Vec<u8>; 2]; 2] {
    let short = &long[..short];
    [[short, long], [long, short]].map(|pair| pair.map(<[u8]>::to_vec))
}

fn under(draw: &mut Generator, way: Way, [old, new]: [Vec<u8>; 2]) -> CarryRequest {
    let mut side = |mode, key| Request {
        key: Key::Raw(key),
        ..sealing(draw, mode, USUAL)
    };
    CarryRequest::of(&side(way.0, old), side(way.1, new))
}
