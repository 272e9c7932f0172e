//! The command `products`: rows of products in the field of the doubling.

use crate::block::{full, Block, BLOCK_BITS, BLOCK_BYTES};
use crate::field::product;
use crate::hex;
use crate::rules;

pub fn command() -> String {
    factors().map(|(a, b)| line(&a, &b)).concat()
}

/// 1 on either side, x with and without a division, the highest power, and dense blocks.
fn factors() -> [(Block, Block); 9] {
    let (one, x, highest) = (power(0), power(1), power(BLOCK_BITS - 1));
    let (low, other_low) = (dense(7, 3), dense(11, 5));
    let (high, other_high) = (dense(23, 129), dense(29, 200));
    let ones = [0xff; BLOCK_BYTES];
    [
        (one, low),
        (high, one),
        (x, high),
        (x, low),
        (highest, x),
        (highest, highest),
        (low, other_low),
        (high, other_high),
        (ones, ones),
    ]
}

/// `A B PRODUCT` and the end of the line.
fn line(a: &Block, b: &Block) -> String {
    let [a_text, b_text, text] = [a, b, &product(a, b)].map(|block| hex::encode(block));
    format!("{a_text} {b_text} {text}\n")
}

/// x^i, for i below 128.
pub fn power(i: usize) -> Block {
    (1_u128 << i).to_be_bytes()
}

fn dense(factor: usize, constant: usize) -> Block {
    full(&rules::by_rule(factor, constant, BLOCK_BYTES))
}
