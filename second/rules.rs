//! The fixed rules for the bytes of the rows and of the seam table.

use crate::block::{full, Block, BLOCK_BYTES};

pub fn message(len: usize) -> Vec<u8> {
    by_rule(7, 3, len)
}

pub fn data(len: usize) -> Vec<u8> {
    by_rule(11, 5, len)
}

pub fn nonce(len: usize) -> Vec<u8> {
    by_rule(13, 1, len)
}

pub fn key(len: usize) -> Vec<u8> {
    by_rule(17, 2, len)
}

/// A first mask to lend that is not E(0^n).
pub fn lent_mask() -> Block {
    full(&by_rule(19, 7, BLOCK_BYTES))
}

/// Byte i is factor * i + constant, modulo 256.
pub fn by_rule(factor: usize, constant: usize, len: usize) -> Vec<u8> {
    (0..len)
        .map(|i| ((factor * i + constant) % 256) as u8)
        .collect()
}
