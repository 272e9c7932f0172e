//! The pass over associated data that is not empty.

use super::block::{double, full, padded, times_3, times_3_squared, Block, BLOCK_BYTES};

/// AF (000, figure 1): TA, parallel.
pub fn af(e: &impl Fn(Block) -> Block, data: &[u8]) -> Block {
    let (blocks, last) = but_the_last(data);
    let mut q = e(0);
    let mut xi = 0;
    for block in blocks.chunks_exact(BLOCK_BYTES) {
        xi ^= e(q ^ full(block));
        q = double(q);
    }
    let mask = match last.len() {
        BLOCK_BYTES => times_3_squared(q),
        _ => times_3(q),
    };
    e(mask ^ xi ^ padded(last))
}

/// AF-S (000, figure 3): TA, serial.
pub fn af_s(e: &impl Fn(Block) -> Block, data: &[u8]) -> Block {
    let (blocks, last) = but_the_last(data);
    let q = e(0);
    let mut xi = 0;
    for block in blocks.chunks_exact(BLOCK_BYTES) {
        xi = e(xi ^ full(block));
    }
    let mask = match last.len() {
        BLOCK_BYTES => double(double(q)),
        _ => double(q),
    };
    e(mask ^ xi ^ padded(last))
}

fn but_the_last(data: &[u8]) -> (&[u8], &[u8]) {
    data.split_at((data.len() - 1) / BLOCK_BYTES * BLOCK_BYTES)
}
