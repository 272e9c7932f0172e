//! TA of associated data that is not empty: AF (000, figure 1), AF-S (000, figure 3) and AF of
//! the first edition (003, figure 1), with the E(0^n) of their line 2 handed in (wish 9 of 02):
//! Q in 000, gamma in 003.
//!
//! The transcript of 000's figures lost the underline that stands for padding: AF, line 7,
//! and AF-S, line 6, take the last block padded. 003 has it in AF, line 7.

use crate::block::{
    double, full, pad, partition, times_3, times_3_squared, xor, Block, Cipher, BLOCK_BYTES, ZERO,
};

/// Where that E(0^n) comes from.
#[derive(Clone, Copy)]
pub enum FirstMask {
    /// Line 2 as it stands: E(0^n), which is a run.
    Ciphered,
    /// One that is lent, as it stands: no run.
    Lent(Block),
}

impl FirstMask {
    /// For data that is not empty.
    pub fn block(self, e: Cipher) -> Block {
        match self {
            FirstMask::Ciphered => e(&ZERO),
            FirstMask::Lent(block) => block,
        }
    }
}

/// AF. Lines 8 and 9: a short last block has 3Q, a full one 3^2 Q.
pub fn af(e: Cipher, q: Block, a: &[u8]) -> Block {
    let (xi, q, last_is_short) = sum_of_blocks(e, q, a);
    let mask = if last_is_short {
        times_3(&q)
    } else {
        times_3_squared(&q)
    };
    e(&xor(&mask, &xi))
}

/// AF of 003. Line 2: Q is 4 gamma; lines 8 and 9: a short last block has Q xor gamma, a full
/// one Q xor 2 gamma.
pub fn af_first(e: Cipher, gamma: Block, a: &[u8]) -> Block {
    let gamma_2 = double(&gamma);
    let (xi, q, last_is_short) = sum_of_blocks(e, double(&gamma_2), a);
    let mask = if last_is_short {
        xor(&q, &gamma)
    } else {
        xor(&q, &gamma_2)
    };
    e(&xor(&mask, &xi))
}

/// AF in both, lines 1 and 3 to 7: Xi, Q, and whether A[a] is short.
fn sum_of_blocks(e: Cipher, mut q: Block, a: &[u8]) -> (Block, Block, bool) {
    let mut xi = ZERO;
    let (others, last) = but_the_last(a);
    for block in others {
        xi = xor(&xi, &e(&xor(&q, &block)));
        q = double(&q);
    }
    xi = xor(&xi, &pad(last));
    (xi, q, last.len() != BLOCK_BYTES)
}

/// AF-S. Lines 7 and 8: a short last block has 2Q, a full one 4Q; CMAC, of which 000 calls
/// it a variant, has them the other way round.
pub fn af_s(e: Cipher, q: Block, a: &[u8]) -> Block {
    let mut xi = ZERO;
    let (others, last) = but_the_last(a);
    for block in others {
        xi = e(&xor(&block, &xi));
    }
    xi = xor(&xi, &pad(last));
    let mask = if last.len() != BLOCK_BYTES {
        double(&q)
    } else {
        double(&double(&q))
    };
    e(&xor(&mask, &xi))
}

/// A[1] to A[a - 1], which are full, and A[a].
fn but_the_last(a: &[u8]) -> (Vec<Block>, &[u8]) {
    let blocks = partition(a);
    let (last, others) = (blocks[blocks.len() - 1], &blocks[..blocks.len() - 1]);
    (others.iter().map(|block| full(block)).collect(), last)
}
