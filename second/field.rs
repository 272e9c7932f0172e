//! Products in the field of the doubling, with powers of 2 and of any two blocks: polynomials
//! over GF(2) modulo x^128 + x^7 + x^2 + x + 1, as strings of bits with the highest power first.
//! 2 is x. There is no doubling here, but one long division.

use crate::bits::{bits_of, bytes_of, zeros, Bits};
use crate::block::{full, Block, BLOCK_BITS};

/// The powers of x in the modulus: 01 decides for 128, where 000's prose prints 127.
const MODULUS: [usize; 5] = [128, 7, 2, 1, 0];

/// 2^i X: the bits of X with i zeros behind them, reduced.
pub fn times_power_of_2(x: &Block, i: usize) -> Block {
    let product = [bits_of(x), zeros(i)].concat();
    full(&bytes_of(&reduced(product)))
}

/// XY: every bit of X with every bit of Y, added up where their powers are, reduced.
pub fn product(x: &Block, y: &Block) -> Block {
    let (x_bits, y_bits) = (bits_of(x), bits_of(y));
    let mut product = zeros(2 * BLOCK_BITS - 1);
    for (i, x_bit) in x_bits.iter().enumerate() {
        for (j, y_bit) in y_bits.iter().enumerate() {
            product[i + j] ^= x_bit & y_bit;
        }
    }
    full(&bytes_of(&reduced(product)))
}

/// The remainder of the division by the modulus, for 128 bits or more.
fn reduced(mut bits: Bits) -> Bits {
    let modulus = modulus();
    let steps = bits.len() - BLOCK_BITS;
    for place in 0..steps {
        if bits[place] {
            for (bit, modulus_bit) in bits[place..].iter_mut().zip(&modulus) {
                *bit ^= modulus_bit;
            }
        }
    }
    bits.split_off(steps)
}

fn modulus() -> Bits {
    let mut bits = zeros(BLOCK_BITS + 1);
    for power in MODULUS {
        bits[BLOCK_BITS - power] = true;
    }
    bits
}
