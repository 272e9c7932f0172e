//! Blocks of sixteen bytes: sum, padding, doubling (000, section 1.3).

pub const BLOCK_BYTES: usize = 16;
/// The paper's n.
pub const BLOCK_BITS: usize = 8 * BLOCK_BYTES;
pub type Block = [u8; BLOCK_BYTES];
pub const ZERO: Block = [0; BLOCK_BYTES];

/// The paper's E.
pub type Cipher<'a> = &'a dyn Fn(&Block) -> Block;

pub fn xor(x: &Block, y: &Block) -> Block {
    let mut sum = *x;
    for (s, y_byte) in sum.iter_mut().zip(y) {
        *s ^= y_byte;
    }
    sum
}

/// msb_|x|(z) xor x, for x of 0 to 16 bytes.
pub fn xor_first(z: &Block, x: &[u8]) -> Vec<u8> {
    x.iter()
        .zip(z)
        .map(|(x_byte, z_byte)| x_byte ^ z_byte)
        .collect()
}

/// X[1], ..., X[x] of X: the empty string is one empty block.
pub fn partition(x: &[u8]) -> Vec<&[u8]> {
    if x.is_empty() {
        return vec![x];
    }
    x.chunks(BLOCK_BYTES).collect()
}

/// A block known to be full.
pub fn full(x: &[u8]) -> Block {
    let mut block = ZERO;
    block.copy_from_slice(x);
    block
}

/// The underline of the paper: 10* padding of a short block; a full block stays.
pub fn pad(x: &[u8]) -> Block {
    let mut block = ZERO;
    block[..x.len()].copy_from_slice(x);
    if x.len() < BLOCK_BYTES {
        block[x.len()] = 0x80;
    }
    block
}

/// 2X, formula (1).
pub fn double(x: &Block) -> Block {
    let number = u128::from_be_bytes(*x);
    let shifted = number << 1;
    let top_bit_was_set = number >> 127 == 1;
    let doubled = if top_bit_was_set {
        shifted ^ 0x87
    } else {
        shifted
    };
    doubled.to_be_bytes()
}

/// 3X = 2X xor X.
pub fn times_3(x: &Block) -> Block {
    xor(&double(x), x)
}

/// 3^2 X = 3(3X).
pub fn times_3_squared(x: &Block) -> Block {
    times_3(&times_3(x))
}

/// 7X = 2(2X) xor 2X xor X.
pub fn times_7(x: &Block) -> Block {
    let x2 = double(x);
    let x4 = double(&x2);
    xor(&xor(&x4, &x2), x)
}
