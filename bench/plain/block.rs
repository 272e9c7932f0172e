//! Blocks of sixteen bytes as numbers, the first byte on top, and the field they make (000,
//! section 1.3).

pub const BLOCK_BYTES: usize = 16;

pub type Block = u128;

pub fn full(bytes: &[u8]) -> Block {
    Block::from_be_bytes(bytes.try_into().expect("16 bytes"))
}

/// The papers' underline: a short block gets 80 and zeros, and a full one stays.
pub fn padded(bytes: &[u8]) -> Block {
    let mut block = [0; BLOCK_BYTES];
    block[..bytes.len()].copy_from_slice(bytes);
    if let Some(behind) = block.get_mut(bytes.len()) {
        *behind = 0x80;
    }
    Block::from_be_bytes(block)
}

/// Writes as many first bytes of a block as there is room for.
pub fn write_first(block: Block, out: &mut [u8]) {
    out.copy_from_slice(&block.to_be_bytes()[..out.len()]);
}

/// Formula (1).
pub fn double(x: Block) -> Block {
    x << 1 ^ (x >> 127) * 0x87
}

pub fn times_3(x: Block) -> Block {
    double(x) ^ x
}

/// 3(3X), which is 4X ^ X.
pub fn times_3_squared(x: Block) -> Block {
    double(double(x)) ^ x
}

pub fn times_7(x: Block) -> Block {
    double(double(x)) ^ double(x) ^ x
}
