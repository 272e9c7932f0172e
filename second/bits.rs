//! Strings of bits, first bit first (000, section 1.3).

pub type Bits = Vec<bool>;

/// n2s(x, len): x as len bits, most significant first.
pub fn n2s(x: usize, len: usize) -> Bits {
    (0..len).rev().map(|place| (x >> place) & 1 == 1).collect()
}

/// 0^len.
pub fn zeros(len: usize) -> Bits {
    vec![false; len]
}

/// A string of bytes as a string of bits, each byte big endian.
pub fn bits_of(bytes: &[u8]) -> Bits {
    bytes
        .iter()
        .flat_map(|&byte| n2s(usize::from(byte), 8))
        .collect()
}

/// The other way: a string of whole bytes, eight bits each.
pub fn bytes_of(bits: &[bool]) -> Vec<u8> {
    bits.chunks(8)
        .map(|eight| eight.iter().fold(0, |byte, &bit| 2 * byte + u8::from(bit)))
        .collect()
}
