//! AES forward (FIPS 197), by four tables that join substitution and column mixing.
//!
//! A column of the state is a `u32`, its first byte on top.

use super::block::Block;

type Columns = [u32; 4];

/// The cipher under one key, with 11, 13 or 15 round keys, one more than rounds. That their number
/// is known to the compiler saves an eighth of the instructions.
pub struct Aes<const KEYS: usize> {
    round_keys: [Columns; KEYS],
}

impl<const KEYS: usize> Aes<KEYS> {
    /// Key expansion (FIPS 197, section 5.2), for a key of `KEYS` - 7 words.
    pub fn new(key: &[u8]) -> Self {
        let key_words = KEYS - 7;
        let mut words = [0; 60];
        for (word, bytes) in words.iter_mut().zip(key.chunks_exact(4)) {
            *word = u32::from_be_bytes(bytes.try_into().expect("4 bytes"));
        }
        let mut round_constant = 1;
        for i in key_words..4 * KEYS {
            let mut step = words[i - 1];
            if i % key_words == 0 {
                step = substituted_word(step.rotate_left(8)) ^ u32::from(round_constant) << 24;
                round_constant = times_x(round_constant);
            } else if key_words == 8 && i % key_words == 4 {
                step = substituted_word(step);
            }
            words[i] = words[i - key_words] ^ step;
        }
        let mut round_keys = [[0; 4]; KEYS];
        for (round_key, words) in round_keys.iter_mut().zip(words.chunks_exact(4)) {
            round_key.copy_from_slice(words);
        }
        Aes { round_keys }
    }

    /// The papers' E. Inlined it took over twice the time: columns went through vector registers.
    #[inline(never)]
    pub fn encrypt(&self, block: Block) -> Block {
        let mut state = sum(columns(block), &self.round_keys[0]);
        for round_key in &self.round_keys[1..KEYS - 1] {
            state = round(state, round_key);
        }
        joined(sum(last_round(state), &self.round_keys[KEYS - 1]))
    }
}

fn columns(block: Block) -> Columns {
    [96, 64, 32, 0].map(|shift| (block >> shift) as u32)
}

fn joined(columns: Columns) -> Block {
    columns
        .iter()
        .fold(0, |block, &column| block << 32 | Block::from(column))
}

fn sum([a, b, c, d]: Columns, key: &Columns) -> Columns {
    [a ^ key[0], b ^ key[1], c ^ key[2], d ^ key[3]]
}

/// A round but the last. Row shifting is in the choice of the columns: each new one has a byte of
/// every old one. The order of the terms is the fastest of seven that were tried.
fn round([a, b, c, d]: Columns, key: &Columns) -> Columns {
    let column = |key: u32, a: u32, b: u32, c: u32, d: u32| {
        key ^ MIXED[3][(d & 255) as usize]
            ^ MIXED[2][(c >> 8 & 255) as usize]
            ^ MIXED[1][(b >> 16 & 255) as usize]
            ^ MIXED[0][(a >> 24) as usize]
    };
    [
        column(key[0], a, b, c, d),
        column(key[1], b, c, d, a),
        column(key[2], c, d, a, b),
        column(key[3], d, a, b, c),
    ]
}

/// The last round mixes no columns.
fn last_round([a, b, c, d]: Columns) -> Columns {
    let column = |a: u32, b: u32, c: u32, d: u32| {
        substituted(d)
            | substituted(c >> 8) << 8
            | substituted(b >> 16) << 16
            | substituted(a >> 24) << 24
    };
    [
        column(a, b, c, d),
        column(b, c, d, a),
        column(c, d, a, b),
        column(d, a, b, c),
    ]
}

/// Of the lowest byte.
fn substituted(word: u32) -> u32 {
    u32::from(SUBSTITUTED[(word & 255) as usize])
}

fn substituted_word(word: u32) -> u32 {
    [24, 16, 8, 0]
        .iter()
        .fold(0, |result, shift| result << 8 | substituted(word >> shift))
}

static SUBSTITUTED: [u8; 256] = substitutions();

/// For each row of the state: what a byte there, substituted, adds to its column when it is mixed.
static MIXED: [[u32; 256]; 4] = mixed();

/// FIPS 197, section 4.2.1.
const fn times_x(a: u8) -> u8 {
    a << 1 ^ (a >> 7) * 0x1b
}

/// Of bytes as field elements (FIPS 197, section 4.2), by the bits of `b` from the top.
const fn product(a: u8, b: u8) -> u8 {
    let mut sum = 0;
    let mut bit = 8;
    while bit > 0 {
        bit -= 1;
        sum = times_x(sum) ^ (b >> bit & 1) * a;
    }
    sum
}

/// The power 254 = 2 + 4 + ... + 128, which is the inverse, and 0 for 0.
const fn inverse(a: u8) -> u8 {
    let mut result = 1;
    let mut power = a;
    let mut squarings = 0;
    while squarings < 7 {
        power = product(power, power);
        result = product(result, power);
        squarings += 1;
    }
    result
}

/// FIPS 197, section 5.1.1: the affine step behind the inverse.
const fn substitution(a: u8) -> u8 {
    let b = inverse(a);
    b ^ b.rotate_left(1) ^ b.rotate_left(2) ^ b.rotate_left(3) ^ b.rotate_left(4) ^ 0x63
}

const fn substitutions() -> [u8; 256] {
    let mut table = [0; 256];
    let mut a = 0;
    while a < 256 {
        table[a] = substitution(a as u8);
        a += 1;
    }
    table
}

/// FIPS 197, section 5.1.3: the first byte of a column is mixed in as 02 01 01 03, and each further
/// one a byte lower.
const fn mixed() -> [[u32; 256]; 4] {
    let substituted = substitutions();
    let mut tables = [[0; 256]; 4];
    let mut a = 0;
    while a < 256 {
        let s = substituted[a];
        let column = u32::from_be_bytes([product(2, s), s, s, product(3, s)]);
        tables[0][a] = column;
        tables[1][a] = column.rotate_right(8);
        tables[2][a] = column.rotate_right(16);
        tables[3][a] = column.rotate_right(24);
        a += 1;
    }
    tables
}
