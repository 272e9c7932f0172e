//! The forward cipher of FIPS 197, for keys of 16, 24 and 32 bytes, and over round keys as
//! a record holds them (wish 9 of 02). It counts how many times it ran (wish 6).

use std::cell::Cell;
use std::sync::OnceLock;

use crate::block::{full, xor, Block, BLOCK_BYTES, ZERO};

/// The round keys, one behind the other, with room for the 60 words of 14 rounds.
pub type RoundKeys = [u8; 240];
pub const ZERO_ROUND_KEYS: RoundKeys = [0; 240];

type Word = [u8; 4];

pub struct Aes {
    pub rounds: usize,
    pub round_keys: RoundKeys,
    runs: Cell<usize>,
}

impl Aes {
    /// None where the key has not 16, 24 or 32 bytes. The key expansion is no run.
    pub fn new(key: &[u8]) -> Option<Aes> {
        let rounds = match key.len() {
            16 => 10,
            24 => 12,
            32 => 14,
            _ => return None,
        };
        Aes::over(rounds, join(&expand_key(key, rounds)))
    }

    /// None where there are not 10, 12 or 14 rounds. The round keys are taken as they stand;
    /// what is behind those of the last round is not read.
    pub fn over(rounds: usize, round_keys: RoundKeys) -> Option<Aes> {
        if !matches!(rounds, 10 | 12 | 14) {
            return None;
        }
        Some(Aes {
            rounds,
            round_keys,
            runs: Cell::new(0),
        })
    }

    /// Byte r + 4c of a block is row r, column c of the state.
    pub fn cipher(&self, input: &Block) -> Block {
        self.runs.set(self.runs.get() + 1);
        let mut state = xor(input, &self.round_key(0));
        for round in 1..self.rounds {
            state = mix_columns(&shift_rows(&sub_bytes(&state)));
            state = xor(&state, &self.round_key(round));
        }
        state = shift_rows(&sub_bytes(&state));
        xor(&state, &self.round_key(self.rounds))
    }

    /// How many times `cipher` ran with this key so far.
    pub fn runs(&self) -> usize {
        self.runs.get()
    }

    fn round_key(&self, round: usize) -> Block {
        full(&self.round_keys[BLOCK_BYTES * round..][..BLOCK_BYTES])
    }
}

fn expand_key(key: &[u8], rounds: usize) -> Vec<Word> {
    let nk = key.len() / 4;
    let mut w: Vec<Word> = key.chunks(4).map(|b| [b[0], b[1], b[2], b[3]]).collect();
    let mut round_constant = 1;
    for i in nk..4 * (rounds + 1) {
        let mut word = w[i - 1];
        if i % nk == 0 {
            word = sub_word([word[1], word[2], word[3], word[0]]);
            word[0] ^= round_constant;
            round_constant = field_double(round_constant);
        } else if nk == 8 && i % nk == 4 {
            word = sub_word(word);
        }
        for (byte, earlier) in word.iter_mut().zip(w[i - nk]) {
            *byte ^= earlier;
        }
        w.push(word);
    }
    w
}

/// The words in front; what they do not fill is zero.
fn join(words: &[Word]) -> RoundKeys {
    let mut round_keys = ZERO_ROUND_KEYS;
    for (byte, word_byte) in round_keys.iter_mut().zip(words.iter().flatten()) {
        *byte = *word_byte;
    }
    round_keys
}

fn sub_word(word: Word) -> Word {
    word.map(substitute)
}

fn sub_bytes(state: &Block) -> Block {
    state.map(substitute)
}

/// Row r moves left by r columns.
fn shift_rows(state: &Block) -> Block {
    let mut shifted = ZERO;
    for column in 0..4 {
        for row in 0..4 {
            shifted[row + 4 * column] = state[row + 4 * ((column + row) % 4)];
        }
    }
    shifted
}

/// Each column times the matrix whose rows are 02 03 01 01 rotated.
fn mix_columns(state: &Block) -> Block {
    let mut mixed = ZERO;
    for column in 0..4 {
        for row in 0..4 {
            let byte = |step: usize| state[(row + step) % 4 + 4 * column];
            mixed[row + 4 * column] =
                field_multiply(2, byte(0)) ^ field_multiply(3, byte(1)) ^ byte(2) ^ byte(3);
        }
    }
    mixed
}

pub fn substitute(byte: u8) -> u8 {
    static S_BOX: OnceLock<[u8; 256]> = OnceLock::new();
    S_BOX.get_or_init(compute_s_box)[usize::from(byte)]
}

fn compute_s_box() -> [u8; 256] {
    let mut table = [0; 256];
    for (byte, entry) in (0..=255).zip(table.iter_mut()) {
        *entry = affine(field_inverse(byte));
    }
    table
}

/// FIPS 197: bit i is b(i) + b(i+4) + b(i+5) + b(i+6) + b(i+7) + c(i), c = 63.
fn affine(b: u8) -> u8 {
    b ^ b.rotate_left(1) ^ b.rotate_left(2) ^ b.rotate_left(3) ^ b.rotate_left(4) ^ 0x63
}

/// The inverse of b is its 254th power; 0 goes to 0.
fn field_inverse(b: u8) -> u8 {
    let mut power = 1;
    for _ in 0..254 {
        power = field_multiply(power, b);
    }
    power
}

fn field_multiply(x: u8, y: u8) -> u8 {
    let mut product = 0;
    let mut x_times_power = x;
    for bit in 0..8 {
        if y >> bit & 1 == 1 {
            product ^= x_times_power;
        }
        x_times_power = field_double(x_times_power);
    }
    product
}

/// Times x in the field of x^8 + x^4 + x^3 + x + 1.
fn field_double(x: u8) -> u8 {
    let shifted = x << 1;
    if x >> 7 == 1 {
        shifted ^ 0x1b
    } else {
        shifted
    }
}
