//! A prepared key (wish 9 of 02): what preparing gives, which every pass can then take.

use crate::aes::{Aes, RoundKeys, ZERO_ROUND_KEYS};
use crate::block::{Block, ZERO};
use crate::hex;

/// Given by `prepare` or by anyone else: a call takes it as it stands.
#[derive(Clone)]
pub struct Record {
    pub rounds: usize,
    /// The expanded key in front. Where `prepare` gave it, the words not used are zero.
    pub round_keys: RoundKeys,
    /// The data pass's first mask. Where `prepare` gave it, E(0^n).
    pub zero: Block,
}

impl Record {
    /// `ROUNDS WORDS ZERO`, all 240 and all 16 bytes.
    pub fn fields(&self) -> String {
        let (words, zero) = (hex::encode(&self.round_keys), hex::encode(&self.zero));
        format!("{} {words} {zero}", self.rounds)
    }
}

pub struct Prepared {
    pub number: u8,
    pub runs: usize,
    pub record: Record,
}

/// A key that has not 16, 24 or 32 bytes is refused with 1, and its record is of zeros.
pub fn prepare(key: &[u8]) -> Prepared {
    match Aes::new(key) {
        Some(aes) => prepared(&aes),
        None => Prepared {
            number: 1,
            runs: 0,
            record: Record {
                rounds: 0,
                round_keys: ZERO_ROUND_KEYS,
                zero: ZERO,
            },
        },
    }
}

fn prepared(aes: &Aes) -> Prepared {
    let record = Record {
        rounds: aes.rounds,
        round_keys: aes.round_keys,
        zero: aes.cipher(&ZERO),
    };
    Prepared {
        number: 0,
        runs: aes.runs(),
        record,
    }
}
