//! What a call ciphers with: a raw key, or a record in its place (wish 9 of 02).

use crate::aes::Aes;
use crate::data_pass::FirstMask;
use crate::record::{prepare, Record};

#[derive(Clone)]
pub enum Key {
    Raw(Vec<u8>),
    Prepared(Box<Record>),
}

impl Key {
    /// E and the data pass's first mask. None, which is refusal 1, where a raw key has not
    /// 16, 24 or 32 bytes, or a record not 10, 12 or 14 rounds.
    pub fn cipher(&self) -> Option<(Aes, FirstMask)> {
        match self {
            Key::Raw(key) => Some((Aes::new(key)?, FirstMask::Ciphered)),
            Key::Prepared(record) => Some((
                Aes::over(record.rounds, record.round_keys)?,
                FirstMask::Lent(record.zero),
            )),
        }
    }

    /// The bytes of a raw key; None of a record.
    pub fn raw(&self) -> Option<&[u8]> {
        match self {
            Key::Raw(key) => Some(key),
            Key::Prepared(_) => None,
        }
    }

    /// What preparing a raw key gives; a record is itself.
    pub fn record(&self) -> Record {
        match self {
            Key::Raw(key) => prepare(key).record,
            Key::Prepared(record) => (**record).clone(),
        }
    }

    /// The bytes of a raw key; those of a record's round keys, used or not.
    pub fn bytes_mut(&mut self) -> &mut [u8] {
        match self {
            Key::Raw(key) => key,
            Key::Prepared(record) => &mut record.round_keys,
        }
    }
}
