//! The call level: 01, "Numbers a call may carry" and "What comes back", with wish 1 of 02:
//! each call names its form, and one that is neither parallel (0) nor serial (1) is refused
//! with 8; with wish 5: a nonce has 1 to 15 bytes; with wish 6: an answer reports how many
//! times the cipher ran; with wish 7: each call names its edition, one that is neither 1 nor 3
//! is refused with 10 before all else, and edition 1 with the serial form with 8; and with wish
//! 9: a call takes a raw key or a record. Each call has a cipher of its own, which counts.

use crate::aes::Aes;
use crate::data_pass::FirstMask;
use crate::edition::{Edition, Mode};
use crate::key::Key;
use crate::otr::{otr_d, otr_e};

pub const DATA_MAX: usize = 4_096;
pub const MESSAGE_MAX: usize = 16_384;

pub struct Answer {
    pub number: u8,
    pub length: usize,
    pub runs: usize,
}

pub fn seal(
    mode: Mode,
    key: &Key,
    nonce: &[u8],
    data: &[u8],
    message: &[u8],
    t: usize,
    output: &mut [u8],
) -> Answer {
    let checked = checked_to_6(mode, key, nonce, data, message, t, output.len());
    let (edition, aes, mask) = match checked {
        Ok(checked) => checked,
        Err(number) => return refused(number),
    };
    let (c, tag) = otr_e(edition, &|b| aes.cipher(b), mask, t, nonce, data, message);
    done(&[c, tag].concat(), aes.runs(), output)
}

pub fn open(
    mode: Mode,
    key: &Key,
    nonce: &[u8],
    data: &[u8],
    sealed: &[u8],
    t: usize,
    output: &mut [u8],
) -> Answer {
    let (edition, aes, mask) = match checked_to_5(mode, key, nonce, data, sealed, t) {
        Ok(checked) => checked,
        Err(number) => return refused(number),
    };
    let message_bytes = sealed.len() - t;
    if output.len() < message_bytes {
        return refused(6);
    }
    let (c, tag) = sealed.split_at(message_bytes);
    match otr_d(edition, &|b| aes.cipher(b), mask, nonce, data, c, tag) {
        Some(message) => done(&message, aes.runs(), output),
        None => {
            output[..message_bytes].fill(0);
            Answer {
                runs: aes.runs(),
                ..refused(7)
            }
        }
    }
}

/// 10 and 8, then 1 to 4: the number of the refusal, or what the passes need.
pub fn checked_to_4(
    mode: Mode,
    key: &Key,
    nonce: &[u8],
    data: &[u8],
    t: usize,
) -> Result<(Edition, Aes, FirstMask), u8> {
    let edition = mode.checked()?;
    let (aes, first_mask) = key.cipher().ok_or(1)?;
    if !(1..=15).contains(&nonce.len()) {
        Err(2)
    } else if !(4..=16).contains(&t) {
        Err(3)
    } else if data.len() > DATA_MAX {
        Err(4)
    } else {
        Ok((edition, aes, first_mask))
    }
}

/// Those, then a sealing's 5 and 6.
pub fn checked_to_6(
    mode: Mode,
    key: &Key,
    nonce: &[u8],
    data: &[u8],
    message: &[u8],
    t: usize,
    room: usize,
) -> Result<(Edition, Aes, FirstMask), u8> {
    let checked = checked_to_4(mode, key, nonce, data, t)?;
    if message.len() > MESSAGE_MAX {
        Err(5)
    } else if room < message.len() + t {
        Err(6)
    } else {
        Ok(checked)
    }
}

/// 10 and 8, then 1 to 4, then an opening's 5.
pub fn checked_to_5(
    mode: Mode,
    key: &Key,
    nonce: &[u8],
    data: &[u8],
    sealed: &[u8],
    t: usize,
) -> Result<(Edition, Aes, FirstMask), u8> {
    let checked = checked_to_4(mode, key, nonce, data, t)?;
    if sealed.len() < t || sealed.len() > MESSAGE_MAX + t {
        Err(5)
    } else {
        Ok(checked)
    }
}

/// No cipher has run by then. Only 7 comes after the passes: it puts its runs in.
pub fn refused(number: u8) -> Answer {
    Answer {
        number,
        length: 0,
        runs: 0,
    }
}

pub fn done(result: &[u8], runs: usize, output: &mut [u8]) -> Answer {
    output[..result.len()].copy_from_slice(result);
    Answer {
        number: 0,
        length: result.len(),
        runs,
    }
}
