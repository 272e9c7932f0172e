//! The lengths at the seams of 01.

use crate::call::{DATA_MAX, MESSAGE_MAX};

#[derive(Clone, Copy)]
pub struct Lengths {
    pub key: usize,
    pub nonce: usize,
    pub data: usize,
    pub message: usize,
    pub t: usize,
}

pub const USUAL: Lengths = Lengths {
    key: 16,
    nonce: 12,
    data: 5,
    message: 20,
    t: 16,
};

/// The messages that 01 has run and compared.
pub const MESSAGES: [usize; 11] = [
    0,
    1,
    15,
    16,
    17,
    31,
    32,
    33,
    48,
    MESSAGE_MAX - 1,
    MESSAGE_MAX,
];

/// The associated data that 01 has run and compared.
pub const DATA: [usize; 6] = [0, 1, 15, 16, 17, DATA_MAX];

/// The other lengths that are combined with these.
pub const KEYS: [usize; 3] = [16, 24, 32];
pub const NONCES: [usize; 3] = [1, 12, 15];
pub const TAGS: [usize; 3] = [4, 15, 16];

pub fn seam_lengths() -> Vec<Lengths> {
    let mut list = Vec::new();
    for key in [16, 24, 32] {
        for message in [0, 1, 15, 16, 17, 31, 32, 33, 48] {
            list.push(Lengths {
                key,
                message,
                ..USUAL
            });
        }
    }
    list.push(Lengths {
        key: 24,
        message: MESSAGE_MAX - 1,
        ..USUAL
    });
    list.push(Lengths {
        message: MESSAGE_MAX,
        ..USUAL
    });
    list.push(Lengths {
        key: 32,
        message: MESSAGE_MAX,
        data: DATA_MAX,
        ..USUAL
    });
    list.push(Lengths {
        message: MESSAGE_MAX + 1,
        ..USUAL
    });
    for message in [0, 33] {
        for data in [0, 1, 15, 16, 17, DATA_MAX, DATA_MAX + 1] {
            list.push(Lengths {
                data,
                message,
                ..USUAL
            });
        }
    }
    for nonce in 0..=16 {
        list.push(Lengths { nonce, ..USUAL });
    }
    list.extend(at_every_tag(&[1, 12, 15, 16]));
    for message in [0, 17, 33] {
        for t in 3..=17 {
            list.push(Lengths {
                message,
                t,
                ..USUAL
            });
        }
    }
    for t in [0, 255, 256 + 16] {
        list.push(Lengths { t, ..USUAL });
    }
    for key in [0, 15, 17, 23, 25, 31, 33] {
        list.push(Lengths { key, ..USUAL });
    }
    list.push(Lengths {
        key: 17,
        t: 3,
        ..USUAL
    });
    list
}

/// These nonces, each at every tag length.
pub fn at_every_tag(nonces: &[usize]) -> Vec<Lengths> {
    let mut list = Vec::new();
    for &nonce in nonces {
        for t in 4..=16 {
            list.push(Lengths { nonce, t, ..USUAL });
        }
    }
    list
}
