//! AES-OTR v3.1 (source document 000) in plain Rust, written for speed: what the library is
//! measured against. It answers as the library does, refusals too, with the numbers of document 01.

mod aes;
mod block;
mod data_pass;
mod message_pass;

use aes::Aes;
use block::{double, write_first, Block, BLOCK_BYTES};
use data_pass::{af, af_s};
use message_pass::{df, ef};

const DATA_MAX: usize = 4_096;
const MESSAGE_MAX: usize = 16_384;

/// What sealing and opening share.
pub struct Terms<'a> {
    pub form: usize,
    pub key: &'a [u8],
    pub nonce: &'a [u8],
    pub data: &'a [u8],
    pub tag_bytes: usize,
}

pub fn seal(terms: &Terms, message: &[u8], out: &mut [u8]) -> u32 {
    if let Some(number) = terms.refusal() {
        return number;
    }
    if message.len() > MESSAGE_MAX {
        return 5;
    }
    if out.len() < message.len() + terms.tag_bytes {
        return 6;
    }
    match terms.key.len() {
        16 => otr_e(&Aes::<11>::new(terms.key), terms, message, out),
        24 => otr_e(&Aes::<13>::new(terms.key), terms, message, out),
        _ => otr_e(&Aes::<15>::new(terms.key), terms, message, out),
    }
    0
}

pub fn open(terms: &Terms, sealed: &[u8], out: &mut [u8]) -> u32 {
    if let Some(number) = terms.refusal() {
        return number;
    }
    if sealed.len() < terms.tag_bytes || sealed.len() > MESSAGE_MAX + terms.tag_bytes {
        return 5;
    }
    let (ciphertext, tag) = sealed.split_at(sealed.len() - terms.tag_bytes);
    if out.len() < ciphertext.len() {
        return 6;
    }
    let out = &mut out[..ciphertext.len()];
    let matches = match terms.key.len() {
        16 => otr_d(&Aes::<11>::new(terms.key), terms, ciphertext, tag, out),
        24 => otr_d(&Aes::<13>::new(terms.key), terms, ciphertext, tag, out),
        _ => otr_d(&Aes::<15>::new(terms.key), terms, ciphertext, tag, out),
    };
    if matches {
        return 0;
    }
    out.fill(0);
    7
}

impl Terms<'_> {
    /// The first of the checks before 5 that applies.
    fn refusal(&self) -> Option<u32> {
        if self.form > 1 {
            Some(8)
        } else if ![16, 24, 32].contains(&self.key.len()) {
            Some(1)
        } else if !(1..=15).contains(&self.nonce.len()) {
            Some(2)
        } else if !(4..=16).contains(&self.tag_bytes) {
            Some(3)
        } else if self.data.len() > DATA_MAX {
            Some(4)
        } else {
            None
        }
    }

    /// Format. Where the nonce has 15 bytes, the 1 and the tag's seven bits share byte 0.
    fn format(&self) -> Block {
        let mut block = [0; BLOCK_BYTES];
        let nonce_at = BLOCK_BYTES - self.nonce.len();
        block[nonce_at..].copy_from_slice(self.nonce);
        block[0] = 2 * (8 * self.tag_bytes % 128) as u8;
        block[nonce_at - 1] += 1;
        Block::from_be_bytes(block)
    }

    /// U, and what is added to TE: the serial form has TA in U instead.
    fn u_and_addend(&self, e: &impl Fn(Block) -> Block) -> (Block, Block) {
        let first = e(self.format());
        match (self.form, self.data) {
            (0, []) => (first, 0),
            (0, data) => (first, af(e, data)),
            (_, []) => (double(first), 0),
            (_, data) => (double(first ^ af_s(e, data)), 0),
        }
    }
}

/// OTR-E: writes ciphertext and tag.
fn otr_e<const KEYS: usize>(aes: &Aes<KEYS>, terms: &Terms, message: &[u8], out: &mut [u8]) {
    let e = |block| aes.encrypt(block);
    let (u, addend) = terms.u_and_addend(&e);
    let (ciphertext, behind) = out.split_at_mut(message.len());
    let te = ef(&e, u, message, ciphertext);
    write_first(te ^ addend, &mut behind[..terms.tag_bytes]);
}

/// OTR-D: writes the message, and says whether the tag matches.
fn otr_d<const KEYS: usize>(
    aes: &Aes<KEYS>,
    terms: &Terms,
    ciphertext: &[u8],
    tag: &[u8],
    out: &mut [u8],
) -> bool {
    let e = |block| aes.encrypt(block);
    let (u, addend) = terms.u_and_addend(&e);
    let te = df(&e, u, ciphertext, out);
    (te ^ addend).to_be_bytes().starts_with(tag)
}
