//! The calls that are measured, in edition 3: `seal|open|damaged FORM KEY_BYTES MESSAGE_BYTES`,
//! where damaged is an opening that must be refused. The nonce has 12 bytes, the data 16 and the
//! tag 16.

use std::hint::black_box;

use crate::plain::{self, Terms};

const NONCE_BYTES: usize = 12;
const DATA_BYTES: usize = 16;
const TAG_BYTES: usize = 16;
/// What the output holds before a call.
const UNTOUCHED: u8 = 0xa5;
/// The output may begin at any place of a page.
pub const LAST_PLACE: usize = 4095;

type Call = fn(&Terms, &[u8], &mut [u8]) -> u32;

/// One of the two that are compared.
pub struct Implementation {
    pub seal: Call,
    pub open: Call,
}

pub const PLAIN: Implementation = Implementation {
    seal: plain::seal,
    open: plain::open,
};

pub struct Case {
    opens: bool,
    form: usize,
    key: Vec<u8>,
    nonce: Vec<u8>,
    data: Vec<u8>,
    /// The message or the sealed bytes.
    input: Vec<u8>,
    /// Holds the output, which begins at `place`.
    buffer: Vec<u8>,
    room: usize,
    pub place: usize,
}

impl Case {
    pub fn new(words: &[String]) -> Option<Case> {
        let [what, form, key_bytes, message_bytes] = words else {
            return None;
        };
        let message = by_rule(message_bytes.parse().ok()?);
        let room = message.len() + TAG_BYTES;
        let mut case = Case {
            opens: false,
            form: form.parse().ok()?,
            key: by_rule(key_bytes.parse().ok()?),
            nonce: by_rule(NONCE_BYTES),
            data: by_rule(DATA_BYTES),
            input: message,
            buffer: vec![UNTOUCHED; room + LAST_PLACE],
            room,
            place: 0,
        };
        match what.as_str() {
            "seal" => {}
            "open" => case.open_what_is_sealed(0),
            "damaged" => case.open_what_is_sealed(1),
            _ => return None,
        }
        Some(case)
    }

    /// Turns the sealing into the opening of what it gives, with the first byte changed.
    fn open_what_is_sealed(&mut self, change: u8) {
        self.repeat(&PLAIN, 1);
        self.opens = true;
        self.input = self.output().to_vec();
        self.input[0] ^= change;
        self.buffer.fill(UNTOUCHED);
    }

    pub fn output(&self) -> &[u8] {
        &self.buffer[self.place..][..self.room]
    }

    /// Makes the call so many times, and gives the last answer's number. What goes in and comes out
    /// passes a black box, or the optimiser might make one call of many.
    pub fn repeat(&mut self, implementation: &Implementation, calls: usize) -> u32 {
        let terms = Terms {
            form: self.form,
            key: &self.key,
            nonce: &self.nonce,
            data: &self.data,
            tag_bytes: TAG_BYTES,
        };
        let call = match self.opens {
            false => implementation.seal,
            true => implementation.open,
        };
        let output = &mut self.buffer[self.place..][..self.room];
        let mut number = 0;
        for _ in 0..calls {
            number = black_box(call)(
                black_box(&terms),
                black_box(&self.input),
                black_box(&mut *output),
            );
        }
        number
    }
}

/// The rule of every string; calls.c has it too.
fn by_rule(bytes: usize) -> Vec<u8> {
    (0..bytes).map(|i| ((7 * i + 3) % 256) as u8).collect()
}
