//! Rows of sealed bytes by the fixed rules, over a given cipher in E's place, with how many
//! times that ran.

use std::cell::Cell;

use crate::block::{Block, Cipher};
use crate::data_pass::FirstMask;
use crate::edition::Edition;
use crate::hex;
use crate::otr::otr_e;
use crate::rules;

pub struct Row {
    pub edition: Edition,
    pub message: usize,
    pub data: usize,
    pub k: usize,
    pub t: usize,
}

impl Row {
    /// `MESSAGELEN DATALEN K T RUNS HEX` and the end of the line.
    pub fn lengths_and_sealed(&self, e: Cipher, first_mask: FirstMask) -> String {
        let (n, a) = (rules::nonce(self.k), rules::data(self.data));
        let m = rules::message(self.message);
        let ((c, tag), runs) = counted(e, |e| {
            otr_e(self.edition, e, first_mask, self.t, &n, &a, &m)
        });
        let sealed = hex::encode(&[c, tag].concat());
        format!(
            "{} {} {} {} {} {}\n",
            self.message, self.data, self.k, self.t, runs, sealed
        )
    }
}

/// What the call gives with E, and how many times E ran in it.
pub fn counted<T>(e: Cipher, call: impl FnOnce(Cipher) -> T) -> (T, usize) {
    let runs = Cell::new(0);
    let given = call(&|b: &Block| {
        runs.set(runs.get() + 1);
        e(b)
    });
    (given, runs.get())
}
