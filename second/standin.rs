//! The commands `standin` and `standin-lent`: rows over a small stand-in cipher in E's place.

use crate::block::{Block, BLOCK_BYTES, ZERO};
use crate::data_pass::FirstMask;
use crate::edition::Edition::{self, First, Third};
use crate::form::Form::{Parallel, Serial};
use crate::rows::Row;
use crate::rules;

const MESSAGES: [usize; 14] = [0, 1, 15, 16, 17, 31, 32, 33, 47, 48, 49, 64, 65, 100];
const DATA: [usize; 6] = [0, 1, 15, 16, 17, 33];
const DATA_LENT: [usize; 6] = [0, 1, 15, 16, 17, 40];
const K_AND_T: [(usize, usize); 9] = [
    (1, 4),
    (7, 8),
    (12, 12),
    (14, 16),
    (14, 5),
    (3, 15),
    (15, 15),
    (15, 16),
    (15, 4),
];

/// E(b)[i] = (5 b[i] + 3 b[(i + 1) mod 16] + 7 i + 11) mod 256.
pub fn stand_in(b: &Block) -> Block {
    let mut out = ZERO;
    for (i, byte) in out.iter_mut().enumerate() {
        let this = usize::from(b[i]);
        let next = usize::from(b[(i + 1) % BLOCK_BYTES]);
        *byte = ((5 * this + 3 * next + 7 * i + 11) % 256) as u8;
    }
    out
}

pub fn command() -> String {
    lines(&rows(), FirstMask::Ciphered)
}

/// With a first mask that is lent (wish 9 of 02).
pub fn command_lent() -> String {
    lines(&rows_lent(), FirstMask::Lent(rules::lent_mask()))
}

/// `EDITION FORM MESSAGELEN DATALEN K T RUNS HEX` and the end of the line, for each row.
fn lines(rows: &[Row], first_mask: FirstMask) -> String {
    rows.iter()
        .map(|row| {
            let rest = row.lengths_and_sealed(&stand_in, first_mask);
            format!("{} {}", row.edition.mode(), rest)
        })
        .collect()
}

/// Without data, and with all that the first mask goes into.
fn rows_lent() -> Vec<Row> {
    let mut list = Vec::new();
    for edition in [Third(Parallel), Third(Serial), First] {
        list.extend(by_data(edition, &DATA_LENT));
        for (k, t) in [(12, 16), (15, 15)] {
            list.push(Row {
                edition,
                message: 33,
                data: 33,
                k,
                t,
            });
        }
    }
    list
}

/// With serial ADP the message pass depends on the data through U: its seams with data too.
fn rows() -> Vec<Row> {
    let (parallel, serial) = (Third(Parallel), Third(Serial));
    [
        by_message(parallel, 0),
        by_data(parallel, &DATA),
        by_k_and_t(parallel),
        by_message(serial, 0),
        by_message(serial, 5),
        by_data(serial, &DATA),
        by_k_and_t(serial),
        by_message(First, 0),
        by_data(First, &DATA),
        by_k_and_t(First),
    ]
    .into_iter()
    .flatten()
    .collect()
}

fn by_message(edition: Edition, data: usize) -> Vec<Row> {
    let row = |message| Row {
        edition,
        message,
        data,
        k: 12,
        t: 16,
    };
    MESSAGES.map(row).into()
}

fn by_data(edition: Edition, lengths: &[usize]) -> Vec<Row> {
    let row = |&data| Row {
        edition,
        message: 20,
        data,
        k: 12,
        t: 16,
    };
    lengths.iter().map(row).collect()
}

fn by_k_and_t(edition: Edition) -> Vec<Row> {
    let row = |(k, t)| Row {
        edition,
        message: 33,
        data: 17,
        k,
        t,
    };
    K_AND_T.map(row).into()
}
