//! The command `seams`: the table of the seam lengths, and for each a sealing, its opening,
//! and that opening damaged.

use crate::block::{partition, BLOCK_BYTES};
use crate::call::DATA_MAX;
use crate::edition::{Mode, FIRST, THIRD_PARALLEL, THIRD_SERIAL};
use crate::failure::Failure;
use crate::files;
use crate::hex;
use crate::key::Key;
use crate::request::{Kind, Request};
use crate::rules;
use crate::seam_lengths::{at_every_tag, Lengths, MESSAGES, USUAL};

const MESSAGES_WITHOUT_DATA: [usize; 5] = [0, 1, 16, 17, 33];
const DATA: [usize; 8] = [1, 15, 16, 17, 31, 32, 33, DATA_MAX];
/// A form that is none, edition 1 with the serial form, and editions that are none.
const REFUSED: [Mode; 4] = [
    Mode::new(3, 2),
    Mode::new(1, 1),
    Mode::new(0, 0),
    Mode::new(2, 0),
];

pub fn command(file_requests: &str, file_answers: &str) -> Result<String, Failure> {
    let mut table = format!(
        "edition  form  length  blocks  last   side  data  nonce   t  runs  {:<32}\n",
        "tag"
    );
    let mut requests = Vec::new();
    for sealing in sealings() {
        let sealed = sealing.opening();
        let tag = sealed.as_ref().map_or("-".to_string(), |opening| {
            hex::encode(&opening.body[sealing.body.len()..])
        });
        table += &line(&sealing, &tag);
        let opening = sealed.unwrap_or_else(|| other_bytes(&sealing));
        let damaged = damaged(&opening);
        requests.extend([sealing, opening, damaged]);
    }
    files::write_requests(&requests, file_requests, file_answers)?;
    Ok(table)
}

/// The third edition in both forms, the first, and what is refused. In the third the nonces
/// are the longest, which shares a byte with the tag length, and one byte more.
fn sealings() -> Vec<Request> {
    let mut list = Vec::new();
    for (mode, nonces) in [
        (THIRD_PARALLEL, &[15, 16][..]),
        (THIRD_SERIAL, &[15, 16]),
        (FIRST, &[1, 12, 15, 16]),
    ] {
        list.extend(seams(nonces).map(|lengths| sealing(mode, lengths)));
    }
    list.extend(REFUSED.map(|mode| sealing(mode, USUAL)));
    list
}

/// Each seam of the message; these nonces at every tag length; no data; and each seam of the
/// data.
fn seams(nonces: &[usize]) -> impl Iterator<Item = Lengths> {
    let messages = MESSAGES.map(|message| Lengths { message, ..USUAL });
    let without_data = MESSAGES_WITHOUT_DATA.map(|message| Lengths {
        data: 0,
        message,
        ..USUAL
    });
    messages
        .into_iter()
        .chain(at_every_tag(nonces))
        .chain(without_data)
        .chain(DATA.map(|data| Lengths { data, ..USUAL }))
}

fn sealing(mode: Mode, lengths: Lengths) -> Request {
    Request {
        kind: Kind::Seal,
        mode,
        key: Key::Raw(rules::key(lengths.key)),
        nonce: rules::nonce(lengths.nonce),
        data: rules::data(lengths.data),
        body: rules::message(lengths.message),
        t: lengths.t,
        room: lengths.message + lengths.t,
    }
}

/// Where the sealing is refused: an opening of bytes that nobody sealed.
fn other_bytes(sealing: &Request) -> Request {
    Request {
        kind: Kind::Open,
        body: rules::message(sealing.room),
        room: sealing.body.len(),
        ..sealing.clone()
    }
}

/// The opening with the last bit of the tag changed.
fn damaged(opening: &Request) -> Request {
    let mut damaged = opening.clone();
    if let Some(last) = damaged.body.last_mut() {
        *last ^= 1;
    }
    damaged
}

fn line(sealing: &Request, tag: &str) -> String {
    let blocks = partition(&sealing.body);
    let m = blocks.len();
    let full = blocks[m - 1].len() == BLOCK_BYTES;
    format!(
        "{:>7}  {:>4}  {:>6}  {:>6}  {:<5}  {:<4}  {:>4}  {:>5}  {:>2}  {:>4}  {:<32}\n",
        sealing.mode.edition,
        sealing.mode.form,
        sealing.body.len(),
        m,
        if full { "full" } else { "short" },
        if m % 2 == 0 { "even" } else { "odd" },
        sealing.data.len(),
        sealing.nonce.len(),
        sealing.t,
        sealing.call().0.runs,
        tag
    )
}
