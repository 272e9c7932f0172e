//! Requests from the seeded generator: sound ones, some with a mishap or two.

use crate::call::{DATA_MAX, MESSAGE_MAX};
use crate::carrying::other_edition;
use crate::edition::{Mode, MODES};
use crate::generator::Generator;
use crate::key::Key;
use crate::request::{Kind, Request};
use crate::seam_requests::NO_EDITIONS;

pub fn random_request(draw: &mut Generator) -> Request {
    let sealing = sound_sealing(draw, &MODES);
    random_call(draw, sealing)
}

/// The sealing, or an opening from it.
pub fn random_call(draw: &mut Generator, sealing: Request) -> Request {
    let mut request = match draw.below(4) {
        0 | 1 => sealing,
        2 => opening_of_sealed(draw, sealing),
        _ => opening_of_other_bytes(draw, sealing),
    };
    if draw.one_in(2) {
        mishap(draw, &mut request);
    }
    if draw.one_in(8) {
        mishap(draw, &mut request);
    }
    if draw.one_in(8) {
        request.mode.edition = some_other_edition(draw, request.mode.edition);
    }
    request
}

/// 1 for 3 and 3 for 1, or one that is neither.
pub fn some_other_edition(draw: &mut Generator, edition: usize) -> usize {
    if draw.one_in(2) {
        other_edition(edition)
    } else {
        draw.pick(&NO_EDITIONS)
    }
}

/// In one of these modes.
pub fn sound_sealing(draw: &mut Generator, modes: &[Mode]) -> Request {
    let key_bytes = draw.pick(&[16, 24, 32]);
    let nonce_bytes = draw.pick(&[12, 12, 12, 1, 2, 3, 4, 5, 6, 7, 8, 9, 10, 11, 13, 14, 15]);
    let data_bytes = if draw.one_in(4) { 0 } else { some_length(draw) };
    let message_bytes = some_length(draw);
    let t = if draw.one_in(2) {
        16
    } else {
        4 + draw.below(13)
    };
    Request {
        kind: Kind::Seal,
        mode: modes[draw.below(modes.len())],
        key: Key::Raw(draw.bytes(key_bytes)),
        nonce: draw.bytes(nonce_bytes),
        data: draw.bytes(data_bytes),
        body: draw.bytes(message_bytes),
        t,
        room: message_bytes + t + some_slack(draw),
    }
}

/// Mostly under 200 bytes, some of full blocks only, a few up to 2,000.
fn some_length(draw: &mut Generator) -> usize {
    match draw.below(40) {
        0 => draw.below(2_001),
        1..=10 => 16 * draw.below(13),
        _ => draw.below(200),
    }
}

pub fn some_slack(draw: &mut Generator) -> usize {
    if draw.one_in(2) {
        0
    } else {
        draw.below(40)
    }
}

fn opening_of_sealed(draw: &mut Generator, sealing: Request) -> Request {
    match sealing.opening() {
        Some(opening) => Request {
            room: opening.room + some_slack(draw),
            ..opening
        },
        None => sealing,
    }
}

fn opening_of_other_bytes(draw: &mut Generator, sealing: Request) -> Request {
    let body = draw.bytes(sealing.body.len() + sealing.t);
    let room = sealing.body.len() + some_slack(draw);
    Request {
        kind: Kind::Open,
        body,
        room,
        ..sealing
    }
}

pub fn mishap(draw: &mut Generator, request: &mut Request) {
    match draw.below(38) {
        // Seldom, since such a line is long.
        0 => {
            let len = DATA_MAX + 1 + draw.below(100);
            request.data = draw.bytes(len);
        }
        1..=4 => wrong_key(draw, &mut request.key),
        5..=8 => {
            let len = draw.pick(&[0, 16, 17, 20]);
            request.nonce = draw.bytes(len);
        }
        9..=12 => request.t = draw.pick(&[0, 1, 2, 3, 17, 18, 19, 20]),
        13..=17 => wrong_body(draw, request),
        18..=20 => request.room = draw.below(request.room + 1),
        21..=23 => one_byte_short(request),
        24..=25 => request.t = 4 + draw.below(13),
        26..=28 => request.mode.form = draw.pick(&[2, 3, 7, 10, 255, 256, 257, 65_535]),
        // 0 and 1 change places; a form that is neither stays neither.
        29..=31 => request.mode.form ^= 1,
        _ => wrong_bit(draw, request),
    }
}

/// A raw key of another length; a record with other rounds.
fn wrong_key(draw: &mut Generator, key: &mut Key) {
    match key {
        Key::Raw(bytes) => {
            let len = draw.pick(&[0, 1, 15, 17, 23, 25, 31, 33, 64]);
            *bytes = draw.bytes(len);
        }
        Key::Prepared(record) => record.rounds = draw.pick(&[0, 1, 9, 11, 13, 15, 16, 266, 65_535]),
    }
}

/// Too many bytes, seldom, since such a line is long; otherwise an opening keeps
/// t bytes at most.
fn wrong_body(draw: &mut Generator, request: &mut Request) {
    if draw.one_in(16) {
        let len = MESSAGE_MAX + request.t + 1 + draw.below(100);
        request.body = draw.bytes(len);
    } else if request.kind == Kind::Open {
        request.body.truncate(draw.below(request.t + 1));
    }
}

/// A room one byte short, where that is not negative.
fn one_byte_short(request: &mut Request) {
    let needed = match request.kind {
        Kind::Seal => request.body.len() + request.t,
        Kind::Open => request.body.len().saturating_sub(request.t),
    };
    request.room = needed.saturating_sub(1);
}

fn wrong_bit(draw: &mut Generator, request: &mut Request) {
    let string = match draw.below(5) {
        0 => request.key.bytes_mut(),
        1 => &mut request.nonce,
        2 => &mut request.data,
        _ => &mut request.body,
    };
    draw.change_bit(string);
}
