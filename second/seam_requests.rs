//! The requests at the seams: always the same, whatever the seed.

use crate::call::{DATA_MAX, MESSAGE_MAX};
use crate::edition::{Mode, MODES};
use crate::generator::Generator;
use crate::key::Key;
use crate::request::{Kind, Request};
use crate::seam_lengths::{seam_lengths, Lengths, USUAL};

const SEED: u64 = u64::MAX;
pub const AMPLE: usize = 37;
pub const ROOM_MAX: usize = 20_480;
/// Up to the largest number that a request may have. Of 257 and 259 the last byte alone would
/// be sound.
pub const NO_EDITIONS: [usize; 9] = [0, 2, 4, 5, 255, 256, 257, 259, 65_535];
const NO_FORMS: [usize; 6] = [2, 3, 255, 256, 257, 65_535];
/// In the order in which they are checked: 10 is the first, then 8 (wish 7 of 02).
pub const FAULTS: [u8; 8] = [10, 8, 1, 2, 3, 4, 5, 6];

pub fn seam_requests() -> Vec<Request> {
    let draw = &mut Generator::new(SEED);
    let mut requests = Vec::new();
    for mode in MODES {
        for lengths in seam_lengths() {
            let sealing = sealing(draw, mode, lengths);
            requests.extend(around(draw, &sealing));
        }
        requests.extend(shortest_sealed(draw, mode));
        requests.extend(two_faults(draw, mode, Kind::Seal));
        requests.extend(two_faults(draw, mode, Kind::Open));
        requests.extend(largest_room(draw, mode));
        requests.extend(cut_down(draw, mode));
    }
    for mode in refused_modes() {
        requests.extend(of_refused_mode(draw, mode));
    }
    requests
}

/// A sealing with exact room.
pub fn sealing(draw: &mut Generator, mode: Mode, lengths: Lengths) -> Request {
    Request {
        kind: Kind::Seal,
        mode,
        key: Key::Raw(draw.bytes(lengths.key)),
        nonce: draw.bytes(lengths.nonce),
        data: draw.bytes(lengths.data),
        body: draw.bytes(lengths.message),
        t: lengths.t,
        room: lengths.message + lengths.t,
    }
}

/// The sealing in three rooms, its openings in three rooms, those with room enough again with
/// one bit changed, and one in each other edition and form. Where the sealing is refused: an
/// opening of other bytes with the same lengths.
pub fn around(draw: &mut Generator, sealing: &Request) -> Vec<Request> {
    let mut requests = three_rooms(sealing);
    match sealing.opening() {
        Some(opening) => {
            requests.extend(in_other_modes(&opening));
            for opening in three_rooms(&opening) {
                requests.push(opening.clone());
                if opening.room >= sealing.body.len() {
                    requests.extend(one_bit_changed(draw, &opening));
                }
            }
        }
        None => requests.push(other_bytes(draw, sealing)),
    }
    requests
}

/// The opening in every other edition and form: with the serial form edition 1 answers 8.
pub fn in_other_modes(opening: &Request) -> Vec<Request> {
    let both_forms = |edition| [0, 1].map(|form| Mode::new(edition, form));
    [3, 1]
        .into_iter()
        .flat_map(both_forms)
        .filter(|&mode| mode != opening.mode)
        .map(|mode| Request {
            mode,
            ..opening.clone()
        })
        .collect()
}

/// An opening of bytes that nobody sealed, with exact room.
pub fn other_bytes(draw: &mut Generator, sealing: &Request) -> Request {
    Request {
        kind: Kind::Open,
        body: draw.bytes(sealing.body.len() + sealing.t),
        room: sealing.body.len(),
        ..sealing.clone()
    }
}

/// One short (where that is not negative), exact and ample, from exact.
pub fn three_rooms(request: &Request) -> Vec<Request> {
    let exact = request.room;
    let rooms = exact
        .checked_sub(1)
        .into_iter()
        .chain([exact, exact + AMPLE]);
    rooms
        .map(|room| Request {
            room,
            ..request.clone()
        })
        .collect()
}

/// The opening with one bit changed in each string that has one.
pub fn one_bit_changed(draw: &mut Generator, opening: &Request) -> Vec<Request> {
    let message_bytes = opening.body.len() - opening.t;
    let ciphertext = one_bit_in(draw, opening, |request| &mut request.body[..message_bytes]);
    let tag = one_bit_in(draw, opening, |request| &mut request.body[message_bytes..]);
    let mut list: Vec<Request> = ciphertext.into_iter().chain(tag).collect();
    list.extend(one_bit_of_settings(draw, opening));
    list
}

/// The same in its nonce, its data and its key.
pub fn one_bit_of_settings(draw: &mut Generator, request: &Request) -> Vec<Request> {
    let nonce = one_bit_in(draw, request, |request| &mut request.nonce);
    let data = one_bit_in(draw, request, |request| &mut request.data);
    let key = one_bit_in(draw, request, |request| request.key.bytes_mut());
    [nonce, data, key].into_iter().flatten().collect()
}

/// None where the string has no bit.
fn one_bit_in(
    draw: &mut Generator,
    request: &Request,
    string: impl FnOnce(&mut Request) -> &mut [u8],
) -> Option<Request> {
    let mut changed = request.clone();
    let bytes = string(&mut changed);
    if bytes.is_empty() {
        return None;
    }
    draw.change_bit(bytes);
    Some(changed)
}

/// Openings of 0, t - 1 and t bytes that nobody sealed.
fn shortest_sealed(draw: &mut Generator, mode: Mode) -> Vec<Request> {
    let mut list = Vec::new();
    for t in 4..=16 {
        for (sealed, room) in [(0, 0), (t - 1, 0), (t - 1, 7), (t, 0), (t, 7)] {
            let body = draw.bytes(sealed);
            let sealing = sealing(draw, mode, Lengths { t, ..USUAL });
            list.push(Request {
                kind: Kind::Open,
                body,
                room,
                ..sealing
            });
        }
    }
    list
}

/// Every fault alone and every two together: the one checked first is the answer.
pub fn two_faults(draw: &mut Generator, mode: Mode, kind: Kind) -> Vec<Request> {
    two_faults_in(draw, kind, |draw| sealing(draw, mode, USUAL))
}

/// The same in sealings that are drawn by `sealing`, or in their openings.
pub fn two_faults_in(
    draw: &mut Generator,
    kind: Kind,
    sealing: impl Fn(&mut Generator) -> Request,
) -> Vec<Request> {
    two_faults_of(draw, &FAULTS, |draw| {
        let sealing = sealing(draw);
        match (kind, sealing.opening()) {
            (Kind::Open, Some(opening)) => opening,
            _ => sealing,
        }
    })
}

/// The same of these faults alone, in requests that are drawn by `sound`.
pub fn two_faults_of(
    draw: &mut Generator,
    faults: &[u8],
    sound: impl Fn(&mut Generator) -> Request,
) -> Vec<Request> {
    with_both(draw, every_two(faults), sound, add_fault)
}

/// For each pair of faults a request that is drawn by `sound`, with both.
pub fn with_both<F, R>(
    draw: &mut Generator,
    pairs: Vec<(F, F)>,
    sound: impl Fn(&mut Generator) -> R,
    add: impl Fn(&mut Generator, &mut R, F),
) -> Vec<R> {
    let mut list = Vec::new();
    for (first, second) in pairs {
        let mut request = sound(draw);
        add(draw, &mut request, first);
        add(draw, &mut request, second);
        list.push(request);
    }
    list
}

/// Each with itself, which is the fault alone, and with each that is checked after it.
pub fn every_two<F: Copy>(faults: &[F]) -> Vec<(F, F)> {
    let mut list = Vec::new();
    for (place, &first) in faults.iter().enumerate() {
        list.extend(faults[place..].iter().map(|&second| (first, second)));
    }
    list
}

pub fn add_fault(draw: &mut Generator, request: &mut Request, number: u8) {
    match number {
        10 => request.mode.edition = 2,
        8 => request.mode.form = no_form(request.mode.edition),
        1 => wrong_key(draw, &mut request.key),
        2 => request.nonce = draw.bytes(16),
        3 => request.t = 3,
        4 => request.data = draw.bytes(DATA_MAX + 1),
        5 => request.body = draw.bytes(MESSAGE_MAX + 17),
        _ => request.room = 0,
    }
}

/// With edition 1 the serial form is none.
fn no_form(edition: usize) -> usize {
    if edition == 1 {
        1
    } else {
        2
    }
}

/// A raw key of 17 bytes; a record with 11 rounds.
fn wrong_key(draw: &mut Generator, key: &mut Key) {
    match key {
        Key::Raw(bytes) => *bytes = draw.bytes(17),
        Key::Prepared(record) => record.rounds = 11,
    }
}

/// A sealing, its opening, and that with the key changed, in the largest room.
fn largest_room(draw: &mut Generator, mode: Mode) -> Vec<Request> {
    let mut list = vec![sealing(draw, mode, USUAL)];
    if let Some(opening) = list[0].opening() {
        list.push(opening.clone());
        list.extend(one_bit_changed(draw, &opening).pop());
    }
    for request in &mut list {
        request.room = ROOM_MAX;
    }
    list
}

/// What was sealed with a tag of 16 bytes, opened with each shorter one: edition 1 does not
/// take in the tag length, and so opens it.
pub fn cut_down(draw: &mut Generator, mode: Mode) -> Vec<Request> {
    let sealing = sealing(draw, mode, USUAL);
    let Some(opening) = sealing.opening() else {
        return Vec::new();
    };
    let cut = |t| Request {
        body: opening.body[..sealing.body.len() + t].to_vec(),
        t,
        ..opening.clone()
    };
    (4..USUAL.t).map(cut).collect()
}

/// Forms that are none in either edition, edition 1 with the serial form, and editions that are
/// none, with each form and with one that is none too.
pub fn refused_modes() -> Vec<Mode> {
    let mut list = Vec::new();
    for edition in [3, 1] {
        list.extend(NO_FORMS.map(|form| Mode::new(edition, form)));
    }
    list.push(Mode::new(1, 1));
    for edition in NO_EDITIONS {
        list.extend([0, 1, 2].map(|form| Mode::new(edition, form)));
    }
    list
}

/// A sealing and an opening, each in three rooms.
fn of_refused_mode(draw: &mut Generator, mode: Mode) -> Vec<Request> {
    let sealing = sealing(draw, mode, USUAL);
    let opening = other_bytes(draw, &sealing);
    [three_rooms(&sealing), three_rooms(&opening)].concat()
}
