//! The command `carry`: records carried over to the other edition, and back (wish 8 of 02).
//! First those that are always the same, whatever the seed.

use crate::call::{DATA_MAX, MESSAGE_MAX};
use crate::carry_faults::two_faults;
use crate::carry_keys::pairs_of_keys;
use crate::carry_request::CarryRequest;
use crate::edition::{Mode, FIRST, THIRD_PARALLEL, THIRD_SERIAL};
use crate::exchange::Exchange;
use crate::failure::Failure;
use crate::generator::Generator;
use crate::parts::limits;
use crate::random_carry::random_carry;
use crate::request::Request;
use crate::requests::write_seeded;
use crate::seam_lengths::{Lengths, DATA, KEYS, MESSAGES, NONCES, TAGS, USUAL};
use crate::seam_requests::{
    one_bit_changed, one_bit_of_settings, other_bytes, refused_modes, sealing, three_rooms, AMPLE,
    ROOM_MAX,
};

const SEED: u64 = u64::MAX - 4;

/// The old side's edition and form, and the new side's.
pub type Way = (Mode, Mode);
/// All that there are.
pub const WAYS: [Way; 4] = [
    (FIRST, THIRD_PARALLEL),
    (FIRST, THIRD_SERIAL),
    (THIRD_PARALLEL, FIRST),
    (THIRD_SERIAL, FIRST),
];

pub fn command(arguments: &[String]) -> Result<String, Failure> {
    let fixed = || fixed().iter().map(Exchange::of_carrying).collect();
    let random = |draw: &mut Generator| [Exchange::of_carrying(&random_carry(draw))];
    write_seeded("carry", arguments, fixed, random)
}

pub fn fixed() -> Vec<CarryRequest> {
    let draw = &mut Generator::new(SEED);
    let mut list = Vec::new();
    for (turn, way) in WAYS.into_iter().enumerate() {
        for sides in seams(turn) {
            list.extend(over_and_back(carrying(draw, way, sides)));
        }
        list.extend(damaged(draw, way));
        list.extend(rooms(draw, way));
        list.extend(pairs_of_keys(draw, way));
        list.extend(at_limits(draw, way));
        list.extend(record_lengths(draw, way));
        list.extend(two_faults(draw, way));
    }
    list.extend(old_modes(draw));
    list.extend(new_modes(draw));
    list
}

/// A sound one with exact rooms. The message and the tag are those of the old side's lengths.
pub fn carrying(draw: &mut Generator, way: Way, [old, new]: [Lengths; 2]) -> CarryRequest {
    let from = sealing(draw, way.0, old);
    CarryRequest::of(&from, sealing(draw, way.1, new))
}

pub fn usual(draw: &mut Generator, way: Way) -> CarryRequest {
    carrying(draw, way, [USUAL, USUAL])
}

/// Both sides' lengths: for every seam message of 01, for 33 bytes at every tag length, and for
/// what makes the longest line.
fn seams(turn: usize) -> Vec<[Lengths; 2]> {
    let mut list = Vec::new();
    for message in MESSAGES {
        let turn = MESSAGES.len() * turn + list.len();
        list.push(lengths(turn, message, TAGS[turn / 2 % 3]));
    }
    for t in 4..=16 {
        list.push(lengths(t + turn, 33, t));
    }
    let longest = |key| Lengths {
        key,
        nonce: 15,
        data: DATA_MAX,
        message: MESSAGE_MAX,
        t: 16,
    };
    list.push([longest(32), longest(24)]);
    list
}

/// The key lengths always differ. They, the nonces' and the data's take turns so that each comes
/// with each of the other side.
fn lengths(turn: usize, message: usize, t: usize) -> [Lengths; 2] {
    let side = |key: usize, nonce: usize, data: usize| Lengths {
        key: KEYS[key % 3],
        nonce: NONCES[nonce % 3],
        data: DATA[data % 6],
        message,
        t,
    };
    [
        side(turn, turn / 3, turn),
        side(turn + 1 + turn / 3 % 2, turn / 3 + turn, turn + turn / 6),
    ]
}

/// Over, and what comes of it back with exact rooms and with ample ones.
fn over_and_back(over: CarryRequest) -> Vec<CarryRequest> {
    let back = over.back();
    let with_ample_rooms = back.clone().map(ample);
    [Some(over), back, with_ample_rooms]
        .into_iter()
        .flatten()
        .collect()
}

fn ample(mut request: CarryRequest) -> CarryRequest {
    request.old.room += AMPLE;
    request.new.room += AMPLE;
    request
}

/// One bit changed in each string of the old side, which is 7, and of the new side, which is
/// carried to other bytes.
fn damaged(draw: &mut Generator, way: Way) -> Vec<CarryRequest> {
    let mut list = Vec::new();
    for message in [0, 1, 33] {
        let lengths = Lengths { message, ..USUAL };
        let sound = ample(carrying(draw, way, [lengths, lengths]));
        let old = one_bit_changed(draw, &sound.old);
        list.extend(old.into_iter().map(|old| with_old(&sound, old)));
        let new = one_bit_of_settings(draw, &sound.new);
        list.extend(new.into_iter().map(|new| with_new(&sound, new)));
    }
    list
}

fn with_old(request: &CarryRequest, old: Request) -> CarryRequest {
    CarryRequest {
        old,
        ..request.clone()
    }
}

fn with_new(request: &CarryRequest, new: Request) -> CarryRequest {
    CarryRequest {
        new,
        ..request.clone()
    }
}

/// Each buffer one byte short (where that is not negative), exact and ample, with each of the
/// other; no room at all for an empty message and the shortest tag; and the largest rooms, also
/// for what is refused with 7 and with 11.
fn rooms(draw: &mut Generator, way: Way) -> Vec<CarryRequest> {
    let mut list = Vec::new();
    for (message, t) in [(0, 4), (1, 15), (32, 16)] {
        let lengths = Lengths {
            message,
            t,
            ..USUAL
        };
        let exact = carrying(draw, way, [lengths, lengths]);
        for new in three_rooms(&exact.new) {
            let olds = three_rooms(&exact.old).into_iter();
            list.extend(olds.map(|old| with_old(&with_new(&exact, new.clone()), old)));
        }
        if message == 0 {
            list.push(in_rooms(exact, 0));
        }
    }
    let sound = usual(draw, way);
    let (mut refused, mut same_key) = (sound.clone(), sound.clone());
    draw.change_bit(&mut refused.old.body);
    same_key.new.key = sound.old.key.clone();
    let largest = |request| in_rooms(request, ROOM_MAX);
    list.extend([sound, refused, same_key].map(largest));
    list
}

fn in_rooms(mut request: CarryRequest, room: usize) -> CarryRequest {
    (request.old.room, request.new.room) = (room, room);
    request
}

/// On both sides of each limit, on either side. The tag length is the old side's.
fn at_limits(draw: &mut Generator, way: Way) -> Vec<CarryRequest> {
    let sound = usual(draw, way);
    let mut list = Vec::new();
    for lengths in limits() {
        let from = sealing(draw, way.0, lengths);
        let old = from.opening().unwrap_or_else(|| other_bytes(draw, &from));
        list.push(with_old(&sound, old));
        if lengths.t == USUAL.t {
            let new = Request {
                room: sound.new.room,
                ..sealing(draw, way.1, lengths)
            };
            list.push(with_new(&sound, new));
        }
    }
    list
}

/// Records that nobody sealed: of no bytes, one shorter than the tag, and of the tag alone; of
/// the longest message, and one byte longer.
fn record_lengths(draw: &mut Generator, way: Way) -> Vec<CarryRequest> {
    let sound = usual(draw, way);
    let mut list = Vec::new();
    for t in [4, 16] {
        for len in [0, t - 1, t, MESSAGE_MAX + t, MESSAGE_MAX + t + 1] {
            let old = Request {
                body: draw.bytes(len),
                t,
                ..sound.old.clone()
            };
            list.push(in_rooms(with_old(&sound, old), len));
        }
    }
    list
}

/// Editions and forms that are none on the old side.
fn old_modes(draw: &mut Generator) -> Vec<CarryRequest> {
    let in_mode = |mode| {
        let mut request = usual(draw, WAYS[0]);
        request.old.mode = mode;
        request
    };
    refused_modes().into_iter().map(in_mode).collect()
}

/// Forms that are none on the new side, which in edition 1 is the serial one too.
fn new_modes(draw: &mut Generator) -> Vec<CarryRequest> {
    let mut list = Vec::new();
    for way in [WAYS[0], WAYS[2]] {
        let modes = refused_modes().into_iter();
        for mode in modes.filter(|mode| mode.edition == way.1.edition) {
            list.push(usual(draw, (way.0, mode)));
        }
    }
    list
}
