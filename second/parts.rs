//! The command `parts`: sealing in parts (wish 3 of 02). First the sessions that are always
//! the same, whatever the seed.

use crate::call::{DATA_MAX, MESSAGE_MAX};
use crate::division::Division::{self, Irregular, Of, Whole};
use crate::edition::{Mode, THIRD_PARALLEL, THIRD_SERIAL};
use crate::exchange::Exchange;
use crate::failure::Failure;
use crate::generator::Generator;
use crate::random_requests::{mishap, sound_sealing};
use crate::requests::write_seeded;
use crate::seam_lengths::{Lengths, USUAL};
use crate::seam_requests::{sealing, two_faults_of};
use crate::session::Session;

const SEED: u64 = u64::MAX - 3;
const SHORT_MAX: usize = 130;
const LONG: [usize; 3] = [MESSAGE_MAX - 1, MESSAGE_MAX, MESSAGE_MAX + 1];
/// The sealer stays with the third edition (wish 7 of 02).
pub const THIRD: [Mode; 2] = [THIRD_PARALLEL, THIRD_SERIAL];
/// What a beginning checks, in this order.
pub const FAULTS: [u8; 5] = [8, 1, 2, 3, 4];
pub const DIVISIONS: [Division; 7] = [Of(31), Of(32), Of(33), Of(64), Of(65), Whole, Irregular];

pub fn command(arguments: &[String]) -> Result<String, Failure> {
    write_seeded("parts", arguments, fixed, random)
}

pub fn fixed() -> Vec<Exchange> {
    let draw = &mut Generator::new(SEED);
    let mut session = Session::new(draw);
    session.ended(20);
    for (turn, (mode, message, division)) in messages().into_iter().enumerate() {
        let sealing = sealing(session.draw, mode, lengths(turn, message));
        session.seal(&sealing, division);
    }
    for mode in THIRD {
        for lengths in limits() {
            let sealing = sealing(session.draw, mode, lengths);
            session.seal(&sealing, Whole);
        }
        begun_anew(&mut session, mode);
    }
    session.exchanges
}

/// A session, with a mishap at times: a beginning that is refused, or a message too long.
fn random(draw: &mut Generator) -> Vec<Exchange> {
    let mut sealing = sound_sealing(draw, &THIRD);
    if draw.one_in(8) {
        mishap(draw, &mut sealing);
    }
    let mut session = Session::new(draw);
    session.seal(&sealing, Irregular);
    session.exchanges
}

/// Form, length and division: every short message in each division and byte by byte; the
/// longest in each division.
fn messages() -> Vec<(Mode, usize, Division)> {
    let mut list = Vec::new();
    for mode in THIRD {
        for message in 0..=SHORT_MAX {
            let divisions = DIVISIONS.into_iter().chain([Of(1)]);
            list.extend(divisions.map(|division| (mode, message, division)));
        }
        for message in LONG {
            list.extend(DIVISIONS.map(|division| (mode, message, division)));
        }
    }
    list
}

/// The other lengths take turns, so that each comes with each division.
fn lengths(turn: usize, message: usize) -> Lengths {
    Lengths {
        key: [16, 24, 32][turn % 3],
        nonce: [1, 12, 15][turn / 5 % 3],
        data: [0, 1, 15, 16, 17, 40][turn / 3 % 6],
        message,
        t: 4 + turn % 13,
    }
}

/// On both sides of each limit that a beginning has.
pub fn limits() -> Vec<Lengths> {
    let mut list = Vec::new();
    for key in [0, 15, 16, 17, 23, 24, 25, 31, 32, 33] {
        list.push(Lengths { key, ..USUAL });
    }
    for nonce in [0, 1, 15, 16] {
        list.push(Lengths { nonce, ..USUAL });
    }
    for t in [0, 3, 4, 16, 17, 255, 256 + 16] {
        list.push(Lengths { t, ..USUAL });
    }
    for data in [DATA_MAX, DATA_MAX + 1] {
        list.push(Lengths { data, ..USUAL });
    }
    list
}

/// Beginnings while a sealer is in use, which ends with them: one that is sound; and 8 and 1
/// to 4, each alone and every two together.
fn begun_anew(session: &mut Session, mode: Mode) {
    let lengths = Lengths {
        message: 40,
        ..USUAL
    };
    let sound = |draw: &mut Generator| sealing(draw, mode, lengths);
    let (in_use, other) = (sound(session.draw), sound(session.draw));
    session.begin_and_feed(&in_use);
    session.seal(&other, Irregular);
    for refused in two_faults_of(session.draw, &FAULTS, sound) {
        session.begin_and_feed(&in_use);
        session.begin(&refused);
        session.ended(20);
    }
    session.ended(MESSAGE_MAX + 1);
}
