//! The command `planned`: plans asked for, and sealings by plans (wish 13 of 02). First those
//! that are always the same, whatever the seed.

use crate::call::{DATA_MAX, MESSAGE_MAX};
use crate::edition::THIRD_PARALLEL;
use crate::exchange::Exchange;
use crate::failure::Failure;
use crate::generator::Generator;
use crate::parts::limits;
use crate::plan::{pairs, planner, Entry, ENTRY_BYTES};
use crate::plan_damages::{damaged, some_damage};
use crate::planned_request::{PlannedRequest, Planning};
use crate::random_planned::random_exchange;
use crate::request::Request;
use crate::requests::write_seeded;
use crate::seam_lengths::{at_every_tag, Lengths, DATA, KEYS, USUAL};
use crate::seam_requests::{
    add_fault, every_two, sealing, three_rooms, with_both, AMPLE, ROOM_MAX,
};
use crate::sound_plans::{some_plan, sound_plans};

const SEED: u64 = u64::MAX - 6;
/// With 0 to 5 pairs, with 31 and with the most, 511.
pub const MESSAGES: [usize; 16] = [
    0,
    1,
    16,
    17,
    32,
    33,
    48,
    63,
    64,
    65,
    80,
    96,
    129,
    161,
    1_000,
    MESSAGE_MAX,
];
/// 5 pairs.
const FIVE: usize = 161;
/// A plan with more entries than this is damaged at one place.
const SHORT_PLAN: usize = 31;
/// Also on both sides of each pair more, and of the longest.
const PLANNED: [usize; 25] = [
    0,
    1,
    15,
    16,
    17,
    31,
    32,
    33,
    64,
    65,
    96,
    97,
    128,
    129,
    160,
    161,
    1_000,
    8_224,
    8_225,
    MESSAGE_MAX - 1,
    MESSAGE_MAX,
    MESSAGE_MAX + 1,
    MESSAGE_MAX + 16,
    2 * MESSAGE_MAX,
    65_535,
];
/// What a sealing by a plan checks, in this order.
pub const FAULTS: [u8; 7] = [1, 2, 3, 4, 5, 6, 13];

pub fn command(arguments: &[String]) -> Result<String, Failure> {
    write_seeded("planned", arguments, fixed, |draw| [random_exchange(draw)])
}

pub fn fixed() -> Vec<Exchange> {
    let mut list: Vec<Exchange> = plannings().iter().map(Exchange::of_planning).collect();
    list.extend(sealings().iter().map(Exchange::of_planned));
    list
}

/// Each length with no room, with one byte too few, with exact and with ample room; and the
/// longest with the largest room, and one byte more.
pub fn plannings() -> Vec<Planning> {
    let mut list = Vec::new();
    for length in PLANNED {
        let exact = ENTRY_BYTES * pairs(length);
        let mut rooms = vec![0, exact.saturating_sub(1), exact, exact + AMPLE];
        rooms.dedup();
        list.extend(rooms.into_iter().map(|room| Planning { length, room }));
    }
    let largest = [MESSAGE_MAX, MESSAGE_MAX + 1].map(|length| Planning {
        length,
        room: ROOM_MAX,
    });
    list.extend(largest);
    list
}

pub fn sealings() -> Vec<PlannedRequest> {
    let draw = &mut Generator::new(SEED);
    let mut list = messages(draw);
    list.extend(other_lengths(draw));
    list.extend(rooms(draw));
    list.extend(at_limits(draw));
    list.extend(too_long(draw));
    list.extend(two_faults(draw));
    list.extend(damaged_and_refused_before(draw));
    list
}

/// Every message by plans that are accepted and by every kind of damage.
fn messages(draw: &mut Generator) -> Vec<PlannedRequest> {
    let mut list = Vec::new();
    for message in MESSAGES {
        let pairs = pairs(message);
        for plan in sound_plans(draw, pairs) {
            let sealing = sealing(draw, THIRD_PARALLEL, lengths(list.len(), message));
            list.push(PlannedRequest::of(&sealing, &plan));
        }
        let plan = some_plan(draw, pairs);
        for plan in damaged_everywhere(draw, &plan) {
            let sealing = sealing(draw, THIRD_PARALLEL, lengths(list.len(), message));
            list.push(PlannedRequest { sealing, plan });
        }
    }
    list
}

/// They take turns.
fn lengths(turn: usize, message: usize) -> Lengths {
    Lengths {
        key: KEYS[turn % 3],
        nonce: 1 + turn % 15,
        data: [0, 1, 16, 17, 40][turn / 3 % 5],
        message,
        t: 4 + turn % 13,
    }
}

/// At the first entry, the last and one between; at the last alone of a long plan.
fn damaged_everywhere(draw: &mut Generator, plan: &[Entry]) -> Vec<Vec<u8>> {
    let mut places = match plan.len() {
        0 => Vec::new(),
        1..=SHORT_PLAN => vec![0, draw.below(plan.len()), plan.len() - 1],
        _ => vec![plan.len() - 1],
    };
    places.dedup();
    damaged(draw, plan, &places)
}

/// Every seam data with every key length; every nonce with every tag; and what makes the
/// longest lines, by a plan that is accepted and by one that is not.
fn other_lengths(draw: &mut Generator) -> Vec<PlannedRequest> {
    let mut lengths = at_every_tag(&(1..=15).collect::<Vec<_>>());
    for data in DATA {
        lengths.extend(KEYS.map(|key| Lengths { key, data, ..USUAL }));
    }
    let mut list = Vec::new();
    for lengths in lengths {
        list.push(five_pairs(draw, lengths));
    }
    let longest = Lengths {
        key: 32,
        nonce: 15,
        data: DATA_MAX,
        message: MESSAGE_MAX,
        t: 16,
    };
    let sealing = in_room(sealing(draw, THIRD_PARALLEL, longest), ROOM_MAX);
    let sound = PlannedRequest::of(&sealing, &planner(pairs(MESSAGE_MAX)));
    let plan = [&sound.plan[..], &sound.plan].concat();
    list.extend([sound, PlannedRequest { sealing, plan }]);
    list
}

/// A message of 5 pairs with exact room, by some plan, with its other lengths these.
fn five_pairs(draw: &mut Generator, lengths: Lengths) -> PlannedRequest {
    let message = FIVE;
    let sealing = sealing(draw, THIRD_PARALLEL, Lengths { message, ..lengths });
    PlannedRequest::of(&sealing, &some_plan(draw, pairs(message)))
}

fn in_room(sealing: Request, room: usize) -> Request {
    Request { room, ..sealing }
}

/// One byte short, exact and ample, and none at all, by a plan that is accepted and by every
/// kind of damage; and the largest room.
fn rooms(draw: &mut Generator) -> Vec<PlannedRequest> {
    let mut list = Vec::new();
    for message in [0, 32, 33, FIVE] {
        let exact = sealing(draw, THIRD_PARALLEL, Lengths { message, ..USUAL });
        let mut sealings = three_rooms(&exact);
        sealings.push(in_room(exact, 0));
        let plan = some_plan(draw, pairs(message));
        for sealing in sealings {
            list.push(PlannedRequest::of(&sealing, &plan));
            let damaged = damaged_everywhere(draw, &plan).into_iter();
            list.extend(damaged.map(|plan| PlannedRequest {
                sealing: sealing.clone(),
                plan,
            }));
        }
    }
    let mut sound = five_pairs(draw, USUAL);
    sound.sealing.room = ROOM_MAX;
    list.extend([refused_with_13(draw, &sound), sound]);
    list
}

fn refused_with_13(draw: &mut Generator, sound: &PlannedRequest) -> PlannedRequest {
    let plan = some_plan(draw, sound.pairs());
    PlannedRequest {
        plan: some_damage(draw, &plan),
        ..sound.clone()
    }
}

/// On both sides of each limit, by a plan that is accepted and by one that is not.
fn at_limits(draw: &mut Generator) -> Vec<PlannedRequest> {
    let mut list = Vec::new();
    for lengths in limits() {
        let sound = five_pairs(draw, lengths);
        list.extend([refused_with_13(draw, &sound), sound]);
    }
    list
}

/// One byte more than the longest message: by a plan for all its pairs, by one for the longest
/// message's and by none; with exact room and with none.
fn too_long(draw: &mut Generator) -> Vec<PlannedRequest> {
    let message = MESSAGE_MAX + 1;
    let exact = sealing(draw, THIRD_PARALLEL, Lengths { message, ..USUAL });
    let of = |pairs| PlannedRequest::of(&exact, &planner(pairs));
    let mut list = [pairs(message), pairs(MESSAGE_MAX), 0].map(of).to_vec();
    let without_room = PlannedRequest {
        sealing: in_room(exact.clone(), 0),
        ..list[0].clone()
    };
    list.push(without_room);
    list
}

/// Every fault alone and every two together.
pub fn two_faults(draw: &mut Generator) -> Vec<PlannedRequest> {
    let sound = |draw: &mut Generator| five_pairs(draw, USUAL);
    with_both(draw, every_two(&FAULTS), sound, add)
}

/// With 5 the plan is one for the pairs of the longer message, unless 13 is there too.
fn add(draw: &mut Generator, request: &mut PlannedRequest, number: u8) {
    if number == 13 {
        *request = refused_with_13(draw, request);
        return;
    }
    add_fault(draw, &mut request.sealing, number);
    if number == 5 {
        *request = PlannedRequest::of(&request.sealing, &planner(request.pairs()));
    }
}

/// Every kind of damage with each other fault but 5, whose lines are long.
fn damaged_and_refused_before(draw: &mut Generator) -> Vec<PlannedRequest> {
    let mut list = Vec::new();
    for number in [1, 2, 3, 4, 6] {
        let plan = some_plan(draw, pairs(FIVE));
        for plan in damaged(draw, &plan, &[plan.len() - 1]) {
            let mut request = five_pairs(draw, USUAL);
            add(draw, &mut request, number);
            list.push(PlannedRequest { plan, ..request });
        }
    }
    list
}
