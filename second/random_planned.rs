//! Sealings by plans, and plans asked for, from the seeded generator: sound ones, some with a
//! plan that is not accepted, some with a mishap.

use crate::call::MESSAGE_MAX;
use crate::edition::THIRD_PARALLEL;
use crate::exchange::Exchange;
use crate::generator::Generator;
use crate::plan::{pairs, planner, ENTRY_BYTES};
use crate::plan_damages::some_damage;
use crate::planned_request::{PlannedRequest, Planning};
use crate::random_requests::{mishap, some_slack, sound_sealing};
use crate::request::Request;
use crate::sound_plans::some_plan;

/// The largest number that a request may have.
const NUMBER_MAX: usize = 65_535;

pub fn random_exchange(draw: &mut Generator) -> Exchange {
    if draw.one_in(10) {
        Exchange::of_planning(&random_planning(draw))
    } else {
        Exchange::of_planned(&random_planned(draw))
    }
}

pub fn random_planned(draw: &mut Generator) -> PlannedRequest {
    let sealing = some_sealing(draw);
    let pairs = pairs(sealing.body.len());
    let plan = if draw.one_in(4) {
        planner(pairs)
    } else {
        some_plan(draw, pairs)
    };
    let mut request = PlannedRequest::of(&sealing, &plan);
    if draw.below(5) < 2 {
        request.plan = some_damage(draw, &plan);
    }
    // In an engine's two low bits it does no harm.
    if draw.one_in(12) {
        draw.change_bit(&mut request.plan);
    }
    // Of these a change of the form is none, since no form is asked for.
    if draw.one_in(6) {
        mishap(draw, &mut request.sealing);
    }
    request
}

fn some_sealing(draw: &mut Generator) -> Request {
    let sealing = sound_sealing(draw, &[THIRD_PARALLEL]);
    let message_bytes = some_message(draw);
    Request {
        body: draw.bytes(message_bytes),
        room: message_bytes + sealing.t + some_slack(draw),
        ..sealing
    }
}

/// Mostly up to 400 bytes, some of full blocks only, a few longer.
fn some_message(draw: &mut Generator) -> usize {
    match draw.below(200) {
        0 => draw.below(MESSAGE_MAX + 1),
        1..=5 => draw.below(2_001),
        6..=50 => 16 * draw.below(26),
        _ => draw.below(401),
    }
}

/// With room enough, with some room and with one byte too few.
pub fn random_planning(draw: &mut Generator) -> Planning {
    let length = match draw.below(8) {
        0 => MESSAGE_MAX + 1 + draw.below(NUMBER_MAX - MESSAGE_MAX),
        1 => draw.below(MESSAGE_MAX + 1),
        _ => draw.below(2_001),
    };
    let exact = ENTRY_BYTES * pairs(length);
    let room = match draw.below(4) {
        0 => draw.below(exact + 1),
        1 => exact.saturating_sub(1),
        _ => exact + some_slack(draw),
    };
    Planning { length, room }
}
