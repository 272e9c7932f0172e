//! Carryings from the seeded generator: sound ones, some on their way back, some with a mishap
//! or two.

use crate::carry_request::CarryRequest;
use crate::carry_requests::WAYS;
use crate::generator::Generator;
use crate::random_requests::{mishap, some_other_edition, some_slack, sound_sealing};

pub fn random_carry(draw: &mut Generator) -> CarryRequest {
    let mut request = sound(draw);
    request.old.room += some_slack(draw);
    request.new.room += some_slack(draw);
    if draw.one_in(3) {
        mishap(draw, &mut request.old);
    }
    if draw.one_in(3) {
        mishap(draw, &mut request.new);
    }
    if draw.one_in(12) {
        request.new.key = request.old.key.clone();
    }
    if draw.one_in(12) {
        request.old.mode.edition = some_other_edition(draw, request.old.mode.edition);
    }
    request
}

/// With exact rooms, over or back.
fn sound(draw: &mut Generator) -> CarryRequest {
    let (from, to) = WAYS[draw.below(WAYS.len())];
    let sealing = sound_sealing(draw, &[from]);
    let over = CarryRequest::of(&sealing, sound_sealing(draw, &[to]));
    if draw.one_in(4) {
        over.back().unwrap_or(over)
    } else {
        over
    }
}
