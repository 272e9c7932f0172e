//! Every fault that a carrying is refused for (wish 8 of 02), and every two together.

use crate::carry_request::CarryRequest;
use crate::carry_requests::{usual, Way};
use crate::carrying::Side::{self, Neither, New, Old};
use crate::generator::Generator;
use crate::seam_requests::{add_fault, every_two, with_both};

/// Where the fault is, and its number, in the order in which they are checked. The new side's 6
/// is the output's, the old side's the work buffer's.
pub type Fault = (Side, u8);
pub const FAULTS: [Fault; 15] = [
    (Old, 10),
    (Old, 8),
    (Old, 1),
    (Old, 2),
    (Old, 3),
    (Old, 4),
    (Old, 5),
    (New, 8),
    (New, 1),
    (New, 2),
    (New, 4),
    (New, 6),
    (Old, 6),
    (Neither, 11),
    (Old, 7),
];

pub fn two_faults(draw: &mut Generator, way: Way) -> Vec<CarryRequest> {
    with_both(draw, pairs(), |draw| usual(draw, way), add)
}

/// Without the new side's 1 with 11: where the keys are equal the old side's 1 comes with it.
/// The old side's 1 with 11 is the request that has all three.
pub fn pairs() -> Vec<(Fault, Fault)> {
    let mut pairs = every_two(&FAULTS);
    pairs.retain(|&pair| pair != ((New, 1), (Neither, 11)));
    pairs
}

fn add(draw: &mut Generator, request: &mut CarryRequest, (side, number): Fault) {
    let CarryRequest { old, new } = request;
    match (side, number) {
        // There is no other edition then, and the new side's form has to be none in any.
        (_, 10) => {
            add_fault(draw, old, 10);
            add_fault(draw, new, 10);
        }
        (_, 11) => new.key = old.key.clone(),
        // A record that nobody sealed, as long as it was.
        (_, 7) => draw.fill(&mut old.body),
        (New, _) => add_fault(draw, new, number),
        _ => add_fault(draw, old, number),
    }
}
