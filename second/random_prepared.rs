//! Keys prepared and calls under records, from the seeded generator.

use crate::edition::MODES;
use crate::exchange::Exchange;
use crate::generator::Generator;
use crate::random_requests::{random_call, sound_sealing};
use crate::record::Record;

pub fn random_prepared(draw: &mut Generator) -> Exchange {
    if draw.one_in(8) {
        return preparing(draw);
    }
    let sealing = sound_sealing(draw, &MODES).under_record(|record| some_record(draw, record));
    let mut request = random_call(draw, sealing);
    if draw.one_in(8) {
        request = request.under_record(|record| {
            draw.change_bit(&mut record.zero);
        });
    }
    Exchange::of_call(&request)
}

/// Mostly a key that can be prepared.
fn preparing(draw: &mut Generator) -> Exchange {
    let len = if draw.one_in(4) {
        draw.below(65)
    } else {
        draw.pick(&[16, 24, 32])
    };
    Exchange::of_preparing(&draw.bytes(len))
}

/// Mostly as it was prepared; some with a first mask or round keys that no key has, or with
/// another of the three round counts.
fn some_record(draw: &mut Generator, record: &mut Record) {
    match draw.below(8) {
        0 | 1 => draw.fill(&mut record.zero),
        2 => {
            draw.fill(&mut record.round_keys);
            draw.fill(&mut record.zero);
        }
        3 => record.rounds = draw.pick(&[10, 12, 14]),
        _ => {}
    }
}
