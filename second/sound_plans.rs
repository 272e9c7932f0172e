//! Plans that are accepted (wish 13 of 02).

use crate::generator::Generator;
use crate::plan::{planner, Entry, ENGINES};

/// The planner's; its entries the other way round; three with the pairs in some order, each on
/// some engine; one with the pairs of each engine together; and all pairs on one engine.
pub fn sound_plans(draw: &mut Generator, pairs: usize) -> Vec<Vec<Entry>> {
    let mut backwards = planner(pairs);
    backwards.reverse();
    let mut list = vec![planner(pairs), backwards];
    list.extend((0..3).map(|_| some_plan(draw, pairs)));
    list.extend([by_engine(draw, pairs), on_one_engine(draw, pairs)]);
    list
}

/// Each pair once, in some order, each on some engine.
pub fn some_plan(draw: &mut Generator, pairs: usize) -> Vec<Entry> {
    let mut plan = planner(pairs);
    draw.shuffle(&mut plan);
    for entry in &mut plan {
        entry.engine = some_engine(draw);
    }
    plan
}

fn by_engine(draw: &mut Generator, pairs: usize) -> Vec<Entry> {
    let mut plan = some_plan(draw, pairs);
    plan.sort_by_key(|entry| entry.engine);
    plan
}

fn on_one_engine(draw: &mut Generator, pairs: usize) -> Vec<Entry> {
    let engine = some_engine(draw);
    let mut plan = planner(pairs);
    for entry in &mut plan {
        entry.engine = engine;
    }
    plan
}

fn some_engine(draw: &mut Generator) -> u8 {
    draw.below(usize::from(ENGINES)) as u8
}
