//! Plans that are refused with 13 (wish 13 of 02), each made from one that is accepted.

use crate::generator::Generator;
use crate::plan::{plan_bytes, planner, Entry, ENGINES};

/// The largest number; and what makes any number one that no message has a pair for, with the
/// low byte as it was.
const NO_PAIR: u16 = 65_535;
const HIGH_BIT: u16 = 0x8000;

/// Every kind of damage: at the entries of these places, and to the whole.
pub fn damaged(draw: &mut Generator, plan: &[Entry], places: &[usize]) -> Vec<Vec<u8>> {
    let mut list = Vec::new();
    for &place in places {
        list.extend(wrong_numbers(draw, plan, place));
        list.extend(wrong_engines(draw, plan, place));
        list.extend([without(plan, place), with_again(plan, place)]);
    }
    list.extend(more(plan));
    list.extend(less(plan));
    list.extend(renumbered(plan));
    list
}

/// One of them, of any kind.
pub fn some_damage(draw: &mut Generator, plan: &[Entry]) -> Vec<u8> {
    let place = (!plan.is_empty()).then(|| draw.below(plan.len()));
    let mut list = damaged(draw, plan, place.as_slice());
    list.swap_remove(draw.below(list.len()))
}

/// The count itself, the largest number, one whose low byte alone is right; and, which is a
/// pair twice and another not at all, the number of another entry.
fn wrong_numbers(draw: &mut Generator, plan: &[Entry], place: usize) -> Vec<Vec<u8>> {
    let mut numbers = vec![count(plan), NO_PAIR, plan[place].pair ^ HIGH_BIT];
    if plan.len() > 1 {
        let others = 1 + draw.below(plan.len() - 1);
        numbers.push(plan[(place + others) % plan.len()].pair);
    }
    let with = |pair| changed(plan, place, |entry| entry.pair = pair);
    numbers.into_iter().map(with).collect()
}

/// The first that is none, the last, and some other.
fn wrong_engines(draw: &mut Generator, plan: &[Entry], place: usize) -> Vec<Vec<u8>> {
    let some = usize::from(ENGINES) + draw.below(256 - usize::from(ENGINES));
    let with = |engine| changed(plan, place, |entry| entry.engine = engine);
    [ENGINES, 255, some as u8].map(with).into()
}

fn without(plan: &[Entry], place: usize) -> Vec<u8> {
    plan_bytes(&[&plan[..place], &plan[place + 1..]].concat())
}

fn with_again(plan: &[Entry], place: usize) -> Vec<u8> {
    with_behind(plan, &plan[place..=place])
}

/// One byte or two behind; an entry that is none behind; and a plan for one pair more.
fn more(plan: &[Entry]) -> Vec<Vec<u8>> {
    let bytes = plan_bytes(plan);
    let entry = |pair, engine| with_behind(plan, &[Entry { pair, engine }]);
    vec![
        [&bytes[..], &[0]].concat(),
        [&bytes[..], &[0, 0]].concat(),
        entry(NO_PAIR, 0),
        entry(count(plan), ENGINES),
        plan_bytes(&planner(plan.len() + 1)),
    ]
}

/// One byte or two too few; no plan at all; and a plan for one pair less.
fn less(plan: &[Entry]) -> Vec<Vec<u8>> {
    if plan.is_empty() {
        return Vec::new();
    }
    let bytes = plan_bytes(plan);
    vec![
        bytes[..bytes.len() - 1].to_vec(),
        bytes[..bytes.len() - 2].to_vec(),
        Vec::new(),
        plan_bytes(&planner(plan.len() - 1)),
    ]
}

/// The whole twice; the numbers from 1 on; with the low byte first, which changes 1; and two
/// pairs twice in the place of two others, so that the numbers add up as before.
fn renumbered(plan: &[Entry]) -> Vec<Vec<u8>> {
    let with = |number: fn(u16) -> u16| {
        let mut plan = plan.to_vec();
        for entry in &mut plan {
            entry.pair = number(entry.pair);
        }
        plan_bytes(&plan)
    };
    let mut list = Vec::new();
    if !plan.is_empty() {
        list.extend([with_behind(plan, plan), with(|pair| pair + 1)]);
    }
    if plan.len() > 1 {
        list.push(with(u16::swap_bytes));
    }
    if plan.len() > 3 {
        list.push(with(|pair| match pair {
            1 => 0,
            2 => 3,
            other => other,
        }));
    }
    list
}

fn changed(plan: &[Entry], place: usize, change: impl FnOnce(&mut Entry)) -> Vec<u8> {
    let mut plan = plan.to_vec();
    change(&mut plan[place]);
    plan_bytes(&plan)
}

fn with_behind(plan: &[Entry], entries: &[Entry]) -> Vec<u8> {
    plan_bytes(&[plan, entries].concat())
}

/// The number behind the last: a message has 511 pairs at most.
fn count(plan: &[Entry]) -> u16 {
    plan.len() as u16
}
