//! Plans (wish 13 of 02): which engine takes which pair of the message. A plan is bytes, three
//! an entry: the pair's number, high byte first, and the engine.

use crate::block::BLOCK_BYTES;

pub const ENGINES: u8 = 4;
pub const ENTRY_BYTES: usize = 3;

#[derive(Clone, Copy)]
pub struct Entry {
    pub pair: u16,
    pub engine: u8,
}

/// How many pairs a message has before its final one or two blocks: of m blocks, of which the
/// empty message has one, the first ceil(m/2) - 1 pairs (01). They are numbered from 0.
pub fn pairs(message_bytes: usize) -> usize {
    let m = message_bytes.div_ceil(BLOCK_BYTES).max(1);
    m.div_ceil(2) - 1
}

/// None where the last entry is not whole.
pub fn entries(plan: &[u8]) -> Option<Vec<Entry>> {
    let entries = plan.chunks_exact(ENTRY_BYTES);
    if !entries.remainder().is_empty() {
        return None;
    }
    let entry = |bytes: &[u8]| Entry {
        pair: u16::from_be_bytes([bytes[0], bytes[1]]),
        engine: bytes[2],
    };
    Some(entries.map(entry).collect())
}

pub fn plan_bytes(entries: &[Entry]) -> Vec<u8> {
    let bytes = |entry: &Entry| {
        let [high, low] = entry.pair.to_be_bytes();
        [high, low, entry.engine]
    };
    entries.iter().flat_map(bytes).collect()
}

/// The entries of a plan for so many pairs, in its order. None where it is not accepted: put in
/// order the numbers have to be 0, 1, 2 and so on, one for each pair.
pub fn accepted(plan: &[u8], pairs: usize) -> Option<Vec<Entry>> {
    let entries = entries(plan)?;
    let mut numbers: Vec<usize> = entries.iter().map(|e| usize::from(e.pair)).collect();
    numbers.sort_unstable();
    let each_once = numbers.into_iter().eq(0..pairs);
    let engines = entries.iter().all(|entry| entry.engine < ENGINES);
    (each_once && engines).then_some(entries)
}

/// The planner's own plan: the pairs in their order, and the engines in turn.
pub fn planner(pairs: usize) -> Vec<Entry> {
    let engines = (0..ENGINES).cycle();
    (0..=u16::MAX)
        .zip(engines)
        .map(|(pair, engine)| Entry { pair, engine })
        .take(pairs)
        .collect()
}
