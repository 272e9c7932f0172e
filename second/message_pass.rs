//! The message pass: EF and DF of 000, figure 1, which are EF-S and DF-S of 000, figure 3, and
//! EF and DF of 003, figure 1, too: these differ only in the masks, which are given here.
//!
//! Lines are those of 000, figure 1; from line 3 on figure 3 has each one number higher. 003
//! has lines 1 to 9 and 19 to 22 alike, lines 10 to 13 of 000 as 11 to 14, and lines 16 and 17
//! as 17 and 18, since it sets L* first.
//!
//! The transcript of 000's figures lost the underline that stands for padding (EF, lines
//! 12, 13 and 17; DF, lines 10, 13 and 17); 01 says where it belongs, and 003 has it there.

use crate::block::{full, pad, partition, xor, xor_first, Block, Cipher, BLOCK_BYTES, ZERO};
use crate::masks::Masks;

/// What EF and DF carry from chunk to chunk.
pub struct Core<'a> {
    e: Cipher<'a>,
    sigma: Block,
    masks: Masks,
}

impl<'a> Core<'a> {
    /// Line 1, behind line 2, which gives the masks.
    fn start(e: Cipher<'a>, masks: Masks) -> Core<'a> {
        Core::at(e, masks, ZERO)
    }

    /// With these masks and this sum, wherever in the message.
    pub fn at(e: Cipher<'a>, masks: Masks, sigma: Block) -> Core<'a> {
        Core { e, sigma, masks }
    }

    /// As the message's first blocks, full and an even number, leave it in EF: lines 7 and 8
    /// for each two of them. Neither line has an E, so none runs.
    pub fn behind(e: Cipher<'a>, masks: Masks, blocks: &[&[u8]]) -> Core<'a> {
        let mut core = Core::start(e, masks);
        for pair in blocks.chunks(2) {
            core.add_to_sigma(&full(pair[1]));
            core.masks.step();
        }
        core
    }

    fn e_l(&self, x: &Block) -> Block {
        (self.e)(&xor(&self.masks.l(), x))
    }

    fn e_l_sharp(&self, x: &Block) -> Block {
        (self.e)(&xor(&self.masks.l_sharp(), x))
    }

    /// Line 16: msb_|x|(E(L)) xor x, where E(L) is E(L xor zero). Where x has no byte there is
    /// nothing to mask, and E does not run (wish 6 of 02).
    fn xor_first_of_e_l(&self, x: &[u8]) -> Vec<u8> {
        if x.is_empty() {
            return Vec::new();
        }
        xor_first(&self.e_l(&ZERO), x)
    }

    fn add_to_sigma(&mut self, x: &Block) {
        self.sigma = xor(&self.sigma, x);
    }

    /// Lines 19 and 20.
    fn te(&self, m: usize, last_block: &[u8]) -> Block {
        let mask = self.masks.last(m, last_block.len() != BLOCK_BYTES);
        (self.e)(&xor(&mask, &self.sigma))
    }
}

/// EF from its masks: the ciphertext C and TE.
pub fn ef(e: Cipher, masks: Masks, message: &[u8]) -> (Vec<u8>, Block) {
    let mut core = Core::start(e, masks);
    let blocks = partition(message);
    // i = 1 to ceil(m/2) - 1.
    let (pairs, last) = blocks.split_at(2 * (blocks.len().div_ceil(2) - 1));
    let c = ef_pairs(&mut core, pairs);
    let (c_last, te) = ef_last(&mut core, last);
    ([c, c_last].concat(), te)
}

/// EF, lines 5 to 8, for each two blocks.
pub fn ef_pairs(core: &mut Core, blocks: &[&[u8]]) -> Vec<u8> {
    blocks
        .chunks(2)
        .flat_map(|pair| ef_pair(core, &full(pair[0]), &full(pair[1])))
        .collect()
}

/// EF, lines 9 to 20, for what remains: where m is even M[m - 1] and M[m], else M[m].
pub fn ef_last(core: &mut Core, blocks: &[&[u8]]) -> (Vec<u8>, Block) {
    let last = blocks[blocks.len() - 1];
    let c = if blocks.len() % 2 == 0 {
        ef_last_two(core, &full(blocks[0]), last)
    } else {
        ef_last_one(core, last)
    };
    (c, core.te(blocks.len(), last))
}

/// EF, lines 5 to 8.
fn ef_pair(core: &mut Core, m_odd: &Block, m_even: &Block) -> Vec<u8> {
    let c_odd = xor(&core.e_l(m_odd), m_even);
    let c_even = xor(&core.e_l_sharp(&c_odd), m_odd);
    core.add_to_sigma(m_even);
    core.masks.step();
    [c_odd, c_even].concat()
}

/// EF, lines 10 to 13.
fn ef_last_two(core: &mut Core, m_before: &Block, m_last: &[u8]) -> Vec<u8> {
    let z = core.e_l(m_before);
    let c_last = xor_first(&z, m_last);
    let c_before = xor(&core.e_l_sharp(&pad(&c_last)), m_before);
    core.add_to_sigma(&z);
    core.add_to_sigma(&pad(&c_last));
    [&c_before[..], &c_last[..]].concat()
}

/// EF, lines 16 and 17.
fn ef_last_one(core: &mut Core, m_last: &[u8]) -> Vec<u8> {
    let c_last = core.xor_first_of_e_l(m_last);
    core.add_to_sigma(&pad(m_last));
    c_last
}

/// DF from its masks: the message M and TE.
pub fn df(e: Cipher, masks: Masks, c: &[u8]) -> (Vec<u8>, Block) {
    let mut core = Core::start(e, masks);
    let blocks = partition(c);
    let m = blocks.len();
    let mut message = Vec::with_capacity(c.len());
    // i = 1 to ceil(m/2) - 1; the paper's C[j] is blocks[j - 1].
    for i in 1..m.div_ceil(2) {
        message.extend(df_pair(
            &mut core,
            &full(blocks[2 * i - 2]),
            &full(blocks[2 * i - 1]),
        ));
    }
    if m % 2 == 0 {
        message.extend(df_last_two(&mut core, &full(blocks[m - 2]), blocks[m - 1]));
    } else {
        message.extend(df_last_one(&mut core, blocks[m - 1]));
    }
    let te = core.te(m, blocks[m - 1]);
    (message, te)
}

/// DF, lines 5 to 8.
fn df_pair(core: &mut Core, c_odd: &Block, c_even: &Block) -> Vec<u8> {
    let m_odd = xor(&core.e_l_sharp(c_odd), c_even);
    let m_even = xor(&core.e_l(&m_odd), c_odd);
    core.add_to_sigma(&m_even);
    core.masks.step();
    [m_odd, m_even].concat()
}

/// DF, lines 10 to 13.
fn df_last_two(core: &mut Core, c_before: &Block, c_last: &[u8]) -> Vec<u8> {
    let m_before = xor(&core.e_l_sharp(&pad(c_last)), c_before);
    let z = core.e_l(&m_before);
    let m_last = xor_first(&z, c_last);
    core.add_to_sigma(&z);
    core.add_to_sigma(&pad(c_last));
    [&m_before[..], &m_last[..]].concat()
}

/// DF, lines 16 and 17.
fn df_last_one(core: &mut Core, c_last: &[u8]) -> Vec<u8> {
    let m_last = core.xor_first_of_e_l(c_last);
    core.add_to_sigma(&pad(&m_last));
    m_last
}
