//! OTR-E in parts (wish 3 of 02), over any block cipher E. The message fed so far is kept
//! whole, with TA and the masks of the beginning; the masks that follow and the checksum are
//! worked out from these anew in each call, which takes no run of E. So E runs only for the
//! blocks that a call gives out and for the tag, in the call that needs it, and each block
//! once: over all calls as often as in one.

use crate::block::{partition, Block, Cipher, BLOCK_BYTES};
use crate::data_pass::FirstMask;
use crate::edition::Edition;
use crate::masks::Masks;
use crate::message_pass::{ef_last, ef_pairs, Core};
use crate::otr::{masks, ta, tag};

pub struct OtrParts {
    edition: Edition,
    t: usize,
    ta: Block,
    masks: Masks,
    fed: Vec<u8>,
}

impl OtrParts {
    pub fn begin(
        edition: Edition,
        e: Cipher,
        first_mask: FirstMask,
        t: usize,
        n: &[u8],
        a: &[u8],
    ) -> OtrParts {
        let ta = ta(edition, e, first_mask, a);
        let masks = masks(edition, e, t, n, &ta);
        OtrParts {
            edition,
            t,
            ta,
            masks,
            fed: Vec::new(),
        }
    }

    /// What of C now comes out.
    pub fn feed(&mut self, e: Cipher, part: &[u8]) -> Vec<u8> {
        let before = self.blocks_given_out();
        self.fed.extend(part);
        let after = self.blocks_given_out();
        let blocks = partition(&self.fed);
        let mut core = Core::behind(e, self.masks, &blocks[..before]);
        ef_pairs(&mut core, &blocks[before..after])
    }

    /// The rest of C, and T behind it.
    pub fn end(&self, e: Cipher) -> Vec<u8> {
        let blocks = partition(&self.fed);
        let (pairs, last) = blocks.split_at(self.blocks_given_out());
        let mut core = Core::behind(e, self.masks, pairs);
        let (c, te) = ef_last(&mut core, last);
        [c, tag(self.edition, self.t, &te, &self.ta)].concat()
    }

    /// How many bytes were fed in all.
    pub fn fed(&self) -> usize {
        self.fed.len()
    }

    /// How many bytes come out when so many are fed.
    pub fn due(&self, part: usize) -> usize {
        given_out(self.fed() + part) - given_out(self.fed())
    }

    /// How many bytes come out at the end.
    pub fn due_at_end(&self) -> usize {
        self.fed() - given_out(self.fed()) + self.t
    }

    fn blocks_given_out(&self) -> usize {
        given_out(self.fed()) / BLOCK_BYTES
    }
}

/// Wish 3: how many bytes have come out after n bytes fed.
fn given_out(n: usize) -> usize {
    if n == 0 {
        0
    } else {
        32 * (n.div_ceil(32) - 1)
    }
}
