//! OTR over any block cipher E: the third edition with parallel ADP (000, figure 1) and with
//! serial ADP (000, figure 3), and the first with parallel ADP (003, figure 1). The tag length
//! t is in bytes, tau = 8t. The data pass's first mask is E(0^n) or lent (wish 9 of 02).

use crate::bits::{bits_of, bytes_of, n2s, zeros};
use crate::block::{double, full, pad, xor, Block, Cipher, BLOCK_BITS, ZERO};
use crate::data_pass::{af, af_first, af_s, FirstMask};
use crate::edition::Edition::{self, First, Third};
use crate::form::Form::{Parallel, Serial};
use crate::masks::Masks;
use crate::message_pass::{df, ef};

/// OTR-E: the ciphertext C and the tag T.
pub fn otr_e(
    edition: Edition,
    e: Cipher,
    first_mask: FirstMask,
    t: usize,
    n: &[u8],
    a: &[u8],
    m: &[u8],
) -> (Vec<u8>, Vec<u8>) {
    let ta = ta(edition, e, first_mask, a);
    let (c, te) = ef(e, masks(edition, e, t, n, &ta), m);
    (c, tag(edition, t, &te, &ta))
}

/// OTR-D: the message M, or None for the rejection symbol.
pub fn otr_d(
    edition: Edition,
    e: Cipher,
    first_mask: FirstMask,
    n: &[u8],
    a: &[u8],
    c: &[u8],
    tag_given: &[u8],
) -> Option<Vec<u8>> {
    let t = tag_given.len();
    let ta = ta(edition, e, first_mask, a);
    let (m, te) = df(e, masks(edition, e, t, n, &ta), c);
    if tag(edition, t, &te, &ta) == tag_given {
        Some(m)
    } else {
        None
    }
}

/// OTR-E and OTR-D: figures 1, lines 2 and 3; figure 3, lines 1 and 2.
pub fn ta(edition: Edition, e: Cipher, first_mask: FirstMask, a: &[u8]) -> Block {
    if a.is_empty() {
        return ZERO;
    }
    let e_zero = first_mask.block(e);
    match edition {
        First => af_first(e, e_zero, a),
        Third(Parallel) => af(e, e_zero, a),
        Third(Serial) => af_s(e, e_zero, a),
    }
}

/// EF and DF, EF-S and DF-S: line 2. In the first edition tau is not in it: the nonce, which
/// has 1 to 15 bytes, is padded as a short block. With serial ADP U is doubled whatever TA is.
pub fn masks(edition: Edition, e: Cipher, t: usize, n: &[u8], ta: &Block) -> Masks {
    match edition {
        First => Masks::first(&e(&pad(n))),
        Third(Parallel) => Masks::third(&e(&format(t, n))),
        Third(Serial) => Masks::third(&double(&xor(&e(&format(t, n)), ta))),
    }
}

/// OTR-E and OTR-D, line 4: with serial ADP the tag does not take TA again.
pub fn tag(edition: Edition, t: usize, te: &Block, ta: &Block) -> Vec<u8> {
    let whole = match edition {
        First | Third(Parallel) => xor(te, ta),
        Third(Serial) => *te,
    };
    whole[..t].to_vec()
}

/// Format(tau, N) as both figures of 000 state it, bit for bit, for N of 1 to 15 bytes:
/// n2s(tau mod n, 7) || 0^(n - 8 - |N|) || 1 || N, where the paper's n is 128 and |N| in bits.
pub fn format(t: usize, n: &[u8]) -> Block {
    let tau = 8 * t;
    let nonce = bits_of(n);
    let string = [
        n2s(tau % BLOCK_BITS, 7),
        zeros(BLOCK_BITS - 8 - nonce.len()),
        vec![true],
        nonce,
    ]
    .concat();
    full(&bytes_of(&string))
}
