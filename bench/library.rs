//! The library: the functions of shaftladder.h, with slices, in the edition that plain Rust has.

use crate::plain::Terms;

const EDITION: usize = 3;

/// The slices keep the caller's duties: each is valid for its length, and the output, which is
/// borrowed alone, overlaps no input.
macro_rules! function {
    ($name:ident, $symbol:ident) => {
        pub fn $name(terms: &Terms, input: &[u8], out: &mut [u8]) -> u32 {
            extern "C" {
                fn $symbol(
                    edition: usize,
                    form: usize,
                    key: *const u8,
                    key_len: usize,
                    nonce: *const u8,
                    nonce_len: usize,
                    ad: *const u8,
                    ad_len: usize,
                    input: *const u8,
                    input_len: usize,
                    tag_len: usize,
                    out: *mut u8,
                    out_len: usize,
                ) -> u32;
            }
            unsafe {
                $symbol(
                    EDITION,
                    terms.form,
                    terms.key.as_ptr(),
                    terms.key.len(),
                    terms.nonce.as_ptr(),
                    terms.nonce.len(),
                    terms.data.as_ptr(),
                    terms.data.len(),
                    input.as_ptr(),
                    input.len(),
                    terms.tag_bytes,
                    out.as_mut_ptr(),
                    out.len(),
                )
            }
        }
    };
}

function!(seal, shaftladder_seal);
function!(open, shaftladder_open);
