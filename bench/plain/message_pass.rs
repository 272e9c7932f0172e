//! The message pass (000, figure 1; in figure 3 it differs in U alone).

use super::block::{
    double, full, padded, times_3, times_3_squared, times_7, write_first, Block, BLOCK_BYTES,
};

const CHUNK_BYTES: usize = 2 * BLOCK_BYTES;

/// EF: writes the ciphertext, which is as long as the message, and gives TE.
pub fn ef(e: &impl Fn(Block) -> Block, u: Block, message: &[u8], out: &mut [u8]) -> Block {
    let (chunks, last) = message.split_at(bytes_before_last_chunk(message.len()));
    let (out_chunks, out_last) = out.split_at_mut(chunks.len());
    let (l, l_sharp) = feistel(e, (u, times_3(u)), chunks, out_chunks);
    let sigma = sum_of_even_blocks(chunks) ^ ef_last_chunk(e, (l, l_sharp), last, out_last);
    te(e, (l, l_sharp), sigma, last.len())
}

/// DF: writes the message, which is as long as the ciphertext, and gives TE.
pub fn df(e: &impl Fn(Block) -> Block, u: Block, ciphertext: &[u8], out: &mut [u8]) -> Block {
    let (chunks, last) = ciphertext.split_at(bytes_before_last_chunk(ciphertext.len()));
    let (out_chunks, out_last) = out.split_at_mut(chunks.len());
    let (l_sharp, l) = feistel(e, (times_3(u), u), chunks, out_chunks);
    let sigma = sum_of_even_blocks(out_chunks) ^ df_last_chunk(e, (l, l_sharp), last, out_last);
    te(e, (l, l_sharp), sigma, last.len())
}

/// The last chunk has 1 to 32 bytes, or none where the string is empty.
fn bytes_before_last_chunk(bytes: usize) -> usize {
    bytes.saturating_sub(1) / CHUNK_BYTES * CHUNK_BYTES
}

/// Lines 4 to 6 and 8: two Feistel rounds on each chunk, the first with L and the second with L# in
/// EF, and the other way round in DF. Gives the masks behind these chunks.
///
/// All first rounds come before all second ones: neighbours then do not wait for each other, and
/// the processor works on several at once.
fn feistel(
    e: &impl Fn(Block) -> Block,
    masks: (Block, Block),
    chunks: &[u8],
    out: &mut [u8],
) -> (Block, Block) {
    let (mut first, mut second) = masks;
    for (chunk, out) in chunks
        .chunks_exact(CHUNK_BYTES)
        .zip(out.chunks_exact_mut(CHUNK_BYTES))
    {
        let (odd, even) = chunk.split_at(BLOCK_BYTES);
        write_first(e(first ^ full(odd)) ^ full(even), &mut out[..BLOCK_BYTES]);
        first = double(first);
    }
    for (chunk, out) in chunks
        .chunks_exact(CHUNK_BYTES)
        .zip(out.chunks_exact_mut(CHUNK_BYTES))
    {
        let (out_odd, out_even) = out.split_at_mut(BLOCK_BYTES);
        write_first(
            e(second ^ full(out_odd)) ^ full(&chunk[..BLOCK_BYTES]),
            out_even,
        );
        second = double(second);
    }
    (first, second)
}

/// Line 7.
fn sum_of_even_blocks(chunks: &[u8]) -> Block {
    chunks
        .chunks_exact(CHUNK_BYTES)
        .fold(0, |sum, chunk| sum ^ full(&chunk[BLOCK_BYTES..]))
}

/// EF, lines 9 to 13 and 15 to 17: gives what goes into the checksum.
fn ef_last_chunk(
    e: &impl Fn(Block) -> Block,
    (l, l_sharp): (Block, Block),
    last: &[u8],
    out: &mut [u8],
) -> Block {
    if last.len() <= BLOCK_BYTES {
        write_first(e(l) ^ padded(last), out);
        return padded(last);
    }
    let (before, last) = last.split_at(BLOCK_BYTES);
    let (out_before, out_last) = out.split_at_mut(BLOCK_BYTES);
    let z = e(l ^ full(before));
    write_first(z ^ padded(last), out_last);
    let c_last = padded(out_last);
    write_first(e(l_sharp ^ c_last) ^ full(before), out_before);
    z ^ c_last
}

/// DF, lines 9 to 13 and 15 to 17: gives what goes into the checksum.
fn df_last_chunk(
    e: &impl Fn(Block) -> Block,
    (l, l_sharp): (Block, Block),
    last: &[u8],
    out: &mut [u8],
) -> Block {
    if last.len() <= BLOCK_BYTES {
        write_first(e(l) ^ padded(last), out);
        return padded(out);
    }
    let (before, last) = last.split_at(BLOCK_BYTES);
    let (out_before, out_last) = out.split_at_mut(BLOCK_BYTES);
    let c_last = padded(last);
    let m_before = e(l_sharp ^ c_last) ^ full(before);
    write_first(m_before, out_before);
    let z = e(l ^ m_before);
    write_first(z ^ c_last, out_last);
    z ^ c_last
}

/// Lines 14 and 18 to 20, by the number of bytes of the last chunk.
fn te(
    e: &impl Fn(Block) -> Block,
    (l, l_sharp): (Block, Block),
    sigma: Block,
    last_bytes: usize,
) -> Block {
    let base = if last_bytes > BLOCK_BYTES { l_sharp } else { l };
    let mask = match last_bytes {
        BLOCK_BYTES | CHUNK_BYTES => times_7(base),
        _ => times_3_squared(base),
    };
    e(mask ^ sigma)
}
