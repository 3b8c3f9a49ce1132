//! The four words of a text below 192 bytes.

// What follows is the proved text of crates/hash_jenkins/src/spooky_short.rt without its contracts.
// The clauses of short_words_v1 name len.
#![allow(unused_variables)]
use crate::hash_rounds;

use hash_rounds::{le_words, put, short_end, short_mix};

/// The length from which a text is hashed block by block.
pub const LONG: usize = 192;

/// The words that a seed does not fill.
pub(crate) const FILL: u64 = 0xdeadbeefdeadbeef;

/// Proved:
///
/// ```text
/// h.new ≡ add_chunk h.old w.now
/// ```
#[inline]
fn add_chunk(h: &mut [u64; 4], w: &[u64; 4]) {
    h[2] = h[2].wrapping_add(w[0]);
    h[3] = h[3].wrapping_add(w[1]);
    short_mix(h);
    h[0] = h[0].wrapping_add(w[2]);
    h[1] = h[1].wrapping_add(w[3]);
}

/// The text and zeros, up to `N` bytes.
///
/// The caller has to see to it that:
///
/// ```text
/// length text.now ≤ N
/// ```
///
/// Proved:
///
/// ```text
/// result ≡ zero_filled N text.now
/// ```
#[inline(always)]
pub fn zero_filled<const N: usize>(text: &[u8]) -> [u8; N] {
    let mut filled = [0; N];
    put(&mut filled, 0, text);
    filled
}

/// The four words of SpookyHash V2 after the whole chunks of 32 bytes of a text, from two seeds.
///
/// Proved:
///
/// ```text
/// result ≡ add_chunks seed1 seed2 text.now
/// ```
#[inline(always)]
pub fn add_chunks(seed1: u64, seed2: u64, text: &[u8]) -> [u64; 4] {
    let (chunks, _) = text.as_chunks::<32>();
    let mut h = [seed1, seed2, FILL, FILL];
    for chunk in chunks {
        add_chunk(&mut h, &le_words(chunk));
    }
    h
}

/// The four words of the first `len` bytes, where the array has zeros alone after them.
///
/// The caller has to see to it that:
///
/// ```text
/// len < 192
/// ```
///
/// Proved:
///
/// ```text
/// text.now ≡ zero_filled 192 (take len text.now)
///     → result ≡ short_words seed1 seed2 (take len text.now)
/// ```
#[inline]
pub(crate) fn short_words(seed1: u64, seed2: u64, text: &[u8; 192], len: usize) -> [u64; 4] {
    let mut h = add_chunks(seed1, seed2, text);
    h[3] = h[3].wrapping_add((len as u64) << 56);
    short_end(&mut h);
    h
}

/// The same by version 1.
///
/// The caller has to see to it that:
///
/// ```text
/// len < 192
/// ```
///
/// Proved:
///
/// ```text
/// text.now ≡ zero_filled 192 (take len text.now)
///     → result ≡ short_words_v1 seed1 seed2 (take len text.now)
/// ```
#[inline]
pub(crate) fn short_words_v1(seed1: u64, seed2: u64, text: &[u8; 192], len: usize) -> [u64; 4] {
    let mut h = add_chunks(seed1, seed2, text);
    short_end(&mut h);
    h
}
