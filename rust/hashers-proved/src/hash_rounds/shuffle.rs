//! A shuffle of the bits of a word of 64 bits.
//!
//! It is the one in Steven Pigeon's hash function "Bricolage" (hbfs.wordpress.com, "And a Good One").
//! Here four exchanges of bits under a mask make it.

// What follows is the proved text of crates/hash_rounds/src/shuffle.rt without its contracts.
use crate::hash_words;

use hash_words::swap_halves;

// The bits that change places with those 8, 4, 2 and 1 above.
const BYTES: u64 = 0x0000_ff00_0000_ff00;

const NIBBLES: u64 = 0x00f0_00f0_00f0_00f0;

const PAIRS: u64 = 0x0c0c_0c0c_0c0c_0c0c;

const BITS: u64 = 0x2222_2222_2222_2222;

/// The word with its halves exchanged, and then the bits of the two halves of each half taken in turn.
/// For i below 16 the bits i, 16 + i, 32 + i and 48 + i go to 32 + 2i, 33 + 2i, 2i and 2i + 1.
///
/// Proved:
///
/// ```text
/// value: result ≡ shuffle x
/// undone: unshuffle result ≡ x
/// ```
#[inline]
pub fn shuffle64(x: u64) -> u64 {
    let halves = swap_halves(x);
    let bytes = exchange(halves, BYTES, 8);
    let nibbles = exchange(bytes, NIBBLES, 4);
    let pairs = exchange(nibbles, PAIRS, 2);
    exchange(pairs, BITS, 1)
}

/// The one word of which `shuffle64` makes `x`.
///
/// Proved:
///
/// ```text
/// value: result ≡ unshuffle x
/// undone: shuffle result ≡ x
/// ```
#[inline]
pub fn unshuffle64(x: u64) -> u64 {
    let pairs = exchange(x, BITS, 1);
    let nibbles = exchange(pairs, PAIRS, 2);
    let bytes = exchange(nibbles, NIBBLES, 4);
    let halves = exchange(bytes, BYTES, 8);
    swap_halves(halves)
}

// The bits of the mask change places with those k above.
/// The caller has to see to it that:
///
/// ```text
/// within: k < 64
/// apart: bit_and mask (mask * 2 ^ k) ≡ 0
/// ```
///
/// Proved:
///
/// ```text
/// (j : ℕ) → j < 64 → bit_at result j ≡ bit_at x (exchanged mask k j)
/// ```
#[inline(always)]
fn exchange(x: u64, mask: u64, k: u32) -> u64 {
    let moved = (x ^ (x >> k)) & mask;
    x ^ moved ^ (moved << k)
}
