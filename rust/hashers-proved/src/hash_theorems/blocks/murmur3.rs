//! Laws of MurmurHash3 alone.

// What follows is the proved text of crates/hash_theorems/src/blocks/murmur3.rt without its contracts.
use crate::hash_blocks;

use crate::hash_theorems::blocks::by_rule::{apart_by_rule, block_for_by_rule};
use hash_blocks::murmur3::{Murmur3Rule32, Murmur3Rule128};

/// Whether the texts have one length and differ, but only within one word: four bytes from a place that 4 divides, or the up to
/// three bytes after the last such word. If so, their hashes by MurmurHash3_x86_32 differ under every seed. Computes no hash.
///
/// Proved:
///
/// ```text
/// exactly: IsTrue result ↔ DifferInOneBlock 4 x.now y.now
/// differ: OnTrue result ((seed : ℕ) → seed < 2 ^ 32
///     → murmur3_32 seed x.now ≢ murmur3_32 seed y.now)
/// ```
#[inline]
pub fn apart_by_word_murmur3_32(x: &[u8], y: &[u8]) -> bool {
    apart_by_rule::<Murmur3Rule32, 4>(x, y)
}

/// The one word between a front, whose length 4 divides, and a back that leads MurmurHash3_x86_32 to a hash, under a seed.
///
/// The caller has to see to it that:
///
/// ```text
/// place: length front.now % 4 ≡ 0
/// fits: length front.now + 4 + length back.now < 2 ^ 64
/// ```
///
/// Proved:
///
/// ```text
/// leads: murmur3_32 seed (front.now ++ (result ++ back.now)) ≡ hash
/// alone: (word : List ℕ) → IsText word → length word ≡ 4
///     → murmur3_32 seed (front.now ++ (word ++ back.now)) ≡ hash → word ≡ result
/// ```
#[inline]
pub fn word_for_murmur3_32(seed: u32, front: &[u8], back: &[u8], hash: u32) -> [u8; 4] {
    block_for_by_rule::<Murmur3Rule32, 4>(seed, front, back, hash)
}

/// Whether the texts have one length and differ, but only within one block of sixteen bytes from a place that 16 divides, or
/// within the up to fifteen bytes after them. If so, their hashes of 128 bits by MurmurHash3_x64_128 differ under every seed.
/// Computes no hash.
///
/// Proved:
///
/// ```text
/// exactly: IsTrue result ↔ DifferInOneBlock 16 x.now y.now
/// differ: OnTrue result ((seed : ℕ) → seed < 2 ^ 64
///     → murmur3_128 seed x.now ≢ murmur3_128 seed y.now)
/// ```
#[inline]
pub fn apart_by_block_murmur3_128(x: &[u8], y: &[u8]) -> bool {
    apart_by_rule::<Murmur3Rule128, 16>(x, y)
}

/// The one block between a front, whose length 16 divides, and a back that leads MurmurHash3_x64_128 to a hash, under a seed.
///
/// The caller has to see to it that:
///
/// ```text
/// place: length front.now % 16 ≡ 0
/// fits: length front.now + 16 + length back.now < 2 ^ 64
/// ```
///
/// Proved:
///
/// ```text
/// leads: murmur3_128 seed (front.now ++ (result ++ back.now)) ≡ hash
/// alone: (block : List ℕ) → IsText block → length block ≡ 16
///     → murmur3_128 seed (front.now ++ (block ++ back.now)) ≡ hash → block ≡ result
/// ```
#[inline]
pub fn block_for_murmur3_128(seed: u64, front: &[u8], back: &[u8], hash: (u64, u64)) -> [u8; 16] {
    block_for_by_rule::<Murmur3Rule128, 16>(seed, front, back, hash)
}
