//! What XXH3 loses of short texts, and what it keeps: laws with no code, and whether the hashes of two texts differ.

// What follows is the proved text of crates/hash_theorems/src/xxh3/laws.rt without its contracts.
use crate::{hash_laws, hash_xxh3, std};

use hash_laws::traits::bytes_are_a_text;
use hash_xxh3::BuildXxh3;
use std::hash::BuildHasher;

/// The hash of a number as a key under `BuildXxh3`: that of its 8 bytes, the lowest first. No other number has it.
///
/// Proved:
///
/// ```text
/// value: result ≡ xxh3_64_of keys.seed (le_bytes 8 key)
/// alone: (other : ℕ) → other < 2 ^ 64
///     → result ≡ xxh3_64_of keys.seed (le_bytes 8 other) → other ≡ key
/// ```
#[inline]
pub fn hash_one_number(keys: BuildXxh3, key: u64) -> u64 {
    keys.hash_one::<u64>(key)
}

/// Whether two texts differ, and both have one to three bytes, or one length of four to eight. If so, their hashes of 64 bits differ
/// under every seed. Computes no hash.
///
/// Proved:
///
/// ```text
/// exactly: IsTrue result ↔ DifferAndAreFew x.now y.now
/// differ: OnTrue result ((seed : ℕ) → xxh3_64_of seed x.now ≢ xxh3_64_of seed y.now)
/// ```
#[inline]
pub fn apart_xxh3(x: &[u8], y: &[u8]) -> bool {
    bytes_are_a_text(x);
    bytes_are_a_text(y);
    match (x.len(), y.len()) {
        (1..=3, 1..=3) => x != y,
        (4..=8, len) => len == x.len() && x != y,
        _ => false,
    }
}

/// Whether two texts differ, and have one length of at most sixteen bytes. If so, their hashes of 128 bits differ under every seed.
/// Computes no hash.
///
/// Proved:
///
/// ```text
/// exactly: IsTrue result ↔ DifferWithinSixteen x.now y.now
/// differ: OnTrue result ((seed : ℕ) → xxh3_128_of seed x.now ≢ xxh3_128_of seed y.now)
/// ```
#[inline]
pub fn apart_xxh128(x: &[u8], y: &[u8]) -> bool {
    bytes_are_a_text(x);
    bytes_are_a_text(y);
    x.len() < 17 && x.len() == y.len() && x != y
}
