//! A filter in words that the caller keeps, beside its numbers of bits and probes. Bit i is that of value 2^(i mod 64) in word i / 64.

// What follows is the proved text of crates/hash_bloom/src/words.rt without its contracts.
use crate::hashers;

use crate::hash_bloom::bits::{has_all, set_all};
use hashers::laws::{Piecewise, hash_of};

/// Whether there are a bit and a probe at least, and as many words as the bits need.
///
/// Proved:
///
/// ```text
/// IsTrue result ↔ HasRoom (filter_of bits probes words.now)
/// ```
#[inline]
pub fn has_room(words: &[u64], bits: u64, probes: u32) -> bool {
    bits > 0 && probes > 0 && bits.div_ceil(64) <= words.len() as u64
}

/// Inserts the key, and answers whether it is new, as a set does: it sets the bits at its places, of which one was not set. It
/// clears none. Afterwards this key is found, and each that was found before.
///
/// The caller has to see to it that:
///
/// ```text
/// HasRoom (filter_of bits probes words.old)
/// ```
///
/// Proved:
///
/// ```text
/// inserted: Adds (filter_of bits probes words.old) (filter_of bits probes words.new)
///     (IsProbe F.hash_of G.hash_of (filter_of bits probes words.old) key.now)
/// before: (result ≡ false) ↔ Passes F.hash_of G.hash_of (filter_of bits probes words.old) key.now
/// passes: Passes F.hash_of G.hash_of (filter_of bits probes words.new) key.now
/// kept: AllPassIn F.hash_of G.hash_of (filter_of bits probes words.old) (filter_of bits probes words.new)
/// ```
#[inline]
pub fn insert<F: Piecewise, G: Piecewise>(
    words: &mut [u64],
    bits: u64,
    probes: u32,
    key: &[u8],
) -> bool {
    let (first, second) = (hash_of::<F>(key), hash_of::<G>(key));
    set_all(words, bits, probes, first, second)
}

/// Whether the key is found: the bits at all of its places are set.
///
/// The caller has to see to it that:
///
/// ```text
/// HasRoom (filter_of bits probes words.now)
/// ```
///
/// Proved:
///
/// ```text
/// IsTrue result ↔ Passes F.hash_of G.hash_of (filter_of bits probes words.now) key.now
/// ```
#[inline]
pub fn contains<F: Piecewise, G: Piecewise>(
    words: &[u64],
    bits: u64,
    probes: u32,
    key: &[u8],
) -> bool {
    let (first, second) = (hash_of::<F>(key), hash_of::<G>(key));
    has_all(words, bits, probes, first, second)
}

/// Sets the bits that are set in the others, of as many words. Whatever the numbers of bits and probes, if both filters have the
/// same, and whatever the hashes: afterwards each key is found that either found.
///
/// The caller has to see to it that:
///
/// ```text
/// length words.old ≡ length others.now
/// ```
///
/// Proved:
///
/// ```text
/// united: (bits probes : ℕ) → Adds (filter_of bits probes words.old) (filter_of bits probes words.new)
///     (IsSet (filter_of bits probes others.now))
/// kept: (f g : List ℕ → ℕ) (bits probes : ℕ)
///     → AllPassIn f g (filter_of bits probes words.old) (filter_of bits probes words.new)
/// taken: (f g : List ℕ → ℕ) (bits probes : ℕ)
///     → AllPassIn f g (filter_of bits probes others.now) (filter_of bits probes words.new)
/// ```
#[inline]
pub fn union(words: &mut [u64], others: &[u64]) {
    for i in 0..words.len() {
        words[i] |= others[i];
    }
}
