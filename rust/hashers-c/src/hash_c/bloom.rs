//! A Bloom filter in words that the caller keeps, beside its numbers of bits and probes. There is room for a filter where it has a bit
//! and a probe at least, and as many words as the bits need; where there is none, a call answers `false` and changes nothing.

// What follows is the proved text of crates/hash_c/src/bloom.rt without its contracts.
use hashers_proved::{hash_bloom, hashers};

use hash_bloom::words;
use hashers::fnv::FNV1aHasher64;
use hashers::jenkins::Lookup3Hasher;
use hashers::jenkins::spooky_hash::SpookyHasher;
use hashers::laws::Piecewise;

/// Inserts the key, and answers whether it is new.
///
/// Proved:
///
/// ```text
/// IsInserted F.hash_of G.hash_of
///     (filter_of bits probes words.old) (filter_of bits probes words.new) key.now result
/// ```
#[inline(always)]
fn insert<F: Piecewise, G: Piecewise>(words: &mut [u64], bits: u64, probes: u32, key: &[u8]) -> bool {
    words::has_room(words, bits, probes) && words::insert::<F, G>(words, bits, probes, key)
}

/// Whether the key is found.
///
/// Proved:
///
/// ```text
/// IsTrue result ↔ IsFound F.hash_of G.hash_of (filter_of bits probes words.now) key.now
/// ```
#[inline(always)]
fn contains<F: Piecewise, G: Piecewise>(words: &[u64], bits: u64, probes: u32, key: &[u8]) -> bool {
    words::has_room(words, bits, probes) && words::contains::<F, G>(words, bits, probes, key)
}

/// Inserts the key by spooky and lookup3, and answers whether it is new, as a set does: `true` says that it was not inserted before, and
/// `false` that it possibly was.
///
/// Proved:
///
/// ```text
/// IsInserted (λ text. (spooky 0 0 text).0) lookup3_of
///     (filter_of bits probes words.old) (filter_of bits probes words.new) key.now result
/// ```
#[inline]
pub fn hashers_bloom_spooky_lookup3_insert(
    words: &mut [u64],
    bits: u64,
    probes: u32,
    key: &[u8],
) -> bool {
    insert::<SpookyHasher, Lookup3Hasher>(words, bits, probes, key)
}

/// Whether the key is found by spooky and lookup3. It is if it was inserted, and possibly if not.
///
/// Proved:
///
/// ```text
/// IsTrue result ↔ IsFound (λ text. (spooky 0 0 text).0) lookup3_of
///     (filter_of bits probes words.now) key.now
/// ```
#[inline]
pub fn hashers_bloom_spooky_lookup3_contains(
    words: &[u64],
    bits: u64,
    probes: u32,
    key: &[u8],
) -> bool {
    contains::<SpookyHasher, Lookup3Hasher>(words, bits, probes, key)
}

/// Inserts the key by fnv1a64 and lookup3, and answers whether it is new, as a set does: `true` says that it was not inserted before, and
/// `false` that it possibly was.
///
/// Proved:
///
/// ```text
/// IsInserted fnv1a64_of lookup3_of
///     (filter_of bits probes words.old) (filter_of bits probes words.new) key.now result
/// ```
#[inline]
pub fn hashers_bloom_fnv1a64_lookup3_insert(
    words: &mut [u64],
    bits: u64,
    probes: u32,
    key: &[u8],
) -> bool {
    insert::<FNV1aHasher64, Lookup3Hasher>(words, bits, probes, key)
}

/// Whether the key is found by fnv1a64 and lookup3. It is if it was inserted, and possibly if not.
///
/// Proved:
///
/// ```text
/// IsTrue result ↔ IsFound fnv1a64_of lookup3_of
///     (filter_of bits probes words.now) key.now
/// ```
#[inline]
pub fn hashers_bloom_fnv1a64_lookup3_contains(
    words: &[u64],
    bits: u64,
    probes: u32,
    key: &[u8],
) -> bool {
    contains::<FNV1aHasher64, Lookup3Hasher>(words, bits, probes, key)
}

/// Adds the bits of another filter of as many bits and probes, by whatever hashes, and answers whether it has as many words; else
/// nothing changes. Afterwards each key is found that either found.
///
/// Proved:
///
/// ```text
/// exactly: IsTrue result ↔ (length words.old ≡ length others.now)
/// united: OnTrue result ((bits probes : ℕ)
///     → Adds (filter_of bits probes words.old) (filter_of bits probes words.new)
///     (IsSet (filter_of bits probes others.now)))
/// taken: OnTrue result ((f g : List ℕ → ℕ) (bits probes : ℕ)
///     → AllPassIn f g (filter_of bits probes others.now) (filter_of bits probes words.new))
/// kept: (f g : List ℕ → ℕ) (bits probes : ℕ)
///     → AllPassIn f g (filter_of bits probes words.old) (filter_of bits probes words.new)
/// refused: OnFalse result (words.new ≡ words.old)
/// ```
#[inline]
pub fn hashers_bloom_union(words: &mut [u64], others: &[u64]) -> bool {
    let fits = words.len() == others.len();
    if fits {
        words::union(words, others);
    }
    fits
}
