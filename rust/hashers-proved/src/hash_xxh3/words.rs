//! Words of a text, and the mixes of a word.

// What follows is the proved text of crates/hash_xxh3/src/words.rt without its contracts.
use crate::hash_words;

use hash_words::{le_four, le_two, le64, rotl64, xorshift};

/// The eight bytes from a place on as a little-endian word.
///
/// The caller has to see to it that:
///
/// ```text
/// at + 8 ≤ length text.now
/// ```
///
/// Proved:
///
/// ```text
/// result ≡ word_at at text.now
/// ```
#[inline(always)]
pub(crate) fn word_at(text: &[u8], at: usize) -> u64 {
    let (words, _) = text[at..at + 8].as_chunks::<8>();
    le64(&words[0])
}

/// The two words from a place on.
///
/// The caller has to see to it that:
///
/// ```text
/// at + 16 ≤ length text.now
/// ```
///
/// Proved:
///
/// ```text
/// first: result.0 ≡ word_at at text.now
/// second: result.1 ≡ word_at (at + 8) text.now
/// ```
#[inline(always)]
pub(crate) fn two_words_at(text: &[u8], at: usize) -> (u64, u64) {
    let (pieces, _) = text[at..at + 16].as_chunks::<16>();
    le_two(&pieces[0])
}

/// The four bytes from a place on.
///
/// The caller has to see to it that:
///
/// ```text
/// at + 4 ≤ length text.now
/// ```
///
/// Proved:
///
/// ```text
/// result ≡ half_at at text.now
/// ```
#[inline(always)]
pub(crate) fn half_at(text: &[u8], at: usize) -> u32 {
    let (halves, _) = text[at..at + 4].as_chunks::<4>();
    le_four(&halves[0])
}

/// The whole product of two words.
///
/// Proved:
///
/// ```text
/// result ≡ x * y
/// ```
#[inline(always)]
pub fn whole_product(x: u64, y: u64) -> u128 {
    u128::from(x) * u128::from(y)
}

/// The two halves of the whole product, one folded onto the other.
///
/// Proved:
///
/// ```text
/// result ≡ folded_product x y
/// ```
#[inline(always)]
pub(crate) fn folded_product(x: u64, y: u64) -> u64 {
    let product = whole_product(x, y);
    (product % 18446744073709551616) as u64 ^ (product / 18446744073709551616) as u64
}

/// The last mix of a hash.
///
/// Proved:
///
/// ```text
/// result ≡ avalanche hash
/// ```
#[inline(always)]
pub(crate) fn avalanche(hash: u64) -> u64 {
    xorshift(xorshift(hash, 37).wrapping_mul(0x165667919e3779f9), 32)
}

/// That of XXH64, for texts below four bytes.
///
/// Proved:
///
/// ```text
/// result ≡ avalanche_64 hash
/// ```
#[inline(always)]
pub(crate) fn avalanche_64(hash: u64) -> u64 {
    let first = xorshift(hash, 33).wrapping_mul(0xc2b2ae3d27d4eb4f);
    xorshift(xorshift(first, 29).wrapping_mul(0x165667b19e3779f9), 32)
}

/// A word with two rotations of itself folded on.
///
/// Proved:
///
/// ```text
/// result ≡ three_turns hash
/// ```
#[inline(always)]
pub(crate) fn three_turns(hash: u64) -> u64 {
    hash ^ rotl64(hash, 49) ^ rotl64(hash, 24)
}

/// A word with what is left of it after 35 bits, and a length added to that, folded on.
///
/// The caller has to see to it that:
///
/// ```text
/// len < 16
/// ```
///
/// Proved:
///
/// ```text
/// result ≡ length_in len hash
/// ```
#[inline(always)]
pub fn length_in(len: u64, hash: u64) -> u64 {
    hash ^ ((hash >> 35) + len)
}

/// The last mix of four to eight bytes.
///
/// The caller has to see to it that:
///
/// ```text
/// len < 16
/// ```
///
/// Proved:
///
/// ```text
/// result ≡ length_mix len hash
/// ```
#[inline(always)]
pub(crate) fn length_mix(len: u64, hash: u64) -> u64 {
    let turned = three_turns(hash).wrapping_mul(0x9fb21c651e98df25);
    xorshift(length_in(len, turned).wrapping_mul(0x9fb21c651e98df25), 28)
}
