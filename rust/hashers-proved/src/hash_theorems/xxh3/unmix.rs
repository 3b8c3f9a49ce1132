//! The mixes of XXH3, undone: no mix of a word loses anything. So each hash has one text of eight bytes under a seed.

// What follows is the proved text of crates/hash_theorems/src/xxh3/unmix.rt without its contracts.
use crate::{hash_words, hash_xxh3};

use hash_words::{rotl64, xorshift};
use hash_xxh3::short::{eight_flip, secret_pair};
use hash_xxh3::words::{length_in, whole_product};

/// The one word of which XXH3's last mix makes this hash.
///
/// Proved:
///
/// ```text
/// solves: avalanche result ≡ hash
/// alone: (word : ℕ) → word < 2 ^ 64 → avalanche word ≡ hash → word ≡ result
/// ```
#[inline]
pub fn un_avalanche(hash: u64) -> u64 {
    let product = xorshift(hash, 32);
    xorshift(product.wrapping_mul(0x8da8ee41d6df849), 37)
}

// A word with two rotations of itself folded on.
/// The caller has to see to it that:
///
/// ```text
/// k_some: 0 < k
/// k_within: k < 64
/// l_some: 0 < l
/// l_within: l < 64
/// ```
///
/// Proved:
///
/// ```text
/// result ≡ turned k l word
/// ```
#[inline]
fn turned(word: u64, k: u32, l: u32) -> u64 {
    word ^ rotl64(word, k) ^ rotl64(word, l)
}

/// The one word that becomes this one with its rotations by 49 and by 24 bits folded on: what is folded on three times more, by
/// doubled turns, is one rotation by 8 in all.
///
/// Proved:
///
/// ```text
/// solves: three_turns result ≡ word
/// alone: (before : ℕ) → before < 2 ^ 64 → three_turns before ≡ word → before ≡ result
/// ```
#[inline]
pub fn un_three_turns(word: u64) -> u64 {
    let twice = turned(word, 49, 24);
    let four_times = turned(twice, 34, 48);
    rotl64(turned(four_times, 4, 32), 56)
}

/// The one word of which the last mix of four to eight bytes makes this hash, for texts of so many bytes.
///
/// The caller has to see to it that:
///
/// ```text
/// len < 16
/// ```
///
/// Proved:
///
/// ```text
/// solves: length_mix len result ≡ hash
/// alone: (word : ℕ) → word < 2 ^ 64 → length_mix len word ≡ hash → word ≡ result
/// ```
#[inline]
pub fn un_length_mix(len: u64, hash: u64) -> u64 {
    let last = xorshift(xorshift(hash, 28), 56);
    let product = length_in(len, last.wrapping_mul(0x2ab9c720d1024ad));
    un_three_turns(product.wrapping_mul(0x2ab9c720d1024ad))
}

// A number's high four bytes, and then its low four.
/// Proved:
///
/// ```text
/// result ≡ to_le_bytes w32 (number / 2 ^ 32) ++ to_le_bytes w32 (number % 2 ^ 32)
/// ```
#[inline]
fn halves(number: u64) -> [u8; 8] {
    let mut bytes = [0; 8];
    bytes[..4].copy_from_slice(&((number / 4294967296) as u32).to_le_bytes());
    bytes[4..].copy_from_slice(&((number % 4294967296) as u32).to_le_bytes());
    bytes
}

/// The one text of eight bytes that has this hash under a seed.
///
/// Proved:
///
/// ```text
/// leads: xxh3_64_of seed result ≡ hash
/// alone: (text : List ℕ) → IsText text → length text ≡ 8
///     → xxh3_64_of seed text ≡ hash → text ≡ result
/// even: ExactlyTexts 1 8 (λ text. xxh3_64_of seed text ≡ hash)
/// ```
#[inline]
pub fn bytes_for(seed: u64, hash: u64) -> [u8; 8] {
    halves(un_length_mix(8, hash) ^ eight_flip(seed))
}

// Two words as sixteen bytes.
/// Proved:
///
/// ```text
/// result ≡ to_le_bytes w64 first ++ to_le_bytes w64 last
/// ```
#[inline]
fn two_words(first: u64, last: u64) -> [u8; 16] {
    let mut bytes = [0; 16];
    bytes[..8].copy_from_slice(&first.to_le_bytes());
    bytes[8..].copy_from_slice(&last.to_le_bytes());
    bytes
}

// The high word of a product.
/// Proved:
///
/// ```text
/// result ≡ word * factor / 2 ^ 64
/// ```
#[inline(always)]
fn above(word: u64, factor: u64) -> u64 {
    (whole_product(word, factor) / 18446744073709551616) as u64
}

/// The one text of sixteen bytes that has this hash of 128 bits under a seed: on sixteen bytes XXH3 of 128 bits is a
/// permutation.
///
/// Proved:
///
/// ```text
/// leads: xxh3_128_of seed result ≡ hash
/// alone: (text : List ℕ) → IsText text → length text ≡ 16
///     → xxh3_128_of seed text ≡ hash → text ≡ result
/// even: ExactlyTexts 1 16 (λ text. xxh3_128_of seed text ≡ hash)
/// ```
#[inline]
pub fn bytes_for_wide(seed: u64, hash: (u64, u64)) -> [u8; 16] {
    let low = un_avalanche(hash.0).wrapping_mul(0xba79078168d4baf);
    let rest = un_avalanche(hash.1).wrapping_sub(above(low, 0xc2b2ae3d27d4eb4f));
    let high = rest.wrapping_mul(0xba79078168d4baf);
    let product = (low ^ high.swap_bytes()).wrapping_sub(270215977642229760);
    let word = product.wrapping_mul(0x887493432badb37);
    // The last eight bytes, from the high word: first their low half.
    let sum = high.wrapping_sub(above(word, 0x9e3779b185ebca87));
    let half = sum % 4294967296 * 0xb6c92f47 % 4294967296;
    let back = sum.wrapping_sub(half * 0x85ebca76);
    let last = back ^ secret_pair(48).wrapping_add(seed);
    let first = word ^ secret_pair(32).wrapping_sub(seed) ^ last;
    two_words(first, last)
}
