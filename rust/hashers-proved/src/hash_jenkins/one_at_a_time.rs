//! One-at-a-time, from Bob Jenkins' page on hash functions, here at 64 bits: a byte is added, and the state is mixed by a
//! product and a shift. Each write can be undone.

// What follows is the proved text of crates/hash_jenkins/src/one_at_a_time.rt without its contracts.
use crate::{hash_laws, hash_rounds};

use hash_laws::rules::{ByteHasher, Plain, PlainRule, PlainUndo, hash_by_plain};
use hash_rounds::{unxorshift, xorshift};

/// What undoes a product by 1025.
const UN_1025: u64 = 1151796703138937857;

/// What undoes a product by 9.
const UN_9: u64 = 10248191152060862009;

/// What undoes a product by 32769.
const UN_32769: u64 = 1152886321308467201;

/// The rule of one-at-a-time at 64 bits.
pub struct OaatRule;

impl PlainRule for OaatRule {
    type Word = u64;

    const ALONE: bool = true;

    #[inline]
    fn start() -> u64 {
        0
    }

    #[inline(always)]
    fn step(word: u64, byte: u8) -> u64 {
        xorshift(word.wrapping_add(u64::from(byte)).wrapping_mul(1025), 6)
    }

    #[inline(always)]
    fn answer(word: u64) -> u64 {
        xorshift(word.wrapping_mul(9), 11).wrapping_mul(32769)
    }
}

impl PlainUndo for OaatRule {
    #[inline(always)]
    fn unstep(word: u64, byte: u8) -> u64 {
        unxorshift(word, 6)
            .wrapping_mul(UN_1025)
            .wrapping_sub(u64::from(byte))
    }

    #[inline]
    fn unanswer(hash: u64) -> Option<u64> {
        Some(unxorshift(hash.wrapping_mul(UN_32769), 11).wrapping_mul(UN_9))
    }
}

/// Bob Jenkins' one-at-a-time at 64 bits ("Hash Functions for Hash Table Lookup", burtleburtle.net/bob/hash/evahash.html).
///
/// From 0, a byte `b` takes the state `h` to `h + b`, then to `1025 * h`, then to `h ^ (h >> 6)`. `finish` mixes a copy once
/// more: `9 * h`, `h ^ (h >> 11)`, `32769 * h`. All is modulo 2^64. The split does not matter, and each write can be undone.
///
/// Contracts see the hasher as its state, a number below 2^64: `write` gives `h.new ≡ oaat_state h.old bytes.now`, and `finish`
/// answers `oaat_finish h.now`. Of `a` the hash is 29161854018.
pub type OAATHasher = ByteHasher<Plain<OaatRule>>;

/// One-at-a-time at 64 bits of the bytes.
///
/// Proved:
///
/// ```text
/// result ≡ oaat_of bytes.now
/// ```
#[inline]
pub fn oaat(bytes: &[u8]) -> u64 {
    hash_by_plain::<OaatRule>(bytes)
}
