//! One-at-a-time, from Bob Jenkins' page on hash functions, at 32 bits as he published it.

// What follows is the proved text of crates/hash_more/src/joaat.rt without its contracts.
use crate::{hash_laws, hash_words};

use hash_laws::rules::{ByteHasher, Plain, PlainRule, PlainUndo, hash_by_plain};
use hash_words::unxorshift;

/// What undoes a product by 1025.
const UN_1025: u32 = 3222273025;

/// What undoes a product by 9.
const UN_9: u32 = 954437177;

/// What undoes a product by 32769.
const UN_32769: u32 = 1073709057;

/// The word with itself, shifted to the right by so many bits, xored in. `bits` is from 1 to 31.
///
/// The caller has to see to it that:
///
/// ```text
/// bits < 32
/// ```
///
/// Proved:
///
/// ```text
/// result ≡ xorshift word bits
/// ```
#[inline(always)]
fn shift(word: u32, bits: u32) -> u32 {
    word ^ (word >> bits)
}

/// The word of which `shift` makes this one. `bits` is from 1 to 31.
///
/// The caller has to see to it that:
///
/// ```text
/// some: 0 < bits
/// within: bits < 32
/// ```
///
/// Proved:
///
/// ```text
/// xorshift result bits ≡ word
/// ```
#[inline]
fn unshift(word: u32, bits: u32) -> u32 {
    unxorshift(u64::from(word), bits) as u32
}

/// The rule of one-at-a-time at 32 bits.
pub struct JoaatRule;

impl PlainRule for JoaatRule {
    type Word = u32;

    const ALONE: bool = true;

    #[inline]
    fn start() -> u32 {
        0
    }

    #[inline(always)]
    fn step(word: u32, byte: u8) -> u32 {
        shift(word.wrapping_add(u32::from(byte)).wrapping_mul(1025), 6)
    }

    #[inline(always)]
    fn answer(word: u32) -> u64 {
        u64::from(shift(word.wrapping_mul(9), 11).wrapping_mul(32769))
    }
}

impl PlainUndo for JoaatRule {
    #[inline(always)]
    fn unstep(word: u32, byte: u8) -> u32 {
        unshift(word, 6)
            .wrapping_mul(UN_1025)
            .wrapping_sub(u32::from(byte))
    }

    #[inline]
    fn unanswer(hash: u64) -> Option<u32> {
        let word = u32::try_from(hash).ok()?;
        Some(unshift(word.wrapping_mul(UN_32769), 11).wrapping_mul(UN_9))
    }
}

/// Bob Jenkins' one-at-a-time at 32 bits ("Hash Functions for Hash Table Lookup", burtleburtle.net/bob/hash/evahash.html), which
/// PHP calls joaat.
///
/// From 0, a byte `b` takes the state `h` to `h + b`, then to `1025 * h`, then to `h ^ (h >> 6)`. `finish` mixes a copy once
/// more: `9 * h`, `h ^ (h >> 11)`, `32769 * h`, and widens it. All is modulo 2^32. The split does not matter, each write can be undone, and
/// texts that differ in one byte never collide.
///
/// Contracts see the hasher as its state, a number below 2^32: `write` gives `h.new ≡ joaat_from h.old bytes.now`, and
/// `finish` returns `joaat_answer h.now`. Of `a` the hash is 0xca2e9442.
pub type JoaatHasher = ByteHasher<Plain<JoaatRule>>;

/// One-at-a-time at 32 bits of the bytes.
///
/// Proved:
///
/// ```text
/// value: result ≡ joaat_answer (joaat_from 0 bytes.now)
/// below: result < 2 ^ 32
/// ```
#[inline]
pub fn joaat(bytes: &[u8]) -> u64 {
    hash_by_plain::<JoaatRule>(bytes)
}
