//! The hash functions of Glenn Fowler, Landon Curt Noll and Kiem-Phong Vo in the variant 1: for each byte a product by a prime,
//! and then an exclusive or. The starts and the primes are those of the variant 1a.

// What follows is the proved text of crates/hash_more/src/fnv1.rt without its contracts.
use crate::hash_laws;

use hash_laws::rules::constants::{BASIS_32, BASIS_64, PRIME_32, PRIME_64, UNPRIME_32, UNPRIME_64};
use hash_laws::rules::{ByteHasher, Plain, PlainRule, PlainUndo, hash_by_plain};

/// The rule of FNV-1 at 32 bits.
pub struct Fnv1Rule32;

impl PlainRule for Fnv1Rule32 {
    type Word = u32;

    const ALONE: bool = true;

    #[inline]
    fn start() -> u32 {
        BASIS_32
    }

    #[inline(always)]
    fn step(word: u32, byte: u8) -> u32 {
        word.wrapping_mul(PRIME_32) ^ u32::from(byte)
    }

    #[inline(always)]
    fn answer(word: u32) -> u64 {
        u64::from(word)
    }
}

impl PlainUndo for Fnv1Rule32 {
    #[inline(always)]
    fn unstep(word: u32, byte: u8) -> u32 {
        (word ^ u32::from(byte)).wrapping_mul(UNPRIME_32)
    }

    #[inline]
    fn unanswer(hash: u64) -> Option<u32> {
        u32::try_from(hash).ok()
    }
}

/// FNV-1 at 32 bits (the FNV authors' page, www.isthe.com/chongo/tech/comp/fnv).
///
/// From 2166136261, a byte `b` takes the state `h` to `(h * 16777619) ^ b`, the product modulo 2^32; `finish` returns
/// `h`, widened. The split does not matter, and each write can be undone. Texts that differ in at most two adjacent bytes never collide.
///
/// Contracts see the hasher as its state, a number below 2^32: `write` gives `h.new ≡ fnv1_32_from h.old bytes.now`, and
/// `finish` returns `h.now`. Of `a` the hash is 0x050c5d7e.
pub type Fnv1Hasher32 = ByteHasher<Plain<Fnv1Rule32>>;

/// FNV-1 at 32 bits of the bytes.
///
/// Proved:
///
/// ```text
/// value: result ≡ fnv1_32_from fnv1a32_basis bytes.now
/// below: result < 2 ^ 32
/// ```
#[inline]
pub fn fnv1_32(bytes: &[u8]) -> u64 {
    hash_by_plain::<Fnv1Rule32>(bytes)
}

/// The rule of FNV-1 at 64 bits.
pub struct Fnv1Rule64;

impl PlainRule for Fnv1Rule64 {
    type Word = u64;

    const ALONE: bool = true;

    #[inline]
    fn start() -> u64 {
        BASIS_64
    }

    #[inline(always)]
    fn step(word: u64, byte: u8) -> u64 {
        word.wrapping_mul(PRIME_64) ^ u64::from(byte)
    }

    #[inline(always)]
    fn answer(word: u64) -> u64 {
        word
    }
}

impl PlainUndo for Fnv1Rule64 {
    #[inline(always)]
    fn unstep(word: u64, byte: u8) -> u64 {
        (word ^ u64::from(byte)).wrapping_mul(UNPRIME_64)
    }

    #[inline]
    fn unanswer(hash: u64) -> Option<u64> {
        Some(hash)
    }
}

/// FNV-1 at 64 bits (the FNV authors' page, www.isthe.com/chongo/tech/comp/fnv).
///
/// From 14695981039346656037, a byte `b` takes the state `h` to `(h * 1099511628211) ^ b`, the product modulo 2^64; `finish` returns
/// `h`. The split does not matter, and each write can be undone. Texts that differ in at most three adjacent bytes never collide.
///
/// Contracts see the hasher as its state, a number below 2^64: `write` gives `h.new ≡ fnv1_64_from h.old bytes.now`, and
/// `finish` returns `h.now`. Of `a` the hash is 0xaf63bd4c8601b7be.
pub type Fnv1Hasher64 = ByteHasher<Plain<Fnv1Rule64>>;

/// FNV-1 at 64 bits of the bytes.
///
/// Proved:
///
/// ```text
/// result ≡ fnv1_64_from fnv1a64_basis bytes.now
/// ```
#[inline]
pub fn fnv1_64(bytes: &[u8]) -> u64 {
    hash_by_plain::<Fnv1Rule64>(bytes)
}
