//! The hash functions of Glenn Fowler, Landon Curt Noll and Kiem-Phong Vo, in the variant 1a: for each byte an exclusive
//! or, and then a product by a prime. They were published on the authors' page, and are short and widely used.

// What follows is the proved text of crates/hash_bytes/src/fnv.rt without its contracts.
// The law origin_of_constants alone reads SIGNATURE, the text of which the starts are the hash.
#![allow(dead_code)]
use crate::hash_laws;

pub use hash_laws::rules::constants::{
    BASIS_32, BASIS_64, PRIME_32, PRIME_64, UNPRIME_32, UNPRIME_64,
};
use hash_laws::rules::{ByteHasher, Plain, PlainRule, PlainUndo, hash_by_plain};

/// The 32 bytes of which the authors took the starts: a line of Noll's signature.
const SIGNATURE: [u8; 32] = *b"chongo <Landon Curt Noll> /\\../\\";

/// The rule of FNV-1a at 32 bits.
pub struct Fnv1aRule32;

impl PlainRule for Fnv1aRule32 {
    type Word = u32;

    const ALONE: bool = true;

    #[inline]
    fn start() -> u32 {
        BASIS_32
    }

    #[inline(always)]
    fn step(word: u32, byte: u8) -> u32 {
        (word ^ u32::from(byte)).wrapping_mul(PRIME_32)
    }

    #[inline(always)]
    fn answer(word: u32) -> u64 {
        u64::from(word)
    }
}

impl PlainUndo for Fnv1aRule32 {
    #[inline(always)]
    fn unstep(word: u32, byte: u8) -> u32 {
        word.wrapping_mul(UNPRIME_32) ^ u32::from(byte)
    }

    #[inline]
    fn unanswer(hash: u64) -> Option<u32> {
        u32::try_from(hash).ok()
    }
}

/// FNV-1a at 32 bits (the FNV authors' page, www.isthe.com/chongo/tech/comp/fnv).
///
/// From 2166136261, a byte `b` takes the state `h` to `(h ^ b) * 16777619`, modulo 2^32; `finish` returns `h`, widened. The
/// split does not matter, and each write can be undone. Texts that differ in at most two adjacent bytes never collide.
///
/// Contracts see the hasher as its state, a number below 2^32: `write` gives `h.new ≡ fnv1a32_from h.old bytes.now`, and
/// `finish` returns `h.now`. Of `a` the hash is 3826002220.
pub type FNV1aHasher32 = ByteHasher<Plain<Fnv1aRule32>>;

/// FNV-1a at 32 bits of the bytes.
///
/// Proved:
///
/// ```text
/// value: result ≡ fnv1a32_of bytes.now
/// below: result < 2 ^ 32
/// ```
#[inline]
pub fn fnv1a32(bytes: &[u8]) -> u64 {
    hash_by_plain::<Fnv1aRule32>(bytes)
}

/// The rule of FNV-1a at 64 bits.
pub struct Fnv1aRule64;

impl PlainRule for Fnv1aRule64 {
    type Word = u64;

    const ALONE: bool = true;

    #[inline]
    fn start() -> u64 {
        BASIS_64
    }

    #[inline(always)]
    fn step(word: u64, byte: u8) -> u64 {
        (word ^ u64::from(byte)).wrapping_mul(PRIME_64)
    }

    #[inline(always)]
    fn answer(word: u64) -> u64 {
        word
    }
}

impl PlainUndo for Fnv1aRule64 {
    #[inline(always)]
    fn unstep(word: u64, byte: u8) -> u64 {
        word.wrapping_mul(UNPRIME_64) ^ u64::from(byte)
    }

    #[inline]
    fn unanswer(hash: u64) -> Option<u64> {
        Some(hash)
    }
}

/// FNV-1a at 64 bits (the FNV authors' page, www.isthe.com/chongo/tech/comp/fnv).
///
/// From 14695981039346656037, a byte `b` takes the state `h` to `(h ^ b) * 1099511628211`, modulo 2^64; `finish` returns `h`.
/// The split does not matter, and each write can be undone. Texts that differ in at most three adjacent bytes never collide.
///
/// Contracts see the hasher as its state, a number below 2^64: `write` gives `h.new ≡ fnv1a64_from h.old bytes.now`, and
/// `finish` returns `h.now`. Of `a` the hash is 12638187200555641996.
pub type FNV1aHasher64 = ByteHasher<Plain<Fnv1aRule64>>;

/// FNV-1a at 64 bits of the bytes.
///
/// Proved:
///
/// ```text
/// result ≡ fnv1a64_of bytes.now
/// ```
#[inline]
pub fn fnv1a64(bytes: &[u8]) -> u64 {
    hash_by_plain::<Fnv1aRule64>(bytes)
}
