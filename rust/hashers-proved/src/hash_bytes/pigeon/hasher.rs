//! The hasher.

// What follows is the proved text of crates/hash_bytes/src/pigeon/hasher.rt without its contracts.
use crate::{hash_laws, hash_rounds};

use super::table::SHUFFLED_PRODUCTS;
use hash_laws::rules::{ByteHasher, Plain, PlainRule, PlainUndo};
use hash_rounds::swap_halves;

/// The shuffled product of a byte.
///
/// Proved:
///
/// ```text
/// result ≡ shuffle (byte * 173773926194192273 % 2 ^ 64)
/// ```
#[inline(always)]
fn shuffled_product(byte: u8) -> u64 {
    SHUFFLED_PRODUCTS[usize::from(byte)]
}

/// The rule of Pigeon's hash.
pub struct BricolageRule;

impl PlainRule for BricolageRule {
    type Word = u64;

    const ALONE: bool = false;

    #[inline]
    fn start() -> u64 {
        0
    }

    #[inline(always)]
    fn step(word: u64, byte: u8) -> u64 {
        swap_halves(word.wrapping_add(shuffled_product(byte)))
    }

    #[inline(always)]
    fn answer(word: u64) -> u64 {
        word
    }
}

impl PlainUndo for BricolageRule {
    #[inline(always)]
    fn unstep(word: u64, byte: u8) -> u64 {
        swap_halves(word).wrapping_sub(shuffled_product(byte))
    }

    #[inline]
    fn unanswer(hash: u64) -> Option<u64> {
        Some(hash)
    }
}

/// Bricolage, Steven Pigeon's hash (his blog, hbfs.wordpress.com).
///
/// From 0, a byte `b` takes the state `h` to `h + shuffle(b * 173773926194192273)`, whose halves then change places; all is
/// modulo 2^64, and `shuffle` moves the 64 bits by a table. `finish` returns `h`. The split does not matter, and each write can be undone.
///
/// Contracts see the hasher as its state, a number below 2^64: `write` gives `h.new ≡ bricolage_from h.old bytes.now`, and
/// `finish` returns `h.now`. Of `a` the hash is 17926483712435944715.
pub type Bricolage = ByteHasher<Plain<BricolageRule>>;
