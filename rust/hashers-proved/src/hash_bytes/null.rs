//! Two hash functions that mix nothing: one that forgets every byte, and one that keeps the last eight.

// What follows is the proved text of crates/hash_bytes/src/null.rt without its contracts.
use crate::{hash_laws, std};

use hash_laws::rules::{ByteHasher, ByteRule, StepRule, hash_by_rule};
use hash_laws::traits::{Piecewise, Streamed, hash_of};
use std::hash::Hasher;

/// The hasher that answers 0 to every text (the crate hashers' own, the worst case for a table). The value written
/// `NullHasher` is its default. `write` gives `h.new ≡ h.old`, and `finish` returns 0.
pub struct NullHasher;

impl Default for NullHasher {
    /// The one value of the type.
    #[inline]
    fn default() -> NullHasher {
        NullHasher
    }
}

impl Hasher for NullHasher {
    /// 0.
    ///
    /// Proved:
    ///
    /// ```text
    /// result ≡ 0
    /// ```
    #[inline(always)]
    fn finish(&self) -> u64 {
        0
    }

    /// Forgets the bytes.
    ///
    /// Proved:
    ///
    /// ```text
    /// self.new ≡ self.old
    /// ```
    #[inline(always)]
    fn write(&mut self, _bytes: &[u8]) {}
}

impl Piecewise for NullHasher {
    #[inline(always)]
    fn state_in_range(&self) {}

    #[inline(always)]
    fn whole(_text: &[u8]) -> u64 {
        0
    }

    #[inline(always)]
    fn fork(&self) -> NullHasher {
        NullHasher
    }
}

impl Streamed for NullHasher {}

/// 0, whatever the bytes.
///
/// Proved:
///
/// ```text
/// result ≡ 0
/// ```
#[inline]
pub fn null(bytes: &[u8]) -> u64 {
    hash_of::<NullHasher>(bytes)
}

/// One byte after the state, as a digit in base 256.
///
/// Proved:
///
/// ```text
/// result ≡ passthrough_step state byte
/// ```
#[inline(always)]
fn append_byte(state: u64, byte: u8) -> u64 {
    (state << 8) + u64::from(byte)
}

/// The bytes after the state, one by one.
///
/// Proved:
///
/// ```text
/// result ≡ passthrough_from state bytes.now
/// ```
#[inline(always)]
fn append_few(state: u64, bytes: &[u8]) -> u64 {
    let mut state = state;
    for byte in bytes {
        state = append_byte(state, *byte);
    }
    state
}

/// The hash after appending more bytes: what a [`PassThroughHasher`] of this state comes to. Only the last eight bytes are read.
///
/// Proved:
///
/// ```text
/// result ≡ passthrough_from state bytes.now
/// ```
#[inline(always)]
pub fn passthrough_from(state: u64, bytes: &[u8]) -> u64 {
    match bytes.last_chunk::<8>() {
        Some(last) => u64::from_be_bytes(*last),
        None => append_few(state, bytes),
    }
}

/// The rule that keeps the last eight bytes. It loses what it lets go, so nothing takes a byte back.
pub struct PassThroughRule;

impl StepRule for PassThroughRule {
    type State = u64;

    #[inline]
    fn start() -> u64 {
        0
    }

    #[inline(always)]
    fn fork(state: &u64) -> u64 {
        *state
    }

    #[inline(always)]
    fn step(state: &mut u64, byte: u8) {
        *state = append_byte(*state, byte);
    }
}

impl ByteRule for PassThroughRule {
    #[inline(always)]
    fn write(state: &mut u64, bytes: &[u8]) {
        *state = passthrough_from(*state, bytes);
    }

    #[inline(always)]
    fn answer(state: &u64) -> u64 {
        *state
    }
}

/// The hasher that keeps the last eight bytes (the crate hashers' own, for keys that are hashes already). From 0, a byte
/// `b` takes the state `h` to `256 * h + b`, modulo 2^64; `finish` returns `h`. The split does not matter.
///
/// Contracts see the hasher as its state, a number below 2^64: `write` gives `h.new ≡ passthrough_from h.old bytes.now`. Of `a`
/// the hash is 97.
pub type PassThroughHasher = ByteHasher<PassThroughRule>;

/// The big-endian value of the last eight bytes, or of all where there are fewer.
///
/// Proved:
///
/// ```text
/// value: result ≡ passthrough_from 0 bytes.now
/// last: result ≡ digit_sum 256 (drop (length bytes.now - 8) bytes.now)
/// ```
#[inline]
pub fn passthrough(bytes: &[u8]) -> u64 {
    hash_by_rule::<PassThroughRule>(bytes)
}

/// passthrough of a joined text from the hashes of its two parts and the second one's length in bytes.
///
/// Proved:
///
/// ```text
/// value: result ≡ (hash1 * 256 ^ length2 + hash2) % 2 ^ 64
/// joined: (x y : List ℕ) → length y ≡ length2 → hash1 ≡ passthrough_from 0 x
///     → hash2 ≡ passthrough_from 0 y → result ≡ passthrough_from 0 (x ++ y)
/// ```
#[inline]
pub fn passthrough_combine(hash1: u64, hash2: u64, length2: u64) -> u64 {
    let first = if length2 < 8 {
        hash1 << (8 * length2)
    } else {
        0
    };
    first.wrapping_add(hash2)
}
