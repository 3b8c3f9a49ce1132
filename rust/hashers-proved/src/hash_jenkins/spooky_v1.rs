//! Version 1 of SpookyHash: what the crate hashers 1.0.1 computes, kept for values that were stored. It leaves the length of a text
//! below 192 bytes out, so that zeros at its end don't show; from 192 bytes on it is SpookyHash.

// What follows is the proved text of crates/hash_jenkins/src/spooky_v1.rt without its contracts.
use crate::{hash_laws, std};

use crate::hash_jenkins::spooky_parts::SpookyParts;
use hash_laws::traits::{Piecewise, Streamed};
use std::hash::Hasher;

/// SpookyHash by version 1, that of the crate hashers 1.0.1, of a text that comes piece by piece (after Bob Jenkins,
/// burtleburtle.net/bob/hash/spooky.html).
///
/// `finish` returns the first word of the hash of all bytes so far, and `finish128` both. The split into writes does
/// not matter. No write can be undone.
/// Contracts see the `Position` of a [`SpookyHasher`](crate::hash_jenkins::spooky_hash::SpookyHasher) of the same
/// bytes.
///
/// Of `a` under two seeds of 0 the hash is 16932945748884078726.
pub struct SpookyV1Hasher {
    parts: SpookyParts,
}

impl SpookyV1Hasher {
    /// A hasher of no bytes, under two seeds: it stands at ((seed1, seed2), no bytes).
    ///
    /// Proved:
    ///
    /// ```text
    /// position: result ≡ position seed1 seed2 []
    /// stands: SpookyStandsAt result (seed1 ∷ seed2 ∷ []) []
    /// in_range: IsPosition result
    /// ```
    #[inline]
    pub fn new(seed1: u64, seed2: u64) -> SpookyV1Hasher {
        SpookyV1Hasher {
            parts: SpookyParts::new(seed1, seed2),
        }
    }

    /// The hash of the bytes so far, as two words. More bytes may be written afterwards.
    ///
    /// Proved:
    ///
    /// ```text
    /// here: result ≡ hash_v1 self.now
    /// of_text: (seed1 seed2 : ℕ) (text : List ℕ) → self.now ≡ position seed1 seed2 text
    ///     → result ≡ spooky_v1 seed1 seed2 text
    /// where_it_stands: (from text : List ℕ) → SpookyStandsAt self.now from text
    ///     → result ≡ spooky_v1 (slice_index from 0) (slice_index from 1) text
    /// ```
    #[inline]
    pub fn finish128(&self) -> (u64, u64) {
        self.parts.finish128_v1()
    }
}

impl Default for SpookyV1Hasher {
    /// The hasher of no bytes under the seeds 0 and 0.
    #[inline]
    fn default() -> SpookyV1Hasher {
        SpookyV1Hasher::new(0, 0)
    }
}

impl Hasher for SpookyV1Hasher {
    /// The first word of `finish128`.
    #[inline]
    fn finish(&self) -> u64 {
        self.finish128().0
    }

    /// Goes on over the bytes.
    ///
    /// Proved:
    ///
    /// ```text
    /// written: self.new ≡ after self.old bytes.now
    /// stands: (seed1 seed2 : ℕ) (text : List ℕ) → self.old ≡ position seed1 seed2 text
    ///     → self.new ≡ position seed1 seed2 (text ++ bytes.now)
    /// ```
    #[inline(always)]
    fn write(&mut self, bytes: &[u8]) {
        self.parts.write(bytes);
    }
}

impl Piecewise for SpookyV1Hasher {
    #[inline(always)]
    fn state_in_range(&self) {
        let _parts = &self.parts;
    }

    #[inline]
    fn fork(&self) -> SpookyV1Hasher {
        SpookyV1Hasher { parts: self.parts }
    }
}

impl Streamed for SpookyV1Hasher {}
