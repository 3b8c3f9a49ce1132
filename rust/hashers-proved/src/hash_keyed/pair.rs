//! Two polynomial hashes of one text, at two keys: a fingerprint of 122 bits, to compare texts by where nobody may forge one. For two
//! texts of up to n bytes, at most (n / 7 + 2)^2 of the 2^122 pairs of keys give them one fingerprint (`few_pairs_for_two_texts`).

// What follows is the proved text of crates/hash_keyed/src/pair.rt without its contracts.
use crate::{hashers, std};

use crate::hash_keyed::poly61::{Poly61Hasher, poly61};
use hashers::laws::{Piecewise, Streamed};
use std::hash::Hasher;

/// The hashes of a text at two keys, over the text in parts.
pub struct Poly61Pair {
    first: Poly61Hasher,
    second: Poly61Hasher,
}

impl Poly61Pair {
    /// Of no bytes, at two keys: any numbers, of which the remainders modulo the prime count.
    ///
    /// Proved:
    ///
    /// ```text
    /// StandAt result (first % prime61) (second % prime61) []
    /// ```
    #[inline]
    pub fn new(first: u64, second: u64) -> Poly61Pair {
        Poly61Pair {
            first: Poly61Hasher::new(first),
            second: Poly61Hasher::new(second),
        }
    }

    /// Both hashes of the bytes so far. More may be written afterwards.
    ///
    /// Proved:
    ///
    /// ```text
    /// (first second : ℕ) (text : List ℕ) → StandAt self.now first second text
    ///     → result ≡ (poly61 first text, poly61 second text)
    /// ```
    #[inline]
    pub fn finish(&self) -> (u64, u64) {
        (self.first.finish(), self.second.finish())
    }
}

impl Default for Poly61Pair {
    /// That of no bytes, at fixed keys, which everybody knows.
    #[inline]
    fn default() -> Poly61Pair {
        Poly61Pair {
            first: Poly61Hasher::default(),
            second: Poly61Hasher::default(),
        }
    }
}

impl Hasher for Poly61Pair {
    /// The hash at the first key.
    ///
    /// Proved:
    ///
    /// ```text
    /// value: result ≡ as_word (poly_end self.now.first)
    /// in_range: IsPair (at_both self.now)
    /// ```
    #[inline]
    fn finish(&self) -> u64 {
        self.state_in_range();
        self.first.finish()
    }

    /// Takes the bytes in.
    ///
    /// Proved:
    ///
    /// ```text
    /// written: self.new ≡ after_write self.old bytes.now
    /// stands: (first second : ℕ) (text : List ℕ) → StandAt self.old first second text
    ///     → StandAt self.new first second (text ++ bytes.now)
    /// in_range_before: IsPair (at_both self.old)
    /// in_range_after: IsPair (at_both self.new)
    /// ```
    #[inline]
    fn write(&mut self, bytes: &[u8]) {
        self.first.write(bytes);
        self.second.write(bytes);
    }
}

impl Piecewise for Poly61Pair {
    #[inline(always)]
    fn state_in_range(&self) {
        self.first.state_in_range();
        self.second.state_in_range();
    }

    #[inline(always)]
    fn answer(&self) -> u64 {
        Hasher::finish(self)
    }

    #[inline]
    fn fork(&self) -> Poly61Pair {
        Poly61Pair {
            first: self.first.fork(),
            second: self.second.fork(),
        }
    }
}

impl Streamed for Poly61Pair {}

/// Both hashes of a text.
///
/// Proved:
///
/// ```text
/// result ≡ (poly61 (first % prime61) text.now, poly61 (second % prime61) text.now)
/// ```
#[inline]
pub fn poly61_pair(first: u64, second: u64, text: &[u8]) -> (u64, u64) {
    (poly61(first, text), poly61(second, text))
}
