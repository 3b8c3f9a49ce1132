//! XXH3 of a text that comes piece by piece.

// What follows is the proved text of crates/hash_xxh3/src/hasher.rt without its contracts.
use crate::{hash_laws, std};

use crate::hash_xxh3::long::lanes_at;
use crate::hash_xxh3::parts::Xxh3Parts;
use crate::hash_xxh3::place::Xxh3Place;
use crate::hash_xxh3::whole::xxh3_64;
use hash_laws::traits::{Piecewise, Streamed};
use std::hash::Hasher;

/// XXH3 of a text that comes piece by piece, under a seed. How the bytes were split into pieces does not matter.
pub struct Xxh3Hasher {
    parts: Xxh3Parts,
}

impl Xxh3Hasher {
    /// A hasher of no bytes, under a seed.
    ///
    /// Proved:
    ///
    /// ```text
    /// position: result ≡ position seed []
    /// stands: Xxh3StandsAt result (seed ∷ []) []
    /// in_range: IsPosition result
    /// ```
    #[inline(always)]
    pub fn new(seed: u64) -> Xxh3Hasher {
        Xxh3Hasher {
            parts: Xxh3Parts::new(seed),
        }
    }

    /// The hasher that keeps these numbers; `None` of those that none keeps.
    ///
    /// Proved:
    ///
    /// ```text
    /// some: Fits place.now → result ≡ Some (place_of place.now)
    /// none: ¬ Fits place.now → result ≡ None
    /// ```
    #[inline]
    pub fn at(place: &Xxh3Place) -> Option<Xxh3Hasher> {
        if !place.fits() {
            return None;
        }
        let lanes = lanes_at(place.words, place.stripe);
        let kept = place.kept as usize;
        Some(Xxh3Hasher {
            parts: Xxh3Parts::at(
                place.seed,
                lanes,
                place.length,
                place.long != 0,
                kept,
                place.buffer,
            ),
        })
    }

    /// What the hasher keeps.
    ///
    /// Proved:
    ///
    /// ```text
    /// there: place_of result ≡ self.now
    /// fits: Fits result
    /// stands: (seed : ℕ) (text : List ℕ) → self.now ≡ position seed text
    ///     → StandsBehind result seed text
    /// ```
    #[inline]
    pub fn place(&self) -> Xxh3Place {
        let parts = &self.parts;
        Xxh3Place {
            seed: parts.seed,
            words: parts.lanes.words,
            stripe: parts.lanes.stripe as u64,
            length: parts.length,
            long: u64::from(parts.long),
            kept: parts.kept as u64,
            buffer: parts.buffer,
        }
    }

    /// The hash of 128 bits of the bytes so far: the low word and the high one. More bytes may be written afterwards.
    ///
    /// Proved:
    ///
    /// ```text
    /// value: result ≡ wide_hash self.now
    /// of_text: (seed : ℕ) (text : List ℕ) → self.now ≡ position seed text
    ///     → result ≡ xxh3_128_of seed text
    /// where_it_stands: (seed : ℕ) (text : List ℕ) → Xxh3StandsAt self.now (seed ∷ []) text
    ///     → result ≡ xxh3_128_of seed text
    /// ```
    #[inline(always)]
    pub fn finish128(&self) -> (u64, u64) {
        self.parts.finish128()
    }
}

impl Default for Xxh3Hasher {
    /// The hasher of no bytes under the seed 0.
    #[inline]
    fn default() -> Xxh3Hasher {
        Xxh3Hasher::new(0)
    }
}

impl Hasher for Xxh3Hasher {
    /// The hash of the bytes so far.
    ///
    /// Proved:
    ///
    /// ```text
    /// value: result ≡ hash self.now
    /// in_range: IsPosition self.now
    /// of_text: (seed : ℕ) (text : List ℕ) → self.now ≡ position seed text
    ///     → result ≡ xxh3_64_of seed text
    /// where_it_stands: (seed : ℕ) (text : List ℕ) → Xxh3StandsAt self.now (seed ∷ []) text
    ///     → result ≡ xxh3_64_of seed text
    /// ```
    #[inline(always)]
    fn finish(&self) -> u64 {
        self.parts.finish()
    }

    /// Goes on over the bytes.
    ///
    /// Proved:
    ///
    /// ```text
    /// written: self.new ≡ after self.old bytes.now
    /// stands: (seed : ℕ) (text : List ℕ) → self.old ≡ position seed text
    ///     → self.new ≡ position seed (text ++ bytes.now)
    /// in_range_before: IsPosition self.old
    /// in_range_after: IsPosition self.new
    /// ```
    #[inline(always)]
    fn write(&mut self, bytes: &[u8]) {
        self.parts.write(bytes);
    }
}

impl Piecewise for Xxh3Hasher {
    #[inline(always)]
    fn state_in_range(&self) {
        let _parts = &self.parts;
    }

    #[inline(always)]
    fn whole(text: &[u8]) -> u64 {
        xxh3_64(0, text)
    }

    #[inline]
    fn fork(&self) -> Xxh3Hasher {
        Xxh3Hasher { parts: self.parts }
    }
}

impl Streamed for Xxh3Hasher {}
