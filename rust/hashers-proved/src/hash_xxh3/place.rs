//! What a hasher of XXH3 keeps, in numbers that a caller keeps itself.

// What follows is the proved text of crates/hash_xxh3/src/place.rt without its contracts.
use crate::hash_words;

use crate::hash_xxh3::advance::{advance_under, begin_through, keep_all};
use crate::hash_xxh3::long::{START, end_kept, lanes_at};
use crate::hash_xxh3::secret::{default_secret, secret_of};
use crate::hash_xxh3::whole::of_kept;
use crate::hash_xxh3::wide::{wide_end_kept, wide_kept};
use hash_words::put;

/// What an `Xxh3Hasher` keeps, as whole numbers alone: for a caller that must keep it itself, as a program in C.
#[repr(C)]
#[derive(Clone, Copy)]
pub struct Xxh3Place {
    /// The seed.
    pub seed: u64,
    /// Of a text of more than 240 bytes the eight words after a stripe, and the number of the next in its block of sixteen.
    pub words: [u64; 8],
    pub stripe: u64,
    /// Of such a text the length modulo 2^64.
    pub length: u64,
    /// 0 of a text of at most 240 bytes.
    pub long: u64,
    /// How many bytes of the buffer are kept.
    pub kept: u64,
    /// A text of at most 240 bytes, or a stripe that is in the words, and what is after it.
    pub buffer: [u8; 256],
}

impl Xxh3Place {
    /// Whether a hasher may keep so much.
    ///
    /// Proved:
    ///
    /// ```text
    /// IsTrue result ↔ Fits self.now
    /// ```
    #[inline(always)]
    pub(crate) fn fits(&self) -> bool {
        if self.long == 0 {
            self.kept < 241
        } else {
            self.kept >= 65 && self.kept <= 256 && self.stripe < 16
        }
    }

    // Goes on over the bytes that make a short text a long one.
    /// The caller has to see to it that:
    ///
    /// ```text
    /// fits: Fits self.old
    /// short: self.old.long ≡ 0
    /// enough: 241 ≤ self.old.kept + length bytes.now
    /// ```
    ///
    /// Proved:
    ///
    /// ```text
    /// fits: Fits self.new
    /// there: place_of self.new ≡ after (place_of self.old) bytes.now
    /// ```
    #[inline]
    fn write_through(&mut self, bytes: &[u8]) {
        let kept = self.kept as usize;
        let mut lanes = START;
        self.length = self.kept.wrapping_add(bytes.len() as u64);
        let secret = secret_of(self.seed);
        self.kept = begin_through(&secret, &mut lanes, &mut self.buffer, kept, bytes) as u64;
        self.words = lanes.words;
        self.stripe = lanes.stripe as u64;
        self.long = 1;
    }

    // Goes on over the bytes, from a text of at most 240.
    /// The caller has to see to it that:
    ///
    /// ```text
    /// fits: Fits self.old
    /// short: self.old.long ≡ 0
    /// ```
    ///
    /// Proved:
    ///
    /// ```text
    /// fits: Fits self.new
    /// there: place_of self.new ≡ after (place_of self.old) bytes.now
    /// ```
    #[inline(always)]
    fn write_short(&mut self, bytes: &[u8]) {
        let kept = self.kept as usize;
        if bytes.len() < 241 - kept {
            put(&mut self.buffer, kept, bytes);
            self.kept += bytes.len() as u64;
        } else {
            self.write_through(bytes);
        }
    }

    // The same from a longer text.
    /// The caller has to see to it that:
    ///
    /// ```text
    /// fits: Fits self.old
    /// long: self.old.long ≢ 0
    /// ```
    ///
    /// Proved:
    ///
    /// ```text
    /// fits: Fits self.new
    /// there: place_of self.new ≡ after (place_of self.old) bytes.now
    /// ```
    #[inline(always)]
    fn write_long(&mut self, bytes: &[u8]) {
        let kept = self.kept as usize;
        self.length = self.length.wrapping_add(bytes.len() as u64);
        if bytes.len() <= 256 - kept {
            self.kept = keep_all(&mut self.buffer, kept, bytes) as u64;
        } else {
            let mut lanes = lanes_at(self.words, self.stripe);
            self.kept = advance_under(self.seed, &mut lanes, &mut self.buffer, kept, bytes) as u64;
            self.words = lanes.words;
            self.stripe = lanes.stripe as u64;
        }
    }

    /// Goes on over the bytes, as the hasher that keeps these numbers does. Of numbers that none keeps it changes nothing.
    ///
    /// Proved:
    ///
    /// ```text
    /// there: Fits self.old → Fits self.new × (place_of self.new ≡ after (place_of self.old) bytes.now)
    /// none: ¬ Fits self.old → self.new ≡ self.old
    /// stands: (seed : ℕ) (text : List ℕ) → StandsBehind self.old seed text
    ///     → StandsBehind self.new seed (text ++ bytes.now)
    /// ```
    #[inline(always)]
    pub fn write(&mut self, bytes: &[u8]) {
        if !self.fits() {
            return;
        }
        if self.long == 0 {
            self.write_short(bytes);
        } else {
            self.write_long(bytes);
        }
    }

    // The hash of numbers that a hasher keeps.
    /// The caller has to see to it that:
    ///
    /// ```text
    /// Fits self.now
    /// ```
    ///
    /// Proved:
    ///
    /// ```text
    /// result ≡ hash (place_of self.now)
    /// ```
    #[inline(always)]
    fn hash_kept(&self) -> u64 {
        let kept = &self.buffer[..self.kept as usize];
        if self.long == 0 {
            return of_kept(self.seed, kept);
        }
        let lanes = lanes_at(self.words, self.stripe);
        if self.seed == 0 {
            return end_kept(default_secret(), &lanes, kept, self.length);
        }
        end_kept(&secret_of(self.seed), &lanes, kept, self.length)
    }

    /// The hash of the bytes so far; `None` of numbers that no hasher keeps.
    ///
    /// Proved:
    ///
    /// ```text
    /// some: Fits self.now → result ≡ Some (hash (place_of self.now))
    /// of_text: (seed : ℕ) (text : List ℕ) → StandsBehind self.now seed text
    ///     → result ≡ Some (xxh3_64_of seed text)
    /// none: ¬ Fits self.now → result ≡ None
    /// ```
    #[inline(always)]
    pub fn hash(&self) -> Option<u64> {
        if self.fits() {
            Some(self.hash_kept())
        } else {
            None
        }
    }

    // The same of 128 bits.
    /// The caller has to see to it that:
    ///
    /// ```text
    /// Fits self.now
    /// ```
    ///
    /// Proved:
    ///
    /// ```text
    /// result ≡ wide_hash (place_of self.now)
    /// ```
    #[inline(always)]
    fn hash128_kept(&self) -> (u64, u64) {
        let kept = &self.buffer[..self.kept as usize];
        if self.long == 0 {
            return wide_kept(self.seed, kept);
        }
        let lanes = lanes_at(self.words, self.stripe);
        if self.seed == 0 {
            return wide_end_kept(default_secret(), &lanes, kept, self.length);
        }
        wide_end_kept(&secret_of(self.seed), &lanes, kept, self.length)
    }

    /// The same of 128 bits: the low word and the high one.
    ///
    /// Proved:
    ///
    /// ```text
    /// some: Fits self.now → result ≡ Some (wide_hash (place_of self.now))
    /// of_text: (seed : ℕ) (text : List ℕ) → StandsBehind self.now seed text
    ///     → result ≡ Some (xxh3_128_of seed text)
    /// none: ¬ Fits self.now → result ≡ None
    /// ```
    #[inline(always)]
    pub fn hash128(&self) -> Option<(u64, u64)> {
        if self.fits() {
            Some(self.hash128_kept())
        } else {
            None
        }
    }
}
