//! The hash of a text by its polynomial over the prime 2^61 - 1, at a key.

// What follows is the proved text of crates/hash_keyed/src/poly61.rt without its contracts.
use crate::{hashers, std};

use crate::hash_keyed::modular::{PRIME, ended, ended_at_once, placed, reduced, remainder, step};
use crate::hash_keyed::words::{few, full_words, joined, text_words};
use hashers::laws::{Piecewise, Streamed};
use std::hash::Hasher;

/// The key of a default hasher. Everybody knows it, so it is of use where nobody chooses the texts.
const DEFAULT_KEY: u64 = 1234567890123456789;

/// Where a [`Poly61Hasher`] stands, in whole numbers that a caller may keep: the key, the state behind the full words, and the bytes
/// behind these, as the number that they are and how many.
#[repr(C)]
#[derive(Clone, Copy)]
pub struct Poly61Place {
    /// The key, below 2^61 - 1.
    pub key: u64,
    /// The state, below 2^61 - 1.
    pub state: u64,
    /// The number that the bytes behind the full words are, the first the lowest.
    pub word: u64,
    /// How many they are: fewer than seven.
    pub count: u64,
}

impl Poly61Place {
    /// Whether some hasher stands there.
    ///
    /// Proved:
    ///
    /// ```text
    /// IsTrue result ↔ IsPosition (place_of self.now)
    /// ```
    #[inline(always)]
    fn is_somewhere(&self) -> bool {
        self.key < PRIME
            && self.state < PRIME
            && self.count < 7
            && self.word < placed(1, self.count as u32)
    }
}

/// The hash of a text by its polynomial, at a key.
pub struct Poly61Hasher {
    key: u64,
    state: u64,
    word: u64,
    count: u32,
}

impl Poly61Hasher {
    /// A hasher of no bytes, at a key: any number, of which the remainder modulo the prime counts.
    ///
    /// Proved:
    ///
    /// ```text
    /// position: result ≡ start_at (key % prime61)
    /// stands: PolyStandsAt result ((key % prime61) ∷ []) []
    /// in_range: IsPosition result
    /// ```
    #[inline(always)]
    pub fn new(key: u64) -> Poly61Hasher {
        Poly61Hasher {
            key: remainder(key),
            state: 1,
            word: 0,
            count: 0,
        }
    }

    /// The hasher that stands there; `None` if no hasher does.
    ///
    /// Proved:
    ///
    /// ```text
    /// MatchOption result (¬ IsPosition (place_of place.now))
    ///     (λ h. (h ≡ place_of place.now) × IsPosition h)
    /// ```
    #[inline(always)]
    pub fn at(place: &Poly61Place) -> Option<Poly61Hasher> {
        if !place.is_somewhere() {
            return None;
        }
        Some(Poly61Hasher {
            key: place.key,
            state: place.state,
            word: place.word,
            count: place.count as u32,
        })
    }

    /// Where it stands.
    ///
    /// Proved:
    ///
    /// ```text
    /// there: place_of result ≡ self.now
    /// in_range: IsPosition self.now
    /// ```
    #[inline(always)]
    pub fn place(&self) -> Poly61Place {
        Poly61Place {
            key: self.key,
            state: reduced(self.state),
            word: self.word,
            count: u64::from(self.count),
        }
    }

    // One byte in.
    /// Proved:
    ///
    /// ```text
    /// self.new ≡ byte_in self.old byte
    /// ```
    #[inline(always)]
    fn byte_in(&mut self, byte: u8) {
        let word = self.word + placed(u64::from(byte), self.count);
        if self.count < 6 {
            self.word = word;
            self.count += 1;
        } else {
            self.state = step(self.key, self.state, word);
            self.word = 0;
            self.count = 0;
        }
    }

    // A number of up to eight bytes in, the lowest first.
    /// The caller has to see to it that:
    ///
    /// ```text
    /// short: count ≤ 8
    /// within: number < 2 ^ (8 * count)
    /// ```
    ///
    /// Proved:
    ///
    /// ```text
    /// self.new ≡ after self.old (le_bytes count number)
    /// ```
    #[inline(always)]
    fn number_in(&mut self, number: u64, count: u32) {
        let (first, rest) = joined(self.word, self.count, number);
        let all = self.count + count;
        if all < 7 {
            self.word = first;
            self.count = all;
        } else if all < 14 {
            self.state = step(self.key, self.state, first);
            self.word = rest;
            self.count = all - 7;
        } else {
            let state = step(self.key, self.state, first);
            self.state = step(self.key, state, rest);
            self.word = 0;
            self.count = 0;
        }
    }
}

impl Default for Poly61Hasher {
    /// The hasher of no bytes, at a fixed key.
    #[inline]
    fn default() -> Poly61Hasher {
        Poly61Hasher::new(DEFAULT_KEY)
    }
}

impl Hasher for Poly61Hasher {
    /// The value of the polynomial in the low 61 bits; the top three are the low three once more.
    ///
    /// Proved:
    ///
    /// ```text
    /// value: result ≡ as_word (poly_end self.now)
    /// of_text: (key : ℕ) (text : List ℕ) → self.now ≡ after (start_at key) text
    ///     → result ≡ poly61 key text
    /// in_range: IsPosition self.now
    /// ```
    #[inline(always)]
    fn finish(&self) -> u64 {
        ended(self.key, self.state, self.word, self.count)
    }

    /// Takes the bytes in.
    ///
    /// Proved:
    ///
    /// ```text
    /// written: self.new ≡ after self.old bytes.now
    /// in_range_before: IsPosition self.old
    /// in_range_after: IsPosition self.new
    /// ```
    #[inline]
    fn write(&mut self, bytes: &[u8]) {
        let _key = &self.key;
        let mut rest = bytes;
        while self.count > 0 {
            match rest.split_first() {
                None => return,
                Some((byte, more)) => {
                    self.byte_in(*byte);
                    rest = more;
                }
            }
        }
        let (state, last) = full_words(self.key, self.state, rest);
        self.state = state;
        self.word = few(last);
        self.count = last.len() as u32;
    }

    /// Takes a byte in, as a string does behind its own.
    #[inline(always)]
    fn write_u8(&mut self, byte: u8) {
        self.byte_in(byte);
    }

    #[inline(always)]
    fn write_u32(&mut self, number: u32) {
        self.number_in(u64::from(number), 4);
    }

    #[inline(always)]
    fn write_u64(&mut self, number: u64) {
        self.number_in(number, 8);
    }

    #[inline(always)]
    fn write_u128(&mut self, number: u128) {
        self.number_in((number % (1 << 64)) as u64, 8);
        self.number_in((number >> 64) as u64, 8);
    }

    #[inline(always)]
    fn write_usize(&mut self, number: usize) {
        self.number_in(number as u64, 8);
    }
}

impl Piecewise for Poly61Hasher {
    #[inline(always)]
    fn state_in_range(&self) {
        let _key = &self.key;
    }

    #[inline(always)]
    fn whole(text: &[u8]) -> u64 {
        poly61(DEFAULT_KEY, text)
    }

    #[inline]
    fn fork(&self) -> Poly61Hasher {
        Poly61Hasher {
            key: self.key,
            state: self.state,
            word: self.word,
            count: self.count,
        }
    }
}

impl Streamed for Poly61Hasher {}

/// The hash of a text by its polynomial, at a key: what [`Poly61Hasher`] answers to the text.
///
/// Proved:
///
/// ```text
/// result ≡ poly61 (key % prime61) bytes.now
/// ```
#[inline]
pub fn poly61(key: u64, bytes: &[u8]) -> u64 {
    let key = remainder(key);
    if bytes.len() < 7 {
        return ended_at_once(key, few(bytes), bytes.len() as u32);
    }
    let (state, last) = text_words(key, bytes);
    ended(key, state, few(last), last.len() as u32)
}
