//! The polynomial hash at a key of the caller's: of a whole text, at two keys, of two texts joined, and of a text in parts. A key is any
//! number, of which the remainder modulo 2^61 - 1 counts.

// What follows is the proved text of crates/hash_c/src/keyed.rt without its contracts.
use crate::std;
use hashers_proved::{hash_keyed, hashers};

use crate::hash_c::spooky::{Words, two_words};
use hash_keyed::poly61::{Poly61Hasher, Poly61Place};
use hash_keyed::{pair, parts, poly61};
use hashers::laws::Piecewise;
use std::hash::Hasher;

/// The polynomial hash of the text at a key.
///
/// Proved:
///
/// ```text
/// result ≡ poly61 (key % prime61) text.now
/// ```
#[inline]
pub fn hashers_poly61(key: u64, text: &[u8]) -> u64 {
    poly61::poly61(key, text)
}

/// The same at two keys.
///
/// Proved:
///
/// ```text
/// first: result.first ≡ poly61 (key1 % prime61) text.now
/// second: result.second ≡ poly61 (key2 % prime61) text.now
/// ```
#[inline]
pub fn hashers_poly61_pair(key1: u64, key2: u64, text: &[u8]) -> Words {
    two_words(pair::poly61_pair(key1, key2, text))
}

/// The state behind a text of a multiple of seven bytes, a number below 2^61 - 1; 2^64 - 1 for a text of another length.
///
/// Proved:
///
/// ```text
/// state: length text.now % 7 ≡ 0 → result ≡ poly_state prime61 (key % prime61) text.now
/// none: length text.now % 7 ≢ 0 → result ≡ u64.MAX
/// ```
#[inline]
pub fn hashers_poly61_state(key: u64, text: &[u8]) -> u64 {
    parts::poly61_state(key, text).unwrap_or(u64::MAX)
}

/// The hash of two texts joined, from the state behind the first, and the hash and the length in bytes of the second.
///
/// Proved:
///
/// ```text
/// value: result ≡ as_word (joined_value (key % prime61) state1 hash2 n2)
/// joined: (x y : List ℕ) → length x % 7 ≡ 0 → length y ≡ n2
///     → state1 ≡ poly_state prime61 (key % prime61) x → hash2 ≡ poly61 (key % prime61) y
///     → result ≡ poly61 (key % prime61) (x ++ y)
/// ```
#[inline]
pub fn hashers_poly61_combine(key: u64, state1: u64, hash2: u64, n2: u64) -> u64 {
    parts::poly61_combine(key, state1, hash2, n2)
}

/// The place of no bytes, at a key.
///
/// Proved:
///
/// ```text
/// StandsBehind result (key % prime61) []
/// ```
#[inline]
pub fn hashers_poly61_begin(key: u64) -> Poly61Place {
    Poly61Hasher::new(key).place()
}

/// Goes on over the bytes. A place at which no hasher stands is left as it is.
///
/// Proved:
///
/// ```text
/// of_text: (key : ℕ) (text : List ℕ) → StandsBehind place.old key text
///     → StandsBehind place.new key (text ++ bytes.now)
/// unusable: ¬ IsPosition (place_of place.old) → place.new ≡ place.old
/// ```
#[inline]
pub fn hashers_poly61_write(place: &mut Poly61Place, bytes: &[u8]) {
    if let Some(mut hasher) = Poly61Hasher::at(place) {
        hasher.feed(bytes);
        *place = hasher.place();
    }
}

/// The polynomial hash of the text so far, behind which more may be written; 0 of a place at which no hasher stands.
///
/// Proved:
///
/// ```text
/// of_text: (key : ℕ) (text : List ℕ) → StandsBehind place.now key text → result ≡ poly61 key text
/// unusable: ¬ IsPosition (place_of place.now) → result ≡ 0
/// ```
#[inline]
pub fn hashers_poly61_finish(place: &Poly61Place) -> u64 {
    match Poly61Hasher::at(place) {
        Some(hasher) => hasher.finish(),
        None => 0,
    }
}
