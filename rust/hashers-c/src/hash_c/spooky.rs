//! SpookyHash: under two seeds, of both words, and of a text that comes in parts. Its state is a struct that the caller keeps.

// What follows is the proved text of crates/hash_c/src/spooky.rt without its contracts.
use crate::std;
use hashers_proved::{hash_jenkins, hashers};

use hash_jenkins::spooky_parts::SpookyParts;
use hashers::jenkins::spooky_hash::SpookyHasher;
use std::hash::Hasher;

/// The mark of a state that `hashers_spooky_begin` made: bytes that hardly lie in memory by chance.
const MARK: u64 = 0x5b39_d3a6_8cf0_714e;

// What hashers.h reserves for a state.
const _: () = prove!(size_of::<SpookyState>() == 312);

/// Two words of a hash.
#[repr(C)]
pub struct Words {
    pub first: u64,
    pub second: u64,
}

/// The words as C takes them.
///
/// Proved:
///
/// ```text
/// first: result.first ≡ hash.0
/// second: result.second ≡ hash.1
/// ```
#[inline]
pub(crate) fn two_words(hash: (u64, u64)) -> Words {
    let (first, second) = hash;
    Words { first, second }
}

/// Where SpookyHash stands in a text: a mark, without which nothing is done, and what a hasher keeps. The fields are whole numbers
/// alone, so that any bytes are a state.
#[repr(C)]
#[derive(Clone, Copy)]
pub struct SpookyState {
    pub mark: u64,
    pub parts: SpookyParts,
}

/// Whether the state has the mark, and keeps no more than fits.
///
/// Proved:
///
/// ```text
/// IsTrue result ↔ IsUsable state.now
/// ```
#[inline(always)]
fn is_usable(state: &SpookyState) -> bool {
    state.mark == MARK && state.parts.fits_buffer()
}

/// SpookyHash of the text under two seeds: both words.
///
/// Proved:
///
/// ```text
/// (result.first, result.second) ≡ spooky seed1 seed2 text.now
/// ```
#[inline]
pub fn hashers_spooky128(text: &[u8], seed1: u64, seed2: u64) -> Words {
    let mut hasher = SpookyHasher::new(seed1, seed2);
    hasher.write(text);
    two_words(hasher.finish128())
}

/// The same by version 1.
///
/// Proved:
///
/// ```text
/// (result.first, result.second) ≡ spooky_v1 seed1 seed2 text.now
/// ```
#[inline]
pub fn hashers_spooky128_v1(text: &[u8], seed1: u64, seed2: u64) -> Words {
    let mut hasher = SpookyHasher::new(seed1, seed2);
    hasher.write(text);
    two_words(hasher.finish128_v1())
}

/// The state of no bytes, under two seeds.
///
/// Proved:
///
/// ```text
/// IsStateOf result seed1 seed2 []
/// ```
#[inline]
pub fn hashers_spooky_begin(seed1: u64, seed2: u64) -> SpookyState {
    SpookyState {
        mark: MARK,
        parts: SpookyParts::new(seed1, seed2),
    }
}

/// Goes on over the bytes. Of what `hashers_spooky_begin` did not make nothing changes, where it has no mark or keeps too much.
///
/// Proved:
///
/// ```text
/// of_text: (seed1 seed2 : ℕ) (text : List ℕ) → IsStateOf state.old seed1 seed2 text
///     → IsStateOf state.new seed1 seed2 (text ++ bytes.now)
/// unusable: ¬ IsUsable state.old → state.new ≡ state.old
/// ```
#[inline]
pub fn hashers_spooky_write(state: &mut SpookyState, bytes: &[u8]) {
    if is_usable(state) {
        state.parts.write(bytes);
    }
}

/// The hash of the bytes so far, both words. More may be written afterwards. Without the mark both are 0.
///
/// Proved:
///
/// ```text
/// of_text: (seed1 seed2 : ℕ) (text : List ℕ) → IsStateOf state.now seed1 seed2 text
///     → (result.first, result.second) ≡ spooky seed1 seed2 text
/// unusable: ¬ IsUsable state.now → AreZeros result
/// ```
#[inline]
pub fn hashers_spooky_finish(state: &SpookyState) -> Words {
    if is_usable(state) {
        two_words(state.parts.finish128())
    } else {
        two_words((0, 0))
    }
}

/// The same by version 1.
///
/// Proved:
///
/// ```text
/// of_text: (seed1 seed2 : ℕ) (text : List ℕ) → IsStateOf state.now seed1 seed2 text
///     → (result.first, result.second) ≡ spooky_v1 seed1 seed2 text
/// unusable: ¬ IsUsable state.now → AreZeros result
/// ```
#[inline]
pub fn hashers_spooky_finish_v1(state: &SpookyState) -> Words {
    if is_usable(state) {
        two_words(state.parts.finish128_v1())
    } else {
        two_words((0, 0))
    }
}
