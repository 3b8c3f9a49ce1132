//! What is kept of whole blocks as whole numbers alone.

// What follows is the proved text of crates/hash_c/src/in_words.rt without its contracts.
use hashers_proved::hash_blocks;

use hash_blocks::BlockRule;
use hash_blocks::murmur3::{Murmur3Rule32, Murmur3Rule128};
use hash_blocks::siphash::SipRule;
use hash_blocks::xxhash::{Lanes, Lanes32, Xxh32Rule, Xxh64Rule};

/// A rule of blocks of at most 32 bytes that keeps at most four words and a flag.
pub trait InWords<const N: usize>: BlockRule<N> {
    /// What is kept, from the words and the flag.
    ///
    /// Proved:
    ///
    /// ```text
    /// result ≡ of_words words.now long
    /// ```
    fn of_words(words: &[u64; 4], long: u64) -> Self::State;

    /// Sets the words of what is kept, and returns the flag.
    ///
    /// Proved:
    ///
    /// ```text
    /// of_words words.new result ≡ state.now
    /// ```
    fn in_words(state: &Self::State, words: &mut [u64; 4]) -> u64;
}

// The low half of a word.
/// Proved:
///
/// ```text
/// result ≡ word % 2 ^ 32
/// ```
#[inline(always)]
fn low(word: u64) -> u32 {
    (word % 4294967296) as u32
}

impl InWords<16> for Xxh32Rule {
    #[inline(always)]
    fn of_words(words: &[u64; 4], long: u64) -> Lanes32 {
        let [a, b, c, d] = *words;
        Lanes32 {
            lanes: [low(a), low(b), low(c), low(d)],
            long: long != 0,
        }
    }

    #[inline(always)]
    fn in_words(state: &Lanes32, words: &mut [u64; 4]) -> u64 {
        let [a, b, c, d] = state.lanes;
        *words = [u64::from(a), u64::from(b), u64::from(c), u64::from(d)];
        u64::from(state.long)
    }
}

impl InWords<32> for Xxh64Rule {
    #[inline(always)]
    fn of_words(words: &[u64; 4], long: u64) -> Lanes {
        Lanes {
            lanes: *words,
            long: long != 0,
        }
    }

    #[inline(always)]
    fn in_words(state: &Lanes, words: &mut [u64; 4]) -> u64 {
        *words = state.lanes;
        u64::from(state.long)
    }
}

impl InWords<4> for Murmur3Rule32 {
    #[inline(always)]
    fn of_words(words: &[u64; 4], _long: u64) -> u32 {
        low(words[0])
    }

    #[inline(always)]
    fn in_words(state: &u32, words: &mut [u64; 4]) -> u64 {
        words[0] = u64::from(*state);
        0
    }
}

impl InWords<16> for Murmur3Rule128 {
    #[inline(always)]
    fn of_words(words: &[u64; 4], _long: u64) -> (u64, u64) {
        (words[0], words[1])
    }

    #[inline(always)]
    fn in_words(state: &(u64, u64), words: &mut [u64; 4]) -> u64 {
        words[0] = state.0;
        words[1] = state.1;
        0
    }
}

impl<const C: usize, const D: usize> InWords<8> for SipRule<C, D> {
    #[inline(always)]
    fn of_words(words: &[u64; 4], _long: u64) -> [u64; 4] {
        *words
    }

    #[inline(always)]
    fn in_words(state: &[u64; 4], words: &mut [u64; 4]) -> u64 {
        *words = *state;
        0
    }
}
