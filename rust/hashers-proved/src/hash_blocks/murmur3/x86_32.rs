//! MurmurHash3_x86_32.

// What follows is the proved text of crates/hash_blocks/src/murmur3/x86_32.rt without its contracts.
use crate::hash_words;

use crate::hash_blocks::{BlockHasher, BlockRule};
use hash_words::{le_four, le32, rotl32, rotl32_by};

/// A word of the text, before MurmurHash3_x86_32 folds it in.
///
/// Proved:
///
/// ```text
/// result ≡ scramble word
/// ```
#[inline(always)]
pub fn scramble(word: u32) -> u32 {
    rotl32_by::<15>(word.wrapping_mul(0xcc9e2d51)).wrapping_mul(0x1b873593)
}

// What is left behind the words as one word more. Mostly nothing is.
/// The caller has to see to it that:
///
/// ```text
/// length left.now < 4
/// ```
///
/// Proved:
///
/// ```text
/// result ≡ scramble (le left.now)
/// ```
#[inline(always)]
fn scrambled_rest(left: &[u8]) -> u32 {
    match left {
        [] => 0,
        _ => scramble(le32(left)),
    }
}

// The state after one word.
/// Proved:
///
/// ```text
/// result ≡ after_word h word
/// ```
#[inline(always)]
fn after_word(h: u32, word: u32) -> u32 {
    rotl32(h ^ scramble(word), 13)
        .wrapping_mul(5)
        .wrapping_add(0xe6546b64)
}

// The last mix of the state.
/// Proved:
///
/// ```text
/// result ≡ last_mix h
/// ```
#[inline(always)]
fn last_mix(h: u32) -> u32 {
    let first = (h ^ (h >> 16)).wrapping_mul(0x85ebca6b);
    let second = (first ^ (first >> 13)).wrapping_mul(0xc2b2ae35);
    second ^ (second >> 16)
}

/// The rule of MurmurHash3_x86_32.
pub struct Murmur3Rule32;

impl BlockRule<4> for Murmur3Rule32 {
    type State = u32;

    type Seed = u32;

    type Hash = u32;

    #[inline(always)]
    fn plain() -> u32 {
        0
    }

    #[inline(always)]
    fn start(seed: u32) -> u32 {
        seed
    }

    #[inline(always)]
    fn block(state: &mut u32, bytes: &[u8; 4]) {
        *state = after_word(*state, le_four(bytes));
    }

    #[inline(always)]
    fn finish(state: &u32, left: &[u8], total: u64) -> u32 {
        last_mix(*state ^ scrambled_rest(left) ^ (total % 0x1_0000_0000) as u32)
    }

    #[inline(always)]
    fn low(hash: u32) -> u64 {
        u64::from(hash)
    }
}

/// MurmurHash3_x86_32 of a text that comes piece by piece, under a seed.
pub type Murmur3Hasher32 = BlockHasher<Murmur3Rule32, 4>;

/// MurmurHash3_x86_32 of the bytes under a seed. Of `hello` under 0 it is 0x248bfa47.
///
/// Proved:
///
/// ```text
/// result ≡ murmur3_32 seed bytes.now
/// ```
#[inline]
pub fn murmur3_32(seed: u32, bytes: &[u8]) -> u32 {
    Murmur3Hasher32::hash_of(seed, bytes)
}
