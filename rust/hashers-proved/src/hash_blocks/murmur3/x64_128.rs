//! MurmurHash3_x64_128.

// What follows is the proved text of crates/hash_blocks/src/murmur3/x64_128.rt without its contracts.
use crate::hash_words;

use crate::hash_blocks::{BlockHasher, BlockRule, WideRule, le_eight};
use hash_words::{le_two, rotl64, rotl64_by, xorshift};

/// What MurmurHash3_x64_128 multiplies the first word of a block by.
pub const C1: u64 = 0x87c3_7b91_1142_53d5;

/// What it multiplies the second word by.
pub const C2: u64 = 0x4cf5_ad43_2745_937f;

/// A word of the text, before MurmurHash3_x64_128 folds it in: a product, a turn to the left, and a product.
///
/// The caller has to see to it that:
///
/// ```text
/// some: 0 < TURN
/// within: TURN < 64
/// ```
///
/// Proved:
///
/// ```text
/// result ≡ scrambled TURN first second word
/// ```
#[inline(always)]
pub fn scrambled<const TURN: u32>(first: u64, second: u64, word: u64) -> u64 {
    const { assert!(0 < TURN) };
    rotl64_by::<TURN>(word.wrapping_mul(first)).wrapping_mul(second)
}

// A word of the state turned, the other added, and a constant added to five times that.
/// The caller has to see to it that:
///
/// ```text
/// some: 0 < turn
/// within: turn < 64
/// ```
///
/// Proved:
///
/// ```text
/// result ≡ turned turn constant h other
/// ```
#[inline(always)]
fn turned(turn: u32, constant: u64, h: u64, other: u64) -> u64 {
    rotl64(h, turn)
        .wrapping_add(other)
        .wrapping_mul(5)
        .wrapping_add(constant)
}

// The state after a block of two words.
/// Proved:
///
/// ```text
/// result ≡ after_words h k1 k2
/// ```
#[inline(always)]
fn after_words(h: (u64, u64), k1: u64, k2: u64) -> (u64, u64) {
    let new1 = turned(27, 0x52dc_e729, h.0 ^ scrambled::<31>(C1, C2, k1), h.1);
    let new2 = turned(31, 0x3849_5ab5, h.1 ^ scrambled::<33>(C2, C1, k2), new1);
    (new1, new2)
}

// The last mix of a word.
/// Proved:
///
/// ```text
/// result ≡ last_mix h
/// ```
#[inline(always)]
fn last_mix(h: u64) -> u64 {
    let first = xorshift(h, 33).wrapping_mul(0xff51_afd7_ed55_8ccd);
    let second = xorshift(first, 33).wrapping_mul(0xc4ce_b9fe_1a85_ec53);
    xorshift(second, 33)
}

// Each word is added to the other.
/// Proved:
///
/// ```text
/// result ≡ crossed h
/// ```
#[inline(always)]
fn crossed(h: (u64, u64)) -> (u64, u64) {
    let new1 = h.0.wrapping_add(h.1);
    (new1, h.1.wrapping_add(new1))
}

/// The two words of what is left after the blocks, with zeros for what lacks.
///
/// The caller has to see to it that:
///
/// ```text
/// length left.now < 16
/// ```
///
/// Proved:
///
/// ```text
/// first: result.0 ≡ le (take 8 left.now)
/// second: result.1 ≡ le (drop 8 left.now)
/// ```
#[inline(always)]
pub fn words_left(left: &[u8]) -> (u64, u64) {
    let (first, second) = left.split_at(left.len().min(8));
    (le_eight(first), le_eight(second))
}

// What is left behind the blocks as two words more. Mostly nothing is.
/// The caller has to see to it that:
///
/// ```text
/// length left.now < 16
/// ```
///
/// Proved:
///
/// ```text
/// first: result.0 ≡ scramble1 (le (take 8 left.now))
/// second: result.1 ≡ scramble2 (le (drop 8 left.now))
/// ```
#[inline(always)]
fn scrambled_rest(left: &[u8]) -> (u64, u64) {
    match left {
        [] => (0, 0),
        _ => {
            let (k1, k2) = words_left(left);
            (scrambled::<31>(C1, C2, k1), scrambled::<33>(C2, C1, k2))
        }
    }
}

// The two words before the last mix.
/// The caller has to see to it that:
///
/// ```text
/// length left.now < 16
/// ```
///
/// Proved:
///
/// ```text
/// result ≡ folded h left.now total
/// ```
#[inline(always)]
fn folded(h: (u64, u64), left: &[u8], total: u64) -> (u64, u64) {
    let rest = scrambled_rest(left);
    (h.0 ^ rest.0 ^ total, h.1 ^ rest.1 ^ total)
}

/// The rule of MurmurHash3_x64_128.
pub struct Murmur3Rule128;

impl BlockRule<16> for Murmur3Rule128 {
    type State = (u64, u64);

    type Seed = u64;

    type Hash = (u64, u64);

    #[inline(always)]
    fn plain() -> u64 {
        0
    }

    #[inline(always)]
    fn start(seed: u64) -> (u64, u64) {
        (seed, seed)
    }

    #[inline(always)]
    fn block(state: &mut (u64, u64), bytes: &[u8; 16]) {
        let (k1, k2) = le_two(bytes);
        *state = after_words(*state, k1, k2);
    }

    #[inline(always)]
    fn finish(state: &(u64, u64), left: &[u8], total: u64) -> (u64, u64) {
        let sums = crossed(folded(*state, left, total));
        crossed((last_mix(sums.0), last_mix(sums.1)))
    }

    #[inline(always)]
    fn low(hash: (u64, u64)) -> u64 {
        hash.0
    }
}

impl WideRule<16> for Murmur3Rule128 {
    #[inline(always)]
    fn words(hash: (u64, u64)) -> (u64, u64) {
        hash
    }
}

/// MurmurHash3_x64_128 of a text that comes piece by piece, under a seed. std's `finish` returns the first of the two words, and
/// `finish128` both.
pub type Murmur3Hasher128 = BlockHasher<Murmur3Rule128, 16>;

/// MurmurHash3_x64_128 of the bytes under a seed, as two words. Of `hello` under 0 they are 0xcbd8a7b341bd9b02 and
/// 0x5b1e906a48ae1d19.
///
/// Proved:
///
/// ```text
/// result ≡ murmur3_128 seed bytes.now
/// ```
#[inline]
pub fn murmur3_128(seed: u64, bytes: &[u8]) -> (u64, u64) {
    Murmur3Hasher128::hash_of(seed, bytes)
}
