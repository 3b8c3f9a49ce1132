//! XXH32.

// What follows is the proved text of crates/hash_blocks/src/xxhash/at_32.rt without its contracts.
use crate::hash_words;

use crate::hash_blocks::{BlockHasher, BlockRule};
use hash_words::{le_four, le_two, rotl32};

/// The first of the five primes of XXH32.
pub const Q1: u32 = 0x9E37_79B1;

/// The second.
pub const Q2: u32 = 0x85EB_CA77;

/// The third.
pub const Q3: u32 = 0xC2B2_AE3D;

/// The fourth.
pub const Q4: u32 = 0x27D4_EB2F;

/// The fifth.
pub const Q5: u32 = 0x1656_67B1;

/// What is kept of the blocks: four lanes, and whether there was a block.
#[derive(Clone, Copy)]
pub struct Lanes32 {
    pub lanes: [u32; 4],
    pub long: bool,
}

// A lane after one word.
/// Proved:
///
/// ```text
/// result ≡ round lane word
/// ```
#[inline(always)]
fn round(lane: u32, word: u32) -> u32 {
    rotl32(lane.wrapping_add(word.wrapping_mul(Q2)), 13).wrapping_mul(Q1)
}

/// The four lanes of XXH32 before the first block, from a seed.
///
/// Proved:
///
/// ```text
/// result ≡ start seed
/// ```
#[inline(always)]
pub fn start(seed: u32) -> [u32; 4] {
    [
        seed.wrapping_add(Q1).wrapping_add(Q2),
        seed.wrapping_add(Q2),
        seed,
        seed.wrapping_sub(Q1),
    ]
}

/// The four words of a block of XXH32, taken out of two of eight bytes: of four that are read alone LLVM makes a vector where the
/// processor has a product of vectors, which takes ten cycles.
///
/// Proved:
///
/// ```text
/// result ≡ words_of block.now
/// ```
#[inline(always)]
pub fn words_of(block: &[u8; 16]) -> [u32; 4] {
    let (low, high) = le_two(block);
    [
        (low % 0x1_0000_0000) as u32,
        (low / 0x1_0000_0000) as u32,
        (high % 0x1_0000_0000) as u32,
        (high / 0x1_0000_0000) as u32,
    ]
}

/// The four lanes of XXH32 after a block.
///
/// Proved:
///
/// ```text
/// result ≡ after_block lanes.now block.now
/// ```
#[inline(always)]
pub fn after_block(lanes: &[u32; 4], block: &[u8; 16]) -> [u32; 4] {
    let words = words_of(block);
    [
        round(lanes[0], words[0]),
        round(lanes[1], words[1]),
        round(lanes[2], words[2]),
        round(lanes[3], words[3]),
    ]
}

/// The four lanes of XXH32 in one word.
///
/// Proved:
///
/// ```text
/// result ≡ converged lanes.now
/// ```
#[inline(always)]
pub fn converged(lanes: &[u32; 4]) -> u32 {
    rotl32(lanes[0], 1)
        .wrapping_add(rotl32(lanes[1], 7))
        .wrapping_add(rotl32(lanes[2], 12))
        .wrapping_add(rotl32(lanes[3], 18))
}

/// The word of XXH32 after four bytes more, as one number, after the blocks.
///
/// Proved:
///
/// ```text
/// result ≡ four_in h word
/// ```
#[inline(always)]
pub fn four_in(h: u32, word: u32) -> u32 {
    rotl32(h.wrapping_add(word.wrapping_mul(Q3)), 17).wrapping_mul(Q4)
}

// One byte in.
/// Proved:
///
/// ```text
/// result ≡ byte_in h byte
/// ```
#[inline(always)]
fn byte_in(h: u32, byte: u8) -> u32 {
    rotl32(h.wrapping_add(u32::from(byte).wrapping_mul(Q5)), 11).wrapping_mul(Q1)
}

// What is left in.
/// Proved:
///
/// ```text
/// result ≡ rest_in h left.now
/// ```
#[inline(always)]
fn rest_in(h: u32, left: &[u8]) -> u32 {
    let mut mixed = h;
    let (fours, bytes) = left.as_chunks::<4>();
    for four in fours {
        mixed = four_in(mixed, le_four(four));
    }
    for byte in bytes {
        mixed = byte_in(mixed, *byte);
    }
    mixed
}

// The last mix.
/// Proved:
///
/// ```text
/// result ≡ last_mix h
/// ```
#[inline(always)]
fn last_mix(h: u32) -> u32 {
    let first = (h ^ (h >> 15)).wrapping_mul(Q2);
    let second = (first ^ (first >> 13)).wrapping_mul(Q3);
    second ^ (second >> 16)
}

/// The rule of XXH32.
pub struct Xxh32Rule;

impl BlockRule<16> for Xxh32Rule {
    type State = Lanes32;

    type Seed = u32;

    type Hash = u32;

    #[inline(always)]
    fn plain() -> u32 {
        0
    }

    #[inline(always)]
    fn start(seed: u32) -> Lanes32 {
        Lanes32 {
            lanes: start(seed),
            long: false,
        }
    }

    #[inline(always)]
    fn block(state: &mut Lanes32, bytes: &[u8; 16]) {
        *state = Lanes32 {
            lanes: after_block(&state.lanes, bytes),
            long: true,
        };
    }

    #[inline(always)]
    fn finish(state: &Lanes32, left: &[u8], total: u64) -> u32 {
        let h = if state.long {
            converged(&state.lanes)
        } else {
            state.lanes[2].wrapping_add(Q5)
        };
        last_mix(rest_in(h.wrapping_add((total % 0x1_0000_0000) as u32), left))
    }

    #[inline(always)]
    fn low(hash: u32) -> u64 {
        u64::from(hash)
    }
}

/// XXH32 of a text that comes piece by piece, under a seed.
pub type Xxh32Hasher = BlockHasher<Xxh32Rule, 16>;

/// XXH32 of the bytes under a seed. Of no bytes under 0 it is 0x02cc5d05.
///
/// Proved:
///
/// ```text
/// result ≡ xxh32 seed bytes.now
/// ```
#[inline]
pub fn xxh32(seed: u32, bytes: &[u8]) -> u32 {
    Xxh32Hasher::hash_of(seed, bytes)
}
