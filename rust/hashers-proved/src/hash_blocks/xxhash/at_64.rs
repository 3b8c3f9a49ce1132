//! XXH64.

// What follows is the proved text of crates/hash_blocks/src/xxhash/at_64.rt without its contracts.
use crate::hash_words;

use crate::hash_blocks::{BlockHasher, BlockRule};
use hash_words::{le_four, le_two, le64, rotl64, rotl64_by, xorshift};

/// The first of the five primes of XXH64.
pub const P1: u64 = 0x9E37_79B1_85EB_CA87;

/// The second.
pub const P2: u64 = 0xC2B2_AE3D_27D4_EB4F;

/// The third.
pub const P3: u64 = 0x1656_67B1_9E37_79F9;

/// The fourth.
pub const P4: u64 = 0x85EB_CA77_C2B2_AE63;

/// The fifth.
pub const P5: u64 = 0x27D4_EB2F_1656_67C5;

/// What is kept of the blocks: four lanes, and whether there was a block.
#[derive(Clone, Copy)]
pub struct Lanes {
    pub lanes: [u64; 4],
    pub long: bool,
}

/// A lane of XXH64 after one word.
///
/// Proved:
///
/// ```text
/// result ≡ round lane word
/// ```
#[inline(always)]
pub fn round(lane: u64, word: u64) -> u64 {
    rotl64_by::<31>(lane.wrapping_add(word.wrapping_mul(P2))).wrapping_mul(P1)
}

/// The four lanes of XXH64 before the first block, from a seed.
///
/// Proved:
///
/// ```text
/// result ≡ start seed
/// ```
#[inline(always)]
pub fn start(seed: u64) -> [u64; 4] {
    [
        seed.wrapping_add(P1).wrapping_add(P2),
        seed.wrapping_add(P2),
        seed,
        seed.wrapping_sub(P1),
    ]
}

// The four words of a block, read two by two: of four that are read alone LLVM makes a vector where the processor has a product of
// vectors, which takes longer than four products.
/// Proved:
///
/// ```text
/// result ≡ le_words block.now
/// ```
#[inline(always)]
fn words_of(block: &[u8; 32]) -> [u64; 4] {
    let (halves, _) = block.as_chunks::<16>();
    let (first, second) = le_two(&halves[0]);
    let (third, fourth) = le_two(&halves[1]);
    [first, second, third, fourth]
}

/// The four lanes of XXH64 after a block.
///
/// Proved:
///
/// ```text
/// result ≡ after_block lanes.now block.now
/// ```
#[inline(always)]
pub fn after_block(lanes: &[u64; 4], block: &[u8; 32]) -> [u64; 4] {
    let words = words_of(block);
    [
        round(lanes[0], words[0]),
        round(lanes[1], words[1]),
        round(lanes[2], words[2]),
        round(lanes[3], words[3]),
    ]
}

// A word with a lane merged in.
/// Proved:
///
/// ```text
/// result ≡ merged h lane
/// ```
#[inline(always)]
fn merged(h: u64, lane: u64) -> u64 {
    (h ^ round(0, lane)).wrapping_mul(P1).wrapping_add(P4)
}

/// The four lanes of XXH64 in one word.
///
/// Proved:
///
/// ```text
/// result ≡ converged lanes.now
/// ```
#[inline(always)]
pub fn converged(lanes: &[u64; 4]) -> u64 {
    let sum = rotl64(lanes[0], 1)
        .wrapping_add(rotl64(lanes[1], 7))
        .wrapping_add(rotl64(lanes[2], 12))
        .wrapping_add(rotl64(lanes[3], 18));
    merged(
        merged(merged(merged(sum, lanes[0]), lanes[1]), lanes[2]),
        lanes[3],
    )
}

/// The word of XXH64 after eight more bytes, after the blocks.
///
/// Proved:
///
/// ```text
/// result ≡ eight_in h word
/// ```
#[inline(always)]
pub fn eight_in(h: u64, word: u64) -> u64 {
    rotl64(h ^ round(0, word), 27)
        .wrapping_mul(P1)
        .wrapping_add(P4)
}

// Four bytes in.
/// Proved:
///
/// ```text
/// result ≡ four_in h word
/// ```
#[inline(always)]
fn four_in(h: u64, word: u32) -> u64 {
    rotl64(h ^ u64::from(word).wrapping_mul(P1), 23)
        .wrapping_mul(P2)
        .wrapping_add(P3)
}

// One byte in.
/// Proved:
///
/// ```text
/// result ≡ byte_in h byte
/// ```
#[inline(always)]
fn byte_in(h: u64, byte: u8) -> u64 {
    rotl64(h ^ u64::from(byte).wrapping_mul(P5), 11).wrapping_mul(P1)
}

// What is left in.
/// Proved:
///
/// ```text
/// result ≡ rest_in h left.now
/// ```
#[inline(always)]
fn rest_in(h: u64, left: &[u8]) -> u64 {
    let mut mixed = h;
    let (eights, behind) = left.as_chunks::<8>();
    for eight in eights {
        mixed = eight_in(mixed, le64(eight));
    }
    let (fours, bytes) = behind.as_chunks::<4>();
    for four in fours {
        mixed = four_in(mixed, le_four(four));
    }
    for byte in bytes {
        mixed = byte_in(mixed, *byte);
    }
    mixed
}

// The last mix.
/// Proved:
///
/// ```text
/// result ≡ last_mix h
/// ```
#[inline(always)]
fn last_mix(h: u64) -> u64 {
    let first = xorshift(h, 33).wrapping_mul(P2);
    let second = xorshift(first, 29).wrapping_mul(P3);
    xorshift(second, 32)
}

/// The rule of XXH64.
pub struct Xxh64Rule;

impl BlockRule<32> for Xxh64Rule {
    type State = Lanes;

    type Seed = u64;

    type Hash = u64;

    #[inline(always)]
    fn plain() -> u64 {
        0
    }

    #[inline(always)]
    fn start(seed: u64) -> Lanes {
        Lanes {
            lanes: start(seed),
            long: false,
        }
    }

    #[inline(always)]
    fn block(state: &mut Lanes, bytes: &[u8; 32]) {
        *state = Lanes {
            lanes: after_block(&state.lanes, bytes),
            long: true,
        };
    }

    #[inline(always)]
    fn finish(state: &Lanes, left: &[u8], total: u64) -> u64 {
        let h = if state.long {
            converged(&state.lanes)
        } else {
            state.lanes[2].wrapping_add(P5)
        };
        last_mix(rest_in(h.wrapping_add(total), left))
    }

    #[inline(always)]
    fn low(hash: u64) -> u64 {
        hash
    }
}

/// XXH64 of a text that comes piece by piece, under a seed.
pub type Xxh64Hasher = BlockHasher<Xxh64Rule, 32>;

/// XXH64 of the bytes under a seed. Of no bytes under 0 it is 0xef46db3751d8e999.
///
/// Proved:
///
/// ```text
/// result ≡ xxh64 seed bytes.now
/// ```
#[inline]
pub fn xxh64(seed: u64, bytes: &[u8]) -> u64 {
    Xxh64Hasher::hash_of(seed, bytes)
}
