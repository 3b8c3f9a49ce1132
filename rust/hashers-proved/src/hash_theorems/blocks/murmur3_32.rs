//! MurmurHash3_x86_32 loses nothing of a block.

// What follows is the proved text of crates/hash_theorems/src/blocks/murmur3_32.rt without its contracts.
use crate::{hash_blocks, hash_words};

use crate::hash_theorems::blocks::block_undo::BlockUndo;
use hash_blocks::murmur3::Murmur3Rule32;
use hash_blocks::murmur3::x86_32::scramble;
use hash_words::{le_four, le32, rotl32};

// The word of which `scramble` makes this one.
/// Proved:
///
/// ```text
/// result ≡ unscramble word
/// ```
#[inline(always)]
fn unscramble(word: u32) -> u32 {
    rotl32(word.wrapping_mul(0x56ed309b), 17).wrapping_mul(0xdee13bb1)
}

// The sum, the product and the rotation of a state taken back.
/// Proved:
///
/// ```text
/// result ≡ turned_back h
/// ```
#[inline(always)]
fn turned_back(h: u32) -> u32 {
    rotl32(h.wrapping_sub(0xe6546b64).wrapping_mul(0xcccccccd), 19)
}

// The state of which the last mix makes this one.
/// Proved:
///
/// ```text
/// result ≡ last_unmix h
/// ```
#[inline(always)]
fn last_unmix(h: u32) -> u32 {
    let first = (h ^ (h >> 16)).wrapping_mul(0x7ed1b41d);
    let once = first ^ (first >> 13);
    let second = (once ^ (once >> 26)).wrapping_mul(0xa5cb9243);
    second ^ (second >> 16)
}

impl BlockUndo<4> for Murmur3Rule32 {
    #[inline]
    fn seed_in_range(seed: u32) {
        let _ = seed;
    }

    #[inline]
    fn answer_in_range(hash: u32) {
        let _ = hash;
    }

    #[inline(always)]
    fn unblock(state: &mut u32, bytes: &[u8; 4]) {
        *state = turned_back(*state) ^ scramble(le_four(bytes));
    }

    #[inline(always)]
    fn between(from: &u32, to: &u32) -> [u8; 4] {
        unscramble(*from ^ turned_back(*to)).to_le_bytes()
    }

    #[inline(always)]
    fn unfinish(hash: u32, left: &[u8], total: u64) -> u32 {
        last_unmix(hash) ^ (total % 0x1_0000_0000) as u32 ^ scramble(le32(left))
    }
}
