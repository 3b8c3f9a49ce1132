//! The words that lead XXH32 to a hash.

// What follows is the proved text of crates/hash_theorems/src/blocks/xxh32.rt without its contracts.
use crate::{hash_blocks, hash_words};

use hash_blocks::xxhash::at_32::{Q2, Q3, Q5, after_block, converged, four_in, start, words_of};
use hash_words::{le_four, rotl32};

// What undoes a product by a prime.
const UN_Q1: u32 = 0x0e8b_2f51;

const UN_Q2: u32 = 0xb6c9_2f47;

const UN_Q3: u32 = 0xa89e_d915;

const UN_Q4: u32 = 0xa0fe_3bcf;

// The sum that a rotation and a product by a prime made this of.
/// The caller has to see to it that:
///
/// ```text
/// some: 0 < turn
/// within: turn < 32
/// ```
///
/// Proved:
///
/// ```text
/// result ≡ unturned turn inverse h
/// ```
#[inline(always)]
fn unturned(turn: u32, inverse: u32, h: u32) -> u32 {
    rotl32(h.wrapping_mul(inverse), turn)
}

// The word before some bytes, one at a time.
/// Proved:
///
/// ```text
/// result ≡ fold byte_out h (reverse bytes.now)
/// ```
#[inline]
fn bytes_out(h: u32, bytes: &[u8]) -> u32 {
    let mut before = h;
    for byte in bytes.iter().rev() {
        before = unturned(21, UN_Q1, before).wrapping_sub(u32::from(*byte).wrapping_mul(Q5));
    }
    before
}

// The word before the whole fours of a text.
/// Proved:
///
/// ```text
/// result ≡ blocks_before 4 (λ h block. four_out h (le block)) h text.now
/// ```
#[inline]
fn fours_out(h: u32, text: &[u8]) -> u32 {
    let (fours, _) = text.as_chunks::<4>();
    let mut before = h;
    for four in fours.iter().rev() {
        before = unturned(15, UN_Q4, before).wrapping_sub(le_four(four).wrapping_mul(Q3));
    }
    before
}

// The word before what is left behind the blocks.
/// Proved:
///
/// ```text
/// result ≡ rest_out h left.now
/// ```
#[inline]
fn rest_out(h: u32, left: &[u8]) -> u32 {
    let (_, bytes) = left.as_chunks::<4>();
    fours_out(bytes_out(h, bytes), left)
}

// The word before the last mix.
/// Proved:
///
/// ```text
/// result ≡ last_unmix h
/// ```
#[inline]
fn last_unmix(h: u32) -> u32 {
    let second = (h ^ (h >> 16)).wrapping_mul(UN_Q3);
    let once = second ^ (second >> 13);
    let first = (once ^ (once >> 26)).wrapping_mul(UN_Q2);
    let twice = first ^ (first >> 15);
    twice ^ (twice >> 30)
}

// The word after the whole fours of a text.
/// Proved:
///
/// ```text
/// result ≡ fours_in h text.now
/// ```
#[inline]
fn fours_in(h: u32, text: &[u8]) -> u32 {
    let (fours, _) = text.as_chunks::<4>();
    let mut mixed = h;
    for four in fours {
        mixed = four_in(mixed, le_four(four));
    }
    mixed
}

// The lanes after the whole blocks of a text.
/// Proved:
///
/// ```text
/// result ≡ blocks 16 after_block lanes.now text.now
/// ```
#[inline]
fn lanes_after(lanes: &[u32; 4], text: &[u8]) -> [u32; 4] {
    let (whole, _) = text.as_chunks::<16>();
    let mut after = *lanes;
    for block in whole {
        after = after_block(&after, block);
    }
    after
}

// A lane before one word.
/// Proved:
///
/// ```text
/// result ≡ lane_out lane word
/// ```
#[inline(always)]
fn lane_out(lane: u32, word: u32) -> u32 {
    unturned(19, UN_Q1, lane).wrapping_sub(word.wrapping_mul(Q2))
}

// The lanes before a block.
/// Proved:
///
/// ```text
/// result ≡ before_block lanes.now block.now
/// ```
#[inline]
fn before_block(lanes: &[u32; 4], block: &[u8; 16]) -> [u32; 4] {
    let words = words_of(block);
    [
        lane_out(lanes[0], words[0]),
        lane_out(lanes[1], words[1]),
        lane_out(lanes[2], words[2]),
        lane_out(lanes[3], words[3]),
    ]
}

/// Takes a block of XXH32 out of its four lanes again, whether or not it was taken in: the inverse of that, both ways.
///
/// Proved:
///
/// ```text
/// back: after_block result block.now ≡ lanes.now
/// undone: (s : List ℕ) → AreNWords 32 4 s → after_block s block.now ≡ lanes.now → result ≡ s
/// ```
#[inline]
pub fn xxh32_block_out(lanes: &[u32; 4], block: &[u8; 16]) -> [u32; 4] {
    before_block(lanes, block)
}

// The lane of a place before the whole blocks of a text.
/// The caller has to see to it that:
///
/// ```text
/// place < 4
/// ```
///
/// Proved:
///
/// ```text
/// result ≡ lane_back place lane text.now
/// ```
#[inline]
fn lane_back(place: usize, lane: u32, text: &[u8]) -> u32 {
    let (whole, _) = text.as_chunks::<16>();
    let mut before = lane;
    for block in whole.iter().rev() {
        before = lane_out(before, words_of(block)[place]);
    }
    before
}

// How far the lane of a place is turned before the lanes are added.
/// The caller has to see to it that:
///
/// ```text
/// place < 4
/// ```
///
/// Proved:
///
/// ```text
/// value: result ≡ turn_of place
/// some: 0 < result
/// within: result < 32
/// ```
#[inline(always)]
fn turn_of(place: usize) -> u32 {
    match place {
        0 => 1,
        1 => 7,
        2 => 12,
        _ => 18,
    }
}

// The lane that makes a wanted sum in the place of another, which with the same other lanes makes a sum.
/// The caller has to see to it that:
///
/// ```text
/// place < 4
/// ```
///
/// Proved:
///
/// ```text
/// result ≡ lane_for place wanted sum lane
/// ```
#[inline]
fn lane_for(place: usize, wanted: u32, sum: u32, lane: u32) -> u32 {
    let turn = turn_of(place);
    let turned = wanted.wrapping_sub(sum).wrapping_add(rotl32(lane, turn));
    rotl32(turned, 32 - turn)
}

// The word that leads from one to another behind the blocks.
/// Proved:
///
/// ```text
/// result ≡ four_between from to
/// ```
#[inline]
fn four_between(from: u32, to: u32) -> u32 {
    unturned(15, UN_Q4, to)
        .wrapping_sub(from)
        .wrapping_mul(UN_Q3)
}

// The word that leads from one lane to another.
/// Proved:
///
/// ```text
/// result ≡ word_between from to
/// ```
#[inline]
fn word_between(from: u32, to: u32) -> u32 {
    unturned(19, UN_Q1, to)
        .wrapping_sub(from)
        .wrapping_mul(UN_Q2)
}

// The word before what is left behind the blocks, under a seed, from the length of a text and what its whole blocks are in.
/// Proved:
///
/// ```text
/// result ≡ begun seed front.now total
/// ```
#[inline]
fn begun(seed: u32, front: &[u8], total: u64) -> u32 {
    if total < 16 {
        seed.wrapping_add(Q5)
    } else {
        converged(&lanes_after(&start(seed), front))
    }
}

// The word behind the whole blocks of 16, between a front and a back, that leads to a hash.
/// The caller has to see to it that:
///
/// ```text
/// place: length front.now % 4 ≡ 0
/// behind: length front.now % 16 + 4 + length back.now < 16
/// ```
///
/// Proved:
///
/// ```text
/// leads: xxh32 seed (front.now ++ (result ++ back.now)) ≡ hash
/// alone: (word : List ℕ) → IsText word → length word ≡ 4
///     → xxh32 seed (front.now ++ (word ++ back.now)) ≡ hash → word ≡ result
/// ```
#[inline]
fn word_behind(seed: u32, front: &[u8], back: &[u8], hash: u32) -> [u8; 4] {
    let (_, ahead) = front.as_chunks::<16>();
    let total = front.len() as u64 + 4 + back.len() as u64;
    let low = (total % 0x1_0000_0000) as u32;
    let from = fours_in(begun(seed, front, total).wrapping_add(low), ahead);
    four_between(from, rest_out(last_unmix(hash), back)).to_le_bytes()
}

// The block in which a word lies, with some word in its place.
/// The caller has to see to it that:
///
/// ```text
/// length ahead.now + 4 + length near.now ≡ 16
/// ```
///
/// Proved:
///
/// ```text
/// (word : List ℕ) × (length word ≡ 4) × (result ≡ ahead.now ++ (word ++ near.now))
/// ```
#[inline]
fn block_around(ahead: &[u8], near: &[u8]) -> [u8; 16] {
    let mut block = [0; 16];
    block[..ahead.len()].copy_from_slice(ahead);
    block[ahead.len() + 4..].copy_from_slice(near);
    block
}

// The word in a block of 16, between a front and a back, that leads to a hash.
/// The caller has to see to it that:
///
/// ```text
/// place: length front.now % 4 ≡ 0
/// inside: 16 ≤ length front.now % 16 + 4 + length back.now
/// ```
///
/// Proved:
///
/// ```text
/// leads: xxh32 seed (front.now ++ (result ++ back.now)) ≡ hash
/// alone: (word : List ℕ) → IsText word → length word ≡ 4
///     → xxh32 seed (front.now ++ (word ++ back.now)) ≡ hash → word ≡ result
/// ```
#[inline]
fn word_inside(seed: u32, front: &[u8], back: &[u8], hash: u32) -> [u8; 4] {
    let (_, ahead) = front.as_chunks::<16>();
    let (near, later) = back.split_at(12 - ahead.len());
    let place = ahead.len() / 4;
    let before = lanes_after(&start(seed), front);
    let spare = lanes_after(&after_block(&before, &block_around(ahead, near)), later);
    let (_, left) = later.as_chunks::<16>();
    let total = front.len() as u64 + 4 + back.len() as u64;
    let low = (total % 0x1_0000_0000) as u32;
    let wanted = rest_out(last_unmix(hash), left).wrapping_sub(low);
    let lane = lane_for(place, wanted, converged(&spare), spare[place]);
    word_between(before[place], lane_back(place, lane, later)).to_le_bytes()
}

/// The one word of four bytes between a front, whose length 4 divides, and a back that leads XXH32 to a hash, under a seed.
///
/// The caller has to see to it that:
///
/// ```text
/// length front.now % 4 ≡ 0
/// ```
///
/// Proved:
///
/// ```text
/// leads: xxh32 seed (front.now ++ (result ++ back.now)) ≡ hash
/// alone: (word : List ℕ) → IsText word → length word ≡ 4
///     → xxh32 seed (front.now ++ (word ++ back.now)) ≡ hash → word ≡ result
/// ```
#[inline]
pub fn word_for_xxh32(seed: u32, front: &[u8], back: &[u8], hash: u32) -> [u8; 4] {
    let ahead = front.len() % 16;
    if back.len() < 12 - ahead {
        word_behind(seed, front, back, hash)
    } else {
        word_inside(seed, front, back, hash)
    }
}
