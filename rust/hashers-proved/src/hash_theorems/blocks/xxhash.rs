//! Laws of XXH32 and XXH64 alone.

// What follows is the proved text of crates/hash_theorems/src/blocks/xxhash.rt without its contracts.
use crate::{hash_blocks, hash_laws, hash_words};

use hash_blocks::xxhash::at_64::{
    P1, P2, P3, P4, P5, after_block, converged, eight_in, round, start,
};
use hash_laws::windows::window::{differ_in_one_block, first_difference};
use hash_words::{le_four, le_words, le64, rotl64, xorshift};

// What undoes a product by a prime.
const UN_P1: u64 = 0x0887_4934_32ba_db37;

const UN_P2: u64 = 0x0ba7_9078_168d_4baf;

const UN_P3: u64 = 0xe9e9_f4c4_1d6d_f849;

// A rotation, a product and a sum taken back.
/// The caller has to see to it that:
///
/// ```text
/// some: 0 < turn
/// within: turn < 64
/// ```
///
/// Proved:
///
/// ```text
/// result ≡ unspun turn inverse sum h
/// ```
#[inline(always)]
fn unspun(turn: u32, inverse: u64, sum: u64, h: u64) -> u64 {
    rotl64(h.wrapping_sub(sum).wrapping_mul(inverse), turn)
}

// The eight bytes that lead from one word to another.
/// Proved:
///
/// ```text
/// result ≡ eight_between from to
/// ```
#[inline]
fn eight_between(from: u64, to: u64) -> [u8; 8] {
    let x = from ^ unspun(37, UN_P1, P4, to);
    rotl64(x.wrapping_mul(UN_P1), 33)
        .wrapping_mul(UN_P2)
        .to_le_bytes()
}

// The word before some bytes, one at a time.
/// Proved:
///
/// ```text
/// result ≡ fold byte_out h (reverse bytes.now)
/// ```
#[inline]
fn bytes_out(h: u64, bytes: &[u8]) -> u64 {
    let mut before = h;
    for byte in bytes.iter().rev() {
        before = unspun(53, UN_P1, 0, before) ^ u64::from(*byte).wrapping_mul(P5);
    }
    before
}

// The word before the whole fours of a text.
/// Proved:
///
/// ```text
/// result ≡ blocks_before 4 (λ h block. four_out h (le block)) h text.now
/// ```
#[inline]
fn fours_out(h: u64, text: &[u8]) -> u64 {
    let (fours, _) = text.as_chunks::<4>();
    let mut before = h;
    for four in fours.iter().rev() {
        before = unspun(41, UN_P2, P3, before) ^ u64::from(le_four(four)).wrapping_mul(P1);
    }
    before
}

// The word before the whole eights of a text.
/// Proved:
///
/// ```text
/// result ≡ blocks_before 8 (λ h block. eight_out h (le block)) h text.now
/// ```
#[inline]
fn eights_out(h: u64, text: &[u8]) -> u64 {
    let (eights, _) = text.as_chunks::<8>();
    let mut before = h;
    for eight in eights.iter().rev() {
        before = unspun(37, UN_P1, P4, before) ^ round(0, le64(eight));
    }
    before
}

// The word before what is left behind the blocks.
/// Proved:
///
/// ```text
/// result ≡ rest_out h left.now
/// ```
#[inline]
fn rest_out(h: u64, left: &[u8]) -> u64 {
    let (_, behind) = left.as_chunks::<8>();
    let (_, bytes) = behind.as_chunks::<4>();
    eights_out(fours_out(bytes_out(h, bytes), behind), left)
}

// The word before the last mix.
/// Proved:
///
/// ```text
/// result ≡ last_unmix h
/// ```
#[inline]
fn last_unmix(h: u64) -> u64 {
    let second = xorshift(h, 32).wrapping_mul(UN_P3);
    let first = xorshift(xorshift(second, 29), 58).wrapping_mul(UN_P2);
    xorshift(first, 33)
}

// The lanes after the whole blocks of a text.
/// Proved:
///
/// ```text
/// result ≡ blocks 32 after_block (start seed) text.now
/// ```
#[inline]
fn lanes_of(seed: u64, text: &[u8]) -> [u64; 4] {
    let (whole, _) = text.as_chunks::<32>();
    let mut lanes = start(seed);
    for block in whole {
        lanes = after_block(&lanes, block);
    }
    lanes
}

// The word after the whole eights of what is left of a text behind its blocks.
/// Proved:
///
/// ```text
/// result ≡ eights_in h (tail 32 text.now)
/// ```
#[inline]
fn eights_in(h: u64, text: &[u8]) -> u64 {
    let (_, left) = text.as_chunks::<32>();
    let (eights, _) = left.as_chunks::<8>();
    let mut mixed = h;
    for eight in eights {
        mixed = eight_in(mixed, le64(eight));
    }
    mixed
}

// The word before what is left behind the blocks, under a seed, from the length of a text and what its whole blocks are in.
/// Proved:
///
/// ```text
/// result ≡ begun seed front.now total
/// ```
#[inline]
fn begun(seed: u64, front: &[u8], total: u64) -> u64 {
    if total < 32 {
        seed.wrapping_add(P5)
    } else {
        converged(&lanes_of(seed, front))
    }
}

/// The one word of eight bytes between a front and a back that gives XXH64 a hash, under a seed. It is a word after the whole
/// blocks of 32 bytes: 8 divides the front's length, and what is left of the front, the word and the back are shorter than a block.
///
/// The caller has to see to it that:
///
/// ```text
/// IsBehind (length front.now) (length back.now)
/// ```
///
/// Proved:
///
/// ```text
/// leads: xxh64 seed (front.now ++ (result ++ back.now)) ≡ hash
/// alone: (word : List ℕ) → IsText word → length word ≡ 8
///     → xxh64 seed (front.now ++ (word ++ back.now)) ≡ hash → word ≡ result
/// ```
#[inline]
pub fn word_for_xxh64(seed: u64, front: &[u8], back: &[u8], hash: u64) -> [u8; 8] {
    let total = front.len() as u64 + 8 + back.len() as u64;
    let from = eights_in(begun(seed, front, total).wrapping_add(total), front);
    eight_between(from, rest_out(last_unmix(hash), back))
}

// Whether the place lies in a word of eight bytes behind the whole blocks of 32.
/// The caller has to see to it that:
///
/// ```text
/// place < len
/// ```
///
/// Proved:
///
/// ```text
/// IsTrue result ↔ ((len / 32 * 32 ≤ place / 8 * 8) × (place / 8 * 8 + 8 ≤ len))
/// ```
#[inline]
fn in_last_word(len: usize, place: usize) -> bool {
    len / 32 * 32 <= place / 8 * 8 && len - place / 8 * 8 >= 8
}

/// Whether the texts have one length and differ, but only within one word of eight bytes after their whole blocks of 32, from a
/// place that 8 divides. If so, their hashes by XXH64 differ under every seed. Computes no hash.
///
/// Proved:
///
/// ```text
/// exactly: IsTrue result ↔ DifferInOneLastWord x.now y.now
/// differ: OnTrue result ((seed : ℕ) → xxh64 seed x.now ≢ xxh64 seed y.now)
/// ```
#[inline]
pub fn apart_by_word_xxh64(x: &[u8], y: &[u8]) -> bool {
    if x.len() != y.len() {
        return false;
    }
    match first_difference(x, y) {
        None => false,
        Some(from) => in_last_word(x.len(), from) && differ_in_one_block::<8>(x, y),
    }
}

/// Whether the texts have one length and differ, but only within one word of four bytes from a place that 4 divides. If so, their
/// hashes by XXH32 differ under every seed. Computes no hash.
///
/// Proved:
///
/// ```text
/// exactly: IsTrue result ↔ DifferInOneWord x.now y.now
/// differ: OnTrue result ((seed : ℕ) → seed < 2 ^ 32 → xxh32 seed x.now ≢ xxh32 seed y.now)
/// ```
#[inline]
pub fn apart_by_word_xxh32(x: &[u8], y: &[u8]) -> bool {
    if x.len() != y.len() {
        return false;
    }
    match first_difference(x, y) {
        None => false,
        Some(from) => x.len() - from / 4 * 4 >= 4 && differ_in_one_block::<4>(x, y),
    }
}

// A lane before one word.
/// Proved:
///
/// ```text
/// result ≡ lane_out x word
/// ```
#[inline(always)]
fn lane_out(x: u64, word: u64) -> u64 {
    rotl64(x.wrapping_mul(UN_P1), 33).wrapping_sub(word.wrapping_mul(P2))
}

// The lanes before a block.
/// Proved:
///
/// ```text
/// result ≡ before_block lanes.now block.now
/// ```
#[inline]
fn before_block(lanes: &[u64; 4], block: &[u8; 32]) -> [u64; 4] {
    let words: [u64; 4] = le_words(block);
    [
        lane_out(lanes[0], words[0]),
        lane_out(lanes[1], words[1]),
        lane_out(lanes[2], words[2]),
        lane_out(lanes[3], words[3]),
    ]
}

/// Takes a block of XXH64 out of its four lanes again, whether or not it was taken in: the inverse of that, both ways.
///
/// Proved:
///
/// ```text
/// back: after_block result block.now ≡ lanes.now
/// undone: (s : List ℕ) → AreFourWords s → after_block s block.now ≡ lanes.now → result ≡ s
/// ```
#[inline]
pub fn xxh64_block_out(lanes: &[u64; 4], block: &[u8; 32]) -> [u64; 4] {
    before_block(lanes, block)
}
