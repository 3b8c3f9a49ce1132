//! Words of a few bytes.

// What follows is the proved text of crates/hash_blocks/src/words.rt without its contracts.
use crate::hash_words;

use hash_words::{le_four, le32, le64};

/// The little-endian value of at most seven bytes, the first byte being the lowest. No bytes give 0.
///
/// The caller has to see to it that:
///
/// ```text
/// length bytes.now < 8
/// ```
///
/// Proved:
///
/// ```text
/// value: result ≡ le bytes.now
/// in_range: result < 2 ^ 56
/// ```
#[inline(always)]
pub fn le_seven(bytes: &[u8]) -> u64 {
    match bytes.split_first_chunk::<4>() {
        None => u64::from(le32(bytes)),
        Some((first, more)) => u64::from(le_four(first)) + u64::from(le32(more)) * 0x1_0000_0000,
    }
}

/// The same of at most eight bytes.
///
/// The caller has to see to it that:
///
/// ```text
/// length bytes.now ≤ 8
/// ```
///
/// Proved:
///
/// ```text
/// value: result ≡ le bytes.now
/// in_range: length bytes.now < 8 → result < 2 ^ 56
/// ```
#[inline(always)]
pub fn le_eight(bytes: &[u8]) -> u64 {
    match bytes.first_chunk::<8>() {
        Some(all) => le64(all),
        None => le_seven(bytes),
    }
}

// The first `at` of eight bytes and a text behind them, put together as one word.
/// The caller has to see to it that:
///
/// ```text
/// some: 0 < at
/// part: at < 8
/// fits: at + length text.now ≤ 8
/// ```
///
/// Proved:
///
/// ```text
/// take (at + length text.now) result ≡ take at bytes.now ++ text.now
/// ```
#[inline(always)]
fn joined(bytes: &[u8; 8], at: usize, text: &[u8]) -> [u8; 8] {
    let bits = 8 * at as u32;
    let front = (le64(bytes) << (64 - bits)) >> (64 - bits);
    front.wrapping_add(le_seven(text) << bits).to_le_bytes()
}

/// Puts a text into a buffer of eight bytes after its first `at`, as one word. What stood after the text is lost.
///
/// The caller has to see to it that:
///
/// ```text
/// eight: N ≡ 8
/// some: 0 < at
/// part: at < 8
/// fits: at + length text.now ≤ 8
/// ```
///
/// Proved:
///
/// ```text
/// placed: take (at + length text.now) buffer.new ≡ take at buffer.old ++ text.now
/// whole: length buffer.new ≡ N
/// ```
#[inline(always)]
pub(crate) fn put_behind<const N: usize>(buffer: &mut [u8; N], at: usize, text: &[u8]) {
    if let Some(word) = buffer.first_chunk_mut::<8>() {
        *word = joined(word, at, text);
    }
}

/// The same of a text alone.
///
/// The caller has to see to it that:
///
/// ```text
/// eight: N ≡ 8
/// few: length text.now < 8
/// ```
///
/// Proved:
///
/// ```text
/// placed: take (length text.now) buffer.new ≡ text.now
/// whole: length buffer.new ≡ N
/// ```
#[inline(always)]
pub(crate) fn put_front<const N: usize>(buffer: &mut [u8; N], text: &[u8]) {
    if let Some(word) = buffer.first_chunk_mut::<8>() {
        *word = le_seven(text).to_le_bytes();
    }
}
