//! The numbers that few bytes are.

// What follows is the proved text of crates/hash_map_keys/src/words.rt without its contracts.
use crate::hashers;

use hashers::rounds::{le_four, le64};

/// The number that fewer than four bytes are, the first the lowest.
///
/// The caller has to see to it that:
///
/// ```text
/// length bytes.now < 4
/// ```
///
/// Proved:
///
/// ```text
/// value: result ≡ le bytes.now
/// small: result < 2 ^ (8 * length bytes.now)
/// ```
#[inline(always)]
fn few_of(bytes: &[u8]) -> u64 {
    match bytes {
        [] => 0,
        [a] => u64::from(*a),
        [a, b] => u64::from(u16::from_le_bytes([*a, *b])),
        [a, b, c, ..] => u64::from(u32::from_le_bytes([*a, *b, *c, 0])),
    }
}

/// The number that at most eight bytes are: the first four, and what the last four have after them.
///
/// The caller has to see to it that:
///
/// ```text
/// length bytes.now ≤ 8
/// ```
///
/// Proved:
///
/// ```text
/// value: result ≡ le bytes.now
/// small: result < 2 ^ (8 * length bytes.now)
/// ```
#[inline(always)]
pub(crate) fn number_of(bytes: &[u8]) -> u64 {
    match (bytes.first_chunk::<4>(), bytes.last_chunk::<4>()) {
        (Some(first), Some(last)) => {
            let behind = u64::from(le_four(last)) >> (64 - 8 * bytes.len() as u32);
            u64::from(le_four(first)) + (behind << 32)
        }
        _ => few_of(bytes),
    }
}

/// The number that the last bytes are, so many of eight or more.
///
/// The caller has to see to it that:
///
/// ```text
/// long: 8 ≤ length bytes.now
/// some: 1 ≤ count
/// few: count ≤ 8
/// ```
///
/// Proved:
///
/// ```text
/// result ≡ le (drop (length bytes.now - count) bytes.now)
/// ```
#[inline(always)]
pub(crate) fn number_of_last(bytes: &[u8], count: usize) -> u64 {
    match bytes.last_chunk::<8>() {
        None => 0,
        Some(last) => le64(last) >> (64 - 8 * count as u32),
    }
}
