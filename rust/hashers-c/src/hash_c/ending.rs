//! The ending that makes the hash of a text the one that is wanted.

// What follows is the proved text of crates/hash_c/src/ending.rt without its contracts.
use hashers_proved::hash_more;

use hash_more::crc32;

/// The one ending of four bytes behind a text with this CRC-32 that makes the CRC-32 of the whole the answer, as a
/// number: its lowest byte comes first. Of both numbers the low 32 bits count.
///
/// Proved:
///
/// ```text
/// leads: (text : List ℕ) → hash % 2 ^ 32 ≡ crc32_of text
///     → crc32_of (text ++ to_le_bytes w32 result) ≡ answer % 2 ^ 32
/// alone: (text ending : List ℕ) → IsText text → IsText ending → length ending ≡ 4
///     → hash % 2 ^ 32 ≡ crc32_of text → crc32_of (text ++ ending) ≡ answer % 2 ^ 32
///     → ending ≡ to_le_bytes w32 result
/// ```
#[inline]
pub fn hashers_crc32_ending(hash: u64, answer: u64) -> u32 {
    u32::from_le_bytes(crc32::crc32_ending(hash, answer))
}
