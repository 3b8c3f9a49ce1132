//! XXH3 of a text in one call.

// What follows is the proved text of crates/hash_xxh3/src/whole.rt without its contracts.

use crate::hash_xxh3::long::of_long;
use crate::hash_xxh3::middle::{of_128, of_240};
use crate::hash_xxh3::short::of_short;

/// XXH3 of at most 240 bytes.
///
/// The caller has to see to it that:
///
/// ```text
/// length text.now < 241
/// ```
///
/// Proved:
///
/// ```text
/// result ≡ xxh3_kept seed text.now
/// ```
#[inline(always)]
pub(crate) fn of_kept(seed: u64, text: &[u8]) -> u64 {
    if text.len() < 17 {
        of_short(seed, text)
    } else if text.len() < 129 {
        of_128(seed, text)
    } else {
        of_240(seed, text)
    }
}

/// XXH3 of 64 bits of a text under a seed.
///
/// Proved:
///
/// ```text
/// result ≡ xxh3_64_of seed text.now
/// ```
#[inline(always)]
pub fn xxh3_64(seed: u64, text: &[u8]) -> u64 {
    if text.len() < 17 {
        of_short(seed, text)
    } else if text.len() < 129 {
        of_128(seed, text)
    } else if text.len() < 241 {
        of_240(seed, text)
    } else {
        of_long(seed, text)
    }
}
