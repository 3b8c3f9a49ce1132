//! XXH3 of at most 16 bytes.

// What follows is the proved text of crates/hash_xxh3/src/short.rt without its contracts.

use crate::hash_xxh3::secret::{secret_half, secret_word};
use crate::hash_xxh3::words::{avalanche, avalanche_64, folded_product, half_at, length_mix, word_at};

/// Two words of the secret, one folded onto the other.
///
/// The caller has to see to it that:
///
/// ```text
/// at + 16 ≤ 192
/// ```
///
/// Proved:
///
/// ```text
/// result ≡ secret_pair at
/// ```
#[inline(always)]
pub fn secret_pair(at: usize) -> u64 {
    secret_word(at) ^ secret_word(at + 8)
}

/// Proved:
///
/// ```text
/// result ≡ of_none seed
/// ```
#[inline(always)]
fn of_none(seed: u64) -> u64 {
    avalanche_64(seed ^ secret_pair(56))
}

/// The first byte, the middle and the last, and the length, as four bytes of one number.
///
/// The caller has to see to it that:
///
/// ```text
/// some: 1 ≤ length text.now
/// few: length text.now < 4
/// ```
///
/// Proved:
///
/// ```text
/// value: result ≡ few_number text.now
/// small: result < 2 ^ 32
/// ```
#[inline(always)]
pub(crate) fn few_number(text: &[u8]) -> u64 {
    let len = text.len();
    u64::from(text[len - 1])
        + len as u64 * 256
        + u64::from(text[0]) * 65536
        + u64::from(text[len / 2]) * 16777216
}

/// Proved:
///
/// ```text
/// result ≡ few_flip seed
/// ```
#[inline(always)]
fn few_flip(seed: u64) -> u64 {
    u64::from(secret_half(0) ^ secret_half(4)).wrapping_add(seed)
}

/// XXH3 of one to three bytes.
///
/// The caller has to see to it that:
///
/// ```text
/// some: 1 ≤ length text.now
/// few: length text.now < 4
/// ```
///
/// Proved:
///
/// ```text
/// result ≡ of_few seed text.now
/// ```
#[inline(always)]
pub(crate) fn of_few(seed: u64, text: &[u8]) -> u64 {
    avalanche_64(few_number(text) ^ few_flip(seed))
}

// The first four bytes and the last four, as one number.
/// The caller has to see to it that:
///
/// ```text
/// 4 ≤ length text.now
/// ```
///
/// Proved:
///
/// ```text
/// result ≡ eight_number text.now
/// ```
#[inline(always)]
fn eight_number(text: &[u8]) -> u64 {
    u64::from(half_at(text, text.len() - 4)) + u64::from(half_at(text, 0)) * 4294967296
}

/// A seed with its low half, bytes in the other order, folded onto the high one.
///
/// Proved:
///
/// ```text
/// result ≡ eight_seed seed
/// ```
#[inline(always)]
pub(crate) fn eight_seed(seed: u64) -> u64 {
    let low = (seed % 4294967296) as u32;
    seed ^ (u64::from(low.swap_bytes()) * 4294967296)
}

/// What eight bytes are folded with.
///
/// Proved:
///
/// ```text
/// result ≡ eight_flip seed
/// ```
#[inline(always)]
pub fn eight_flip(seed: u64) -> u64 {
    secret_pair(8).wrapping_sub(eight_seed(seed))
}

/// The caller has to see to it that:
///
/// ```text
/// some: 4 ≤ length text.now
/// few: length text.now < 9
/// ```
///
/// Proved:
///
/// ```text
/// result ≡ of_eight seed text.now
/// ```
#[inline(always)]
fn of_eight(seed: u64, text: &[u8]) -> u64 {
    length_mix(text.len() as u64, eight_number(text) ^ eight_flip(seed))
}

/// The caller has to see to it that:
///
/// ```text
/// some: 8 ≤ length text.now
/// few: length text.now < 17
/// ```
///
/// Proved:
///
/// ```text
/// result ≡ of_sixteen seed text.now
/// ```
#[inline(always)]
fn of_sixteen(seed: u64, text: &[u8]) -> u64 {
    let len = text.len();
    let low = word_at(text, 0) ^ secret_pair(24).wrapping_add(seed);
    let high = word_at(text, len - 8) ^ secret_pair(40).wrapping_sub(seed);
    let sum = (len as u64)
        .wrapping_add(low.swap_bytes())
        .wrapping_add(high);
    avalanche(sum.wrapping_add(folded_product(low, high)))
}

/// XXH3 of at most 16 bytes.
///
/// The caller has to see to it that:
///
/// ```text
/// length text.now < 17
/// ```
///
/// Proved:
///
/// ```text
/// result ≡ xxh3_short seed text.now
/// ```
#[inline(always)]
pub(crate) fn of_short(seed: u64, text: &[u8]) -> u64 {
    if text.len() >= 9 {
        of_sixteen(seed, text)
    } else if text.len() >= 4 {
        of_eight(seed, text)
    } else if !text.is_empty() {
        of_few(seed, text)
    } else {
        of_none(seed)
    }
}
