//! Texts that end in more zeros than others, under SpookyHash.

// What follows is the proved text of crates/hash_jenkins/src/zeros.rt without its contracts.

use crate::hash_jenkins::spooky_short::{LONG, zero_filled};

// Whether `y` is `x` followed by zeros.
/// The caller has to see to it that:
///
/// ```text
/// longer: length x.now ≤ length y.now
/// within: length y.now ≤ 192
/// ```
///
/// Proved:
///
/// ```text
/// IsTrue result ↔ (y.now ≡ zero_filled (length y.now) x.now)
/// ```
#[inline]
fn is_filled(x: &[u8], y: &[u8]) -> bool {
    let filled: [u8; LONG] = zero_filled(x);
    y == &filled[..y.len()]
}

/// Whether `y` is `x` followed by at least one zero byte, and has fewer than 192 bytes. If so, the four `short_words`
/// of the two texts differ under all seeds; of the two words of the hash alone nothing is said. Computes no hash.
///
/// Proved:
///
/// ```text
/// exactly: IsTrue result ↔ AddsZeros x.now y.now
/// differ: OnTrue result (HaveOtherWords x.now y.now)
/// ```
#[inline]
pub fn apart_by_zeros(x: &[u8], y: &[u8]) -> bool {
    if y.len() <= x.len() || y.len() >= LONG {
        return false;
    }
    is_filled(x, y)
}
