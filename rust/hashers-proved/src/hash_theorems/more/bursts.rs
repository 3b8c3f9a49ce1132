//! Tests on two texts that differ within a few adjacent places, or bits: where one returns true, the CRCs of the texts
//! differ. None of them computes a CRC.

// What follows is the proved text of crates/hash_theorems/src/more/bursts.rt without its contracts.
use crate::hash_laws;

use hash_laws::windows::window::{first_difference, is_window};

// In how many neighbouring places two texts may differ.
const PLACES: usize = 4;

/// Whether the texts have one length and differ, but only within four adjacent places. Their `crc32` then differs.
///
/// Proved:
///
/// ```text
/// exactly: IsTrue result ↔ DifferWithin 4 0 x.now y.now
/// differ: OnTrue result (crc32_of x.now ≢ crc32_of y.now)
/// ```
#[inline]
pub fn apart_crc32(x: &[u8], y: &[u8]) -> bool {
    is_window(x, y, PLACES, 0)
}

/// Whether the texts have one length and differ, but only within four adjacent places. Their `crc32c` then differs.
///
/// Proved:
///
/// ```text
/// exactly: IsTrue result ↔ DifferWithin 4 0 x.now y.now
/// differ: OnTrue result (crc32c_of x.now ≢ crc32c_of y.now)
/// ```
#[inline]
pub fn apart_crc32c(x: &[u8], y: &[u8]) -> bool {
    is_window(x, y, PLACES, 0)
}

/// The same of two texts of one length whose first bytes differ.
///
/// The caller has to see to it that:
///
/// ```text
/// same_length: length x.now ≡ length y.now
/// some: 0 < length x.now
/// differ: slice_index x.now 0 ≢ slice_index y.now 0
/// ```
///
/// Proved:
///
/// ```text
/// IsTrue result ↔ DifferWithinBits 32 x.now y.now
/// ```
#[inline]
fn is_burst_from_the_first(x: &[u8], y: &[u8]) -> bool {
    if x.len() <= 4 {
        return true;
    }
    // a fifth byte may differ in the bits below the lowest one in which the first does
    let lowest = (x[0] ^ y[0]).trailing_zeros();
    (x[4] ^ y[4]) >> lowest == 0 && x[5..] == y[5..]
}

/// Whether the texts have one length and differ, but only within 32 adjacent bits, which may lie in five bytes. The low
/// bit of a byte comes first.
///
/// Proved:
///
/// ```text
/// IsTrue result ↔ DifferWithinBits 32 x.now y.now
/// ```
#[inline]
fn is_burst(x: &[u8], y: &[u8]) -> bool {
    if x.len() != y.len() {
        return false;
    }
    match first_difference(x, y) {
        None => false,
        Some(first) => is_burst_from_the_first(&x[first..], &y[first..]),
    }
}

/// Whether the texts have one length and differ, but only within 32 adjacent bits, which may lie in five bytes; the low
/// bit of a byte comes first. Their `crc32` then differs: it sees every burst of errors of up to 32 bits.
///
/// Proved:
///
/// ```text
/// exactly: IsTrue result ↔ DifferWithinBits 32 x.now y.now
/// differ: OnTrue result (crc32_of x.now ≢ crc32_of y.now)
/// ```
#[inline]
pub fn apart_crc32_bits(x: &[u8], y: &[u8]) -> bool {
    is_burst(x, y)
}

/// Whether the texts have one length and differ, but only within 32 adjacent bits, as [`apart_crc32_bits`] has it.
/// Their `crc32c` then differs.
///
/// Proved:
///
/// ```text
/// exactly: IsTrue result ↔ DifferWithinBits 32 x.now y.now
/// differ: OnTrue result (crc32c_of x.now ≢ crc32c_of y.now)
/// ```
#[inline]
pub fn apart_crc32c_bits(x: &[u8], y: &[u8]) -> bool {
    is_burst(x, y)
}
