//! Tests on two texts that differ within a few adjacent places: where one returns true, the hashes of the texts differ.
//! None of them computes a hash.

// What follows is the proved text of crates/hashers/src/windows.rt without its contracts.
use crate::{hash_bytes, hash_laws};

use hash_bytes::oz;
use hash_laws::windows::window::is_window;

// In how many neighbouring places two texts may differ.
const DJB2_PLACES: usize = 6;

const SDBM_PLACES: usize = 3;

const FNV64_PLACES: usize = 3;

const FNV32_PLACES: usize = 2;

/// Whether the texts have one length and differ, but only within six adjacent places, and everywhere only in the low
/// five bits of a byte. Their `djb2` hashes then differ.
///
/// Proved:
///
/// ```text
/// exactly: IsTrue result ↔ DifferWithin 6 0xE0 x.now y.now
/// differ: OnTrue result (djb2_of x.now ≢ djb2_of y.now)
/// ```
#[inline]
pub fn apart_djb2(x: &[u8], y: &[u8]) -> bool {
    is_window(x, y, DJB2_PLACES, 0xE0)
}

/// Whether the texts have one length and differ, but only within three adjacent places. Their `sdbm` hashes then
/// differ.
///
/// Proved:
///
/// ```text
/// exactly: IsTrue result ↔ DifferWithin 3 0 x.now y.now
/// differ: OnTrue result (sdbm_from 0 x.now ≢ sdbm_from 0 y.now)
/// ```
#[inline]
pub fn apart_sdbm(x: &[u8], y: &[u8]) -> bool {
    is_window(x, y, SDBM_PLACES, 0)
}

/// Whether the texts have one length and differ, but only within three adjacent places. Their `fnv1a64` hashes then
/// differ.
///
/// Proved:
///
/// ```text
/// exactly: IsTrue result ↔ DifferWithin 3 0 x.now y.now
/// differ: OnTrue result (fnv1a64_of x.now ≢ fnv1a64_of y.now)
/// ```
#[inline]
pub fn apart_fnv64(x: &[u8], y: &[u8]) -> bool {
    is_window(x, y, FNV64_PLACES, 0)
}

/// Whether the texts have one length and differ, but only within two adjacent places. Their `fnv1a32` hashes then
/// differ.
///
/// Proved:
///
/// ```text
/// exactly: IsTrue result ↔ DifferWithin 2 0 x.now y.now
/// differ: OnTrue result (fnv1a32_of x.now ≢ fnv1a32_of y.now)
/// ```
#[inline]
pub fn apart_fnv32(x: &[u8], y: &[u8]) -> bool {
    is_window(x, y, FNV32_PLACES, 0)
}

/// Whether two words of a to z of one length, of at most six letters, are the same: by their `djb2` hashes alone, which
/// never collide there.
///
/// The caller has to see to it that:
///
/// ```text
/// same_length: length x.now ≡ length y.now
/// first: IsShortWord x.now
/// second: IsShortWord y.now
/// ```
///
/// Proved:
///
/// ```text
/// IsTrue result ↔ (x.now ≡ y.now)
/// ```
#[inline]
pub fn same_word(x: &[u8], y: &[u8]) -> bool {
    oz::djb2(x) == oz::djb2(y)
}
