//! Tests on two texts that differ within a few adjacent places, or bits: where one returns true, the hashes of the texts
//! differ. None of them computes a hash.

// What follows is the proved text of crates/hash_theorems/src/more/windows.rt without its contracts.
use crate::hash_laws;

pub use crate::hash_theorems::more::bursts::{apart_crc32, apart_crc32_bits, apart_crc32c, apart_crc32c_bits};
use hash_laws::windows::window::is_window;

// In how many neighbouring places two texts may differ.
const DJB2_ADD_PLACES: usize = 6;

const FNV1_64_PLACES: usize = 3;

const FNV1_32_PLACES: usize = 2;

/// Whether the texts have one length and differ, but only within six adjacent places, and everywhere only in the low
/// five bits of a byte. Their `djb2_add` hashes then differ.
///
/// Proved:
///
/// ```text
/// exactly: IsTrue result ↔ DifferWithin 6 0xE0 x.now y.now
/// differ: OnTrue result (djb2_add_from 5381 x.now ≢ djb2_add_from 5381 y.now)
/// ```
#[inline]
pub fn apart_djb2_add(x: &[u8], y: &[u8]) -> bool {
    is_window(x, y, DJB2_ADD_PLACES, 0xE0)
}

/// Whether the texts have one length and differ, but only within three adjacent places. Their `fnv1_64` hashes then
/// differ.
///
/// Proved:
///
/// ```text
/// exactly: IsTrue result ↔ DifferWithin 3 0 x.now y.now
/// differ: OnTrue result (fnv1_64_from fnv1a64_basis x.now ≢ fnv1_64_from fnv1a64_basis y.now)
/// ```
#[inline]
pub fn apart_fnv1_64(x: &[u8], y: &[u8]) -> bool {
    is_window(x, y, FNV1_64_PLACES, 0)
}

/// Whether the texts have one length and differ, but only within two adjacent places. Their `fnv1_32` hashes then
/// differ.
///
/// Proved:
///
/// ```text
/// exactly: IsTrue result ↔ DifferWithin 2 0 x.now y.now
/// differ: OnTrue result (fnv1_32_from fnv1a32_basis x.now ≢ fnv1_32_from fnv1a32_basis y.now)
/// ```
#[inline]
pub fn apart_fnv1_32(x: &[u8], y: &[u8]) -> bool {
    is_window(x, y, FNV1_32_PLACES, 0)
}
