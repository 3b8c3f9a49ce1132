//! One changed byte changes the hash of a hasher that goes a step for each byte.

// What follows is the proved text of crates/hash_laws/src/windows/changed_byte.rt without its contracts.

use crate::hash_laws::traits::ByteStep;
use crate::hash_laws::windows::window::differ_at_one_place;

/// Whether the lengths are equal and exactly one place differs. If so, the default hashes differ. Computes no hash.
///
/// Proved:
///
/// ```text
/// exactly: IsTrue result ↔ DifferAtOnePlace x.now y.now
/// differ: OnTrue result (H.hash_of x.now ≢ H.hash_of y.now)
/// ```
#[inline]
pub fn apart_by_one<H: ByteStep>(x: &[u8], y: &[u8]) -> bool {
    differ_at_one_place(x, y)
}
