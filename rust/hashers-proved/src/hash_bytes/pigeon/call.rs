//! The one-call function, which can't stand beside the type of its name.

// What follows is the proved text of crates/hash_bytes/src/pigeon/call.rt without its contracts.
use crate::hash_laws;

use super::hasher::BricolageRule;
use hash_laws::rules::hash_by_plain;

/// Bricolage of the bytes.
///
/// Proved:
///
/// ```text
/// result ≡ bricolage_from 0 bytes.now
/// ```
#[inline]
pub fn bricolage(bytes: &[u8]) -> u64 {
    hash_by_plain::<BricolageRule>(bytes)
}
