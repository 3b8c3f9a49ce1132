//! The hashes of a column of texts, by the number of a hash, under offsets of 32 and of 64 bits. Text i lies from offset i to offset
//! i + 1.

// What follows is the proved text of crates/hash_c/src/columns.rt without its contracts.

use crate::hash_c::column::column_by;

/// The hash of each text, under offsets of 32 bits. Where they are no such offsets, or no hash has the number, nothing is written.
///
/// Proved:
///
/// ```text
/// IsColumnBy kind bytes.now offsets.now hashes.old hashes.new result
/// ```
#[inline]
pub fn hashers_column32(
    kind: u32,
    bytes: &[u8],
    offsets: &[u32],
    hashes: &mut [u64],
) -> bool {
    column_by::<u32>(kind, bytes, offsets, hashes)
}

/// The same under offsets of 64 bits.
///
/// Proved:
///
/// ```text
/// IsColumnBy kind bytes.now offsets.now hashes.old hashes.new result
/// ```
#[inline]
pub fn hashers_column64(
    kind: u32,
    bytes: &[u8],
    offsets: &[u64],
    hashes: &mut [u64],
) -> bool {
    column_by::<u64>(kind, bytes, offsets, hashes)
}
