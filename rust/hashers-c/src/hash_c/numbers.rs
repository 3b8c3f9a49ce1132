//! Numbers under a key of the caller's: one, and a column of them; and keys of maps under a key.

// What follows is the proved text of crates/hash_c/src/numbers.rt without its contracts.
use hashers_proved::{hash_kinds, hash_map_keys};

use hash_kinds::wide::both;
use hash_map_keys::hasher::map_hash;
use hash_map_keys::keys::MapKeys;
use hash_map_keys::numbers::number_hash;

/// A multiplier and an addend of 128 bits, each in two halves.
#[repr(C)]
#[derive(Clone, Copy)]
pub struct NumberKey {
    pub multiplier_high: u64,
    pub multiplier_low: u64,
    pub addend_high: u64,
    pub addend_low: u64,
}

/// The hash of the number at a key.
///
/// Proved:
///
/// ```text
/// result ≡ hash_at_key key.now number
/// ```
#[inline]
pub fn hashers_number_hash(key: &NumberKey, number: u64) -> u64 {
    number_hash(
        both((key.multiplier_high, key.multiplier_low)),
        both((key.addend_high, key.addend_low)),
        number,
    )
}

/// Writes the hash of each number, and answers that there are as many places as numbers; else nothing is written.
///
/// Proved:
///
/// ```text
/// exactly: IsTrue result ↔ length numbers.now ≡ length hashes.old
/// written: OnTrue result (AreNumberHashes key.now numbers.now hashes.new)
/// refused: OnFalse result (hashes.new ≡ hashes.old)
/// ```
#[inline]
pub fn hashers_number_column(
    key: &NumberKey,
    numbers: &[u64],
    hashes: &mut [u64],
) -> bool {
    if numbers.len() != hashes.len() {
        return false;
    }
    let multiplier = both((key.multiplier_high, key.multiplier_low));
    let addend = both((key.addend_high, key.addend_low));
    for i in 0..hashes.len() {
        hashes[i] = number_hash(multiplier, addend, numbers[i]);
    }
    true
}

/// Keys for the keys of maps: of seventeen multipliers and an addend the high half before the low one, then the key for texts.
#[repr(C)]
#[derive(Clone, Copy)]
pub struct MapKey {
    pub words: [u64; 37],
}

/// The hash of a key of a map, at these.
///
/// Proved:
///
/// ```text
/// result
///     ≡ map_hash (wides key.now.words 17 0) (wide key.now.words 34) (slice_index key.now.words 36 % prime61)
///     bytes.now
/// ```
#[inline]
pub fn hashers_map_hash(key: &MapKey, bytes: &[u8]) -> u64 {
    map_hash(&MapKeys::from_words(&key.words), bytes)
}
