//! The hash of two texts joined, from their hashes and the second one's length.

// What follows is the proved text of crates/hash_c/src/combine.rt without its contracts.
use hashers_proved::{hash_more, hashers};

use hash_more::crc32;
use hashers::{null, oz};

/// sdbm of a joined text from the hashes of its two parts and the second one's length in bytes.
///
/// Proved:
///
/// ```text
/// value: result ≡ (hash1 * 65599 ^ n2 + hash2) % 2 ^ 32
/// joined: (x y : List ℕ) → length y ≡ n2 → hash1 ≡ sdbm_from 0 x → hash2 ≡ sdbm_from 0 y
///     → result ≡ sdbm_from 0 (x ++ y)
/// ```
#[inline]
pub fn hashers_sdbm_combine(hash1: u64, hash2: u64, n2: u64) -> u64 {
    oz::sdbm_combine(hash1, hash2, n2)
}

/// The same of lose lose, which needs no length: the sum.
///
/// Proved:
///
/// ```text
/// value: result ≡ (hash1 + hash2) % 2 ^ 64
/// joined: (x y : List ℕ) → hash1 ≡ loselose_from 0 x → hash2 ≡ loselose_from 0 y
///     → result ≡ loselose_from 0 (x ++ y)
/// ```
#[inline]
pub fn hashers_loselose_combine(hash1: u64, hash2: u64, n2: u64) -> u64 {
    oz::loselose_combine(hash1, hash2, n2)
}

/// The same of passthrough.
///
/// Proved:
///
/// ```text
/// value: result ≡ (hash1 * 256 ^ n2 + hash2) % 2 ^ 64
/// joined: (x y : List ℕ) → length y ≡ n2 → hash1 ≡ passthrough_from 0 x
///     → hash2 ≡ passthrough_from 0 y
///     → result ≡ passthrough_from 0 (x ++ y)
/// ```
#[inline]
pub fn hashers_passthrough_combine(hash1: u64, hash2: u64, n2: u64) -> u64 {
    null::passthrough_combine(hash1, hash2, n2)
}

/// The same of CRC-32, in a time that grows with the number of digits of the second text's length.
///
/// Proved:
///
/// ```text
/// value: result ≡ bit_xor (bits_out ieee (8 * n2) (hash1 % 2 ^ 32)) (hash2 % 2 ^ 32)
/// joined: (x y : List ℕ) → IsText x → IsText y → length y ≡ n2
///     → hash1 ≡ crc32_of x → hash2 ≡ crc32_of y
///     → result ≡ crc32_of (x ++ y)
/// ```
#[inline]
pub fn hashers_crc32_combine(hash1: u64, hash2: u64, n2: u64) -> u64 {
    crc32::crc32_combine(hash1, hash2, n2)
}

/// The same of CRC-32C.
///
/// Proved:
///
/// ```text
/// value: result ≡ bit_xor (bits_out castagnoli (8 * n2) (hash1 % 2 ^ 32)) (hash2 % 2 ^ 32)
/// joined: (x y : List ℕ) → IsText x → IsText y → length y ≡ n2
///     → hash1 ≡ crc32c_of x → hash2 ≡ crc32c_of y
///     → result ≡ crc32c_of (x ++ y)
/// ```
#[inline]
pub fn hashers_crc32c_combine(hash1: u64, hash2: u64, n2: u64) -> u64 {
    crc32::crc32c_combine(hash1, hash2, n2)
}
