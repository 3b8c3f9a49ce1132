//! The hash functions of `hashers` for programs in C, and in whatever calls C: exported calls over pointers and lengths, each with
//! the contract of what it calls. `c/hashers.h` declares them, and says what a caller must see to.

// What follows is the proved text of crates/hash_c/src/lib.rt without its contracts.
#[allow(unsafe_code)]
mod exports;

pub mod block;
pub mod bloom;
pub mod chunks;
pub mod column;
pub mod columns;
pub mod combine;
pub mod ending;
pub mod in_words;
pub mod keyed;
pub mod kinds;
pub mod lines;
pub mod numbers;
pub mod parts;
pub mod ring;
pub mod spooky;
pub mod whole;
pub mod xxh3;

/// The version of the library, of which VERSION at the top says the three parts: 10000 * major + 100 * minor + patch.
///
/// Proved:
///
/// ```text
/// result ≡ 100
/// ```
#[inline]
pub fn hashers_version() -> u32 {
    100
}
