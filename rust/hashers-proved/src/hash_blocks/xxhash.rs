//! XXH32 and XXH64, by Yann Collet: block-based hashes under a seed.

// What follows is the proved text of crates/hash_blocks/src/xxhash.rt without its contracts.

pub mod at_32;
pub mod at_64;

pub use at_32::{Lanes32, Xxh32Hasher, Xxh32Rule, xxh32};
pub use at_64::{Lanes, Xxh64Hasher, Xxh64Rule, xxh64};
