//! MurmurHash3, by Austin Appleby: block-based hashes under a seed.

// What follows is the proved text of crates/hash_blocks/src/murmur3.rt without its contracts.

pub mod x64_128;
pub mod x86_32;

pub use x64_128::{Murmur3Hasher128, Murmur3Rule128, murmur3_128};
pub use x86_32::{Murmur3Hasher32, Murmur3Rule32, murmur3_32};
