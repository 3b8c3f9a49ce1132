//! XXH3 of 64 and 128 bits (Yann Collet, xxHash 0.8): a fast hash of a text under a seed, not cryptographic.

// What follows is the proved text of crates/hash_xxh3/src/lib.rt without its contracts.

mod advance;
mod build;
pub mod hasher;
pub mod long;
mod middle;
mod parts;
mod place;
mod secret;
pub mod short;
mod whole;
mod wide;
pub mod words;

pub use build::BuildXxh3;
pub use hasher::Xxh3Hasher;
pub use place::Xxh3Place;
pub use whole::xxh3_64;
pub use wide::xxh3_128;
