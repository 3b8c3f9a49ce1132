//! Bricolage, the hash function of Steven Pigeon's page on hash functions: each byte's product by a large odd number, its
//! bits shuffled, is added, and then the halves of the state change places.

// What follows is the proved text of crates/hash_bytes/src/pigeon.rt without its contracts.

mod call;
mod hasher;
mod table;

pub use call::bricolage;
pub use hasher::{Bricolage, BricolageRule};
