//! A hash that takes its input in blocks is a rule, and one hasher, [`BlockHasher`], serves all rules.
//!
//! [`murmur3`] has MurmurHash3, [`xxhash`] XXH32 and XXH64, and [`siphash`] SipHash.

// What follows is the proved text of crates/hash_blocks/src/lib.rt without its contracts.

mod block_hasher;
mod block_rule;
pub mod murmur3;
mod parts;
pub mod siphash;
mod wide_rule;
mod words;
pub mod xxhash;

pub use block_hasher::BlockHasher;
pub use block_rule::BlockRule;
pub use parts::{blocks_in, bytes_in};
pub use wide_rule::WideRule;
pub use words::{le_eight, le_seven};
