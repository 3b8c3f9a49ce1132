//! What follows for single hashes, and no program runs: tests of two texts, preimages, and steps undone.
//!
//! [`blocks`] has MurmurHash3, XXH32, XXH64 and what holds for all block-based hashes, [`fx`] the hashes of fx, [`jenkins`] lookup3 and
//! SpookyHash, [`more`] the hashes of `hash_more`, [`xxh3`] XXH3, and [`ranges`] the ranges of hashes of 128 bits.

// What follows is the proved text of crates/hash_theorems/src/lib.rt without its contracts.

pub mod blocks;
pub mod fx;
pub mod jenkins;
pub mod more;
pub mod ranges;
pub mod xxh3;
