//! The ranges of hashes of 128 bits.

// What follows is the proved text of crates/hash_theorems/src/ranges.rt without its contracts.
