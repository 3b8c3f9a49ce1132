//! The laws of hashes that are counted, with no code: how they fall into buckets, how many pairs of them are equal, and how many texts
//! there are.

// What follows is the proved text of crates/hashers/src/counts.rt without its contracts.
