//! The hashers that take a step for each byte, but for one-at-a-time, and the two that need none: rules of FNV-1a, djb2, sdbm,
//! lose lose and Bricolage, and the null pair.

// What follows is the proved text of crates/hash_bytes/src/lib.rt without its contracts.

pub mod fnv;
pub mod null;
pub mod oz;
pub mod pigeon;
