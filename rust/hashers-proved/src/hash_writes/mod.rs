//! What the writes of std's `Hasher` feed: lists of writes, made and undone, and the keys of std's maps and sets.

// What follows is the proved text of crates/hash_writes/src/lib.rt without its contracts.

pub mod build;
pub mod writes;
