//! Laws of XXH3 alone: what it keeps and loses of texts, tests of two texts, and its mixes, undone.

// What follows is the proved text of crates/hash_theorems/src/xxh3.rt without its contracts.

pub mod laws;
pub mod unmix;

pub use laws::{apart_xxh3, apart_xxh128};
