//! Laws of fx: where the split of a list of pieces does not matter, tests of two lists, and that each hash has one word.

// What follows is the proved text of crates/hash_theorems/src/fx.rt without its contracts.

mod differing;
pub mod pieces;
