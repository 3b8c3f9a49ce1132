//! Laws of lookup3 and SpookyHash alone: tests of two texts, and preimages.

// What follows is the proved text of crates/hash_theorems/src/jenkins.rt without its contracts.

pub mod block;
pub mod stretch;
pub mod two_texts;
