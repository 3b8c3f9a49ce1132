//! Texts that differ within a few adjacent places, or within one block, only, and hashes that then differ.

// What follows is the proved text of crates/hash_laws/src/windows.rt without its contracts.

pub mod changed_byte;
pub mod window;
