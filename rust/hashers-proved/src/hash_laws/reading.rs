//! The hash of what a reader gives.

// What follows is the proved text of crates/hash_laws/src/reading.rt without its contracts.

pub mod limited;
#[cfg(feature = "std")]
pub mod reader;
