//! What hash functions promise, and what follows for all of them.
//!
//! [`traits`] has the promises, [`rules`] the hasher of a rule with a step per byte, `reading` the hash of what a reader gives, and
//! [`windows`] texts that differ within a window or a block.

// What follows is the proved text of crates/hash_laws/src/lib.rt without its contracts.

#[cfg(feature = "std")]
pub mod reading;
pub mod rules;
pub mod traits;
pub mod windows;
