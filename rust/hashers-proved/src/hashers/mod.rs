//! Non-cryptographic hash functions, with inverses and laws: a port of the Rust crate hashers 1.0.1.

// What follows is the proved text of crates/hashers/src/lib.rt without its contracts.
#[doc(hidden)]
pub use crate::{hash_bytes, hash_laws, hash_rounds, hash_writes};

mod counts;
pub mod fnv;
pub mod fx_hash;
pub mod jenkins;
pub mod laws;
pub mod promises;
mod windows;

pub use hash_bytes::{null as null, oz as oz, pigeon as pigeon};
#[cfg(feature = "std")]
pub use hash_laws::reading::{reader as engine, reader as reader};
pub use hash_laws::rules as rules;
pub use hash_laws::windows::window as window;
pub use hash_rounds as rounds;
pub use hash_writes::build as build;
