//! The programs `hashof`, `dedup`, `hashsum`, `cuts` and `spread`, and what they do as a library: the proved text of the programs, its
//! contracts erased, over the crate hashers-proved. No text of a function's body is changed. `cargo install --path .` builds and installs
//! all five.
#![forbid(unsafe_code)]
// In the proved text, whose language has no such lints.
#![allow(clippy::style, clippy::complexity)]

pub mod cli;
// Its sizes of chunks take 64 bits.
#[cfg(target_pointer_width = "64")]
pub mod cuts_core;
pub mod spread_core;
pub mod hashsum_core;
pub mod dedup_core;

// The programs.
#[cfg(target_pointer_width = "64")]
pub mod cuts;
pub mod dedup;
pub mod hashof;
pub mod hashsum;
pub mod spread;
