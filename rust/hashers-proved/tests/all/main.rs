//! All tests in one program.
mod blocks;
mod bloom;
mod documents;
mod keyed;
#[cfg(feature = "std")]
mod keys;
#[cfg(feature = "std")]
mod laws;
#[cfg(feature = "std")]
mod promises;
#[cfg(feature = "std")]
mod memory;
mod names;
mod numbers;
#[cfg(feature = "std")]
mod parsers;
mod uses;
