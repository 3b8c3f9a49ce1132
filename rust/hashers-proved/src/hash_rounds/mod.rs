//! Words, sums and mixing rounds of well-known hash functions, each round with its inverse.
//!
//! A word is a number of 32 or 64 bits, and all arithmetic wraps at its width. A round is a list of steps, each of
//! which changes one word by another; its inverse is the list of the opposite steps, last first. [`put`] copies a few bytes.

// What follows is the proved text of crates/hash_rounds/src/lib.rt without its contracts.
use crate::hash_words;

mod blocks;
mod lookup3;
mod short;
mod shuffle;
mod spooky;
mod steps;
mod sums;
mod turns;

pub use blocks::{spooky_blocks, spooky_unblocks};
pub use hash_words::{
    le_four, le_words, le32, le64, put, put_array, rotl32, rotl64, swap_halves, unxorshift,
    xorshift,
};
pub use lookup3::{lookup3_final, lookup3_mix, lookup3_unfinal, lookup3_unmix};
pub use short::{short_end, short_mix, un_short_end, un_short_mix};
pub use shuffle::{shuffle64, unshuffle64};
pub use spooky::{spooky_end, spooky_end_partial, spooky_mix, spooky_un_end_partial, spooky_unmix};
pub use sums::{lose8, sdbm4};
pub use turns::Turns;
