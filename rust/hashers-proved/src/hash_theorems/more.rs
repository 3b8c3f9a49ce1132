//! Tests on two texts that differ within a window, under the hashes of `hash_more`: which of them see the change.

// What follows is the proved text of crates/hash_theorems/src/more.rt without its contracts.

mod bursts;
pub mod windows;

pub use windows::{
    apart_crc32, apart_crc32_bits, apart_crc32c, apart_crc32c_bits, apart_djb2_add, apart_fnv1_32,
    apart_fnv1_64,
};
