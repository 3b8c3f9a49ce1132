//! Words of 32 and 64 bits, of which hash functions are made, and copies of a few bytes.

// What follows is the proved text of crates/hash_words/src/lib.rt without its contracts.

mod copies;
mod words;

pub use copies::{put, put_array};
pub use words::{
    le_four, le_two, le_words, le32, le64, rotl32, rotl32_by, rotl64, rotl64_by, swap_halves,
    unxorshift, xorshift,
};
