//! What follows for block-based hashes that lose nothing, and for MurmurHash3, XXH32 and XXH64 alone: one changed block shows, no hash is
//! favoured, the block for a hash, and each block undone.

// What follows is the proved text of crates/hash_theorems/src/blocks.rt without its contracts.

mod block_undo;
mod by_rule;
mod murmur3;
mod murmur3_128;
mod murmur3_32;
mod xxh32;
mod xxhash;

pub use block_undo::BlockUndo;
pub use by_rule::{
    apart_by_rule, block_for_by_rule, block_out,
    state_behind,
};
pub use murmur3::{
    apart_by_block_murmur3_128, apart_by_word_murmur3_32, block_for_murmur3_128,
    word_for_murmur3_32,
};
pub use xxh32::{word_for_xxh32, xxh32_block_out};
pub use xxhash::{
    apart_by_word_xxh32, apart_by_word_xxh64,
    word_for_xxh64, xxh64_block_out,
};
