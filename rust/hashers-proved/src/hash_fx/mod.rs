//! The fx hash of the hash tables of Firefox and rustc, in three types: a piece is split into words, and each word takes
//! the state one step. The split and the key of 32 bits are this project's own choice.

// What follows is the proved text of crates/hash_fx/src/lib.rt without its contracts.

mod fx;
mod hasher;
pub mod pieces;
mod word;
mod words;

pub use fx::{FxHasher, FxHasher32, FxHasher64, MachineWord, fxhash, fxhash32, fxhash64};
pub use hasher::WordHasher;
pub use pieces::{apart_by_one_fx, run_words, run_words32, run_words64};
pub use word::{FxSplit, FxWord};
