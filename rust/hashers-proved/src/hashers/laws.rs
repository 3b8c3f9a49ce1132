//! The laws of hashers: the traits and the generic functions, and tests of two texts.

// What follows is the proved text of crates/hashers/src/laws.rt without its contracts.
use crate::{hash_laws, hash_theorems, hash_writes};

pub use crate::hashers::windows::{
    apart_djb2, apart_fnv32, apart_fnv64, apart_sdbm, same_word,
};
pub use hash_laws::traits::{
    ByteStep, Piecewise, Streamed, Undo, answer_of_pieces, bucket_of, bytes_are_a_text,
    hash_of, run_pair,
    run_pieces, run_streamed, string_is_a_text,
};
pub use hash_laws::windows::changed_byte::{apart_by_one};
pub use hash_laws::windows::window::{
    differ_at_one_place, first_difference, is_window,
};
pub use hash_theorems::fx::pieces::{
    apart_by_one_fx, apart_by_one_word_fx32, apart_by_one_word_fx64,
    run_words,
    run_words32, run_words64,
};
pub use hash_theorems::jenkins::block::block_for;
pub use hash_theorems::jenkins::stretch::{stretch_for};
pub use hash_theorems::jenkins::two_texts::{
    apart_by_block, apart_by_stretch, apart_by_zeros, differ_in_one_block,
    differ_in_one_stretch,
    same_answers_later,
};
pub use hash_writes::writes::{
    HasherWrite, answer_of_writes, run_writes, run_writes_streamed, unrun_writes,
};
