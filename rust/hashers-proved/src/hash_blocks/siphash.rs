//! SipHash-c-d, by Jean-Philippe Aumasson and Daniel J. Bernstein: a block-based hash under a key of 128 bits.

// What follows is the proved text of crates/hash_blocks/src/siphash.rt without its contracts.

mod hasher;
mod rounds;

pub use hasher::{SipHasher13, SipHasher24, SipKey, SipRule, siphash13, siphash24};
pub use rounds::{sip_round, sip_unround, sip_word_out};
