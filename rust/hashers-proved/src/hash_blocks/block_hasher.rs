//! The hasher of a block-based rule.

// What follows is the proved text of crates/hash_blocks/src/block_hasher.rt without its contracts.
use crate::{hash_laws, std};

use crate::hash_blocks::block_rule::BlockRule;
use crate::hash_blocks::parts::{blocks_in, bytes_in};
use hash_laws::traits::{Piecewise, Streamed, run_streamed};
use std::hash::Hasher;

/// The hasher of a block-based rule. Contracts see it as its position: what is kept of the whole blocks, the bytes that are
/// left after them, fewer than a block, and the length modulo 2^64.
pub struct BlockHasher<R: BlockRule<N>, const N: usize> {
    state: R::State,
    buffer: [u8; N],
    kept: usize,
    total: u64,
}

impl<R: BlockRule<N>, const N: usize> BlockHasher<R, N> {
    /// A hasher of no bytes, under a seed.
    ///
    /// Proved:
    ///
    /// ```text
    /// position: result ≡ position N R.block (R.start (R.numbers seed)) []
    /// stands: BlockStandsAt N R.start R.block result (R.numbers seed) []
    /// ```
    #[inline]
    pub fn new(seed: R::Seed) -> BlockHasher<R, N> {
        BlockHasher {
            state: R::start(seed),
            buffer: [0; N],
            kept: 0,
            total: 0,
        }
    }

    /// The hash of the bytes so far. More bytes may be written afterwards.
    ///
    /// Proved:
    ///
    /// ```text
    /// here: result ≡ R.finish self.now.state self.now.left self.now.total
    /// where_it_stands: (from text : List ℕ) → BlockStandsAt N R.start R.block self.now from text
    ///     → result ≡ R.hash from text
    /// in_range: IsPosition N self.now
    /// ```
    #[inline(always)]
    pub fn hash(&self) -> R::Hash {
        R::finish(&self.state, &self.buffer[..self.kept], self.total)
    }

    /// The hash after more pieces, in order: that of the text so far and the joined pieces, however the text was split.
    ///
    /// Proved:
    ///
    /// ```text
    /// (from text : List ℕ) → BlockStandsAt N R.start R.block self from text
    ///     → result ≡ R.hash from (text ++ joined pieces.now)
    /// ```
    #[inline]
    pub fn hash_with(mut self, pieces: &[&[u8]]) -> R::Hash {
        run_streamed(&mut self, pieces);
        self.hash()
    }

    /// The hash of a whole text under a seed, with no hasher.
    ///
    /// Proved:
    ///
    /// ```text
    /// result ≡ R.hash (R.numbers seed) text.now
    /// ```
    #[inline(always)]
    pub fn hash_of(seed: R::Seed, text: &[u8]) -> R::Hash {
        if text.len() < N {
            R::finish(&R::start(seed), text, text.len() as u64)
        } else if N == 4 {
            Self::hash_of_blocks(text, seed)
        } else {
            Self::hash_of_many(text, seed)
        }
    }

    // The same by the blocks.
    /// Proved:
    ///
    /// ```text
    /// result ≡ R.hash (R.numbers seed) text.now
    /// ```
    #[inline(always)]
    fn hash_of_blocks(text: &[u8], seed: R::Seed) -> R::Hash {
        let mut state = R::start(seed);
        let left = blocks_in::<R, N>(&mut state, text);
        R::finish(&state, left, text.len() as u64)
    }

    // The same where the loop keeps more than a word: if it were inlined, a short text would save its registers too.
    /// Proved:
    ///
    /// ```text
    /// result ≡ R.hash (R.numbers seed) text.now
    /// ```
    #[inline(never)]
    fn hash_of_many(text: &[u8], seed: R::Seed) -> R::Hash {
        Self::hash_of_blocks(text, seed)
    }
}

impl<R: BlockRule<N>, const N: usize> Default for BlockHasher<R, N> {
    /// The hasher of no bytes under the plain seed.
    #[inline]
    fn default() -> BlockHasher<R, N> {
        BlockHasher::new(R::plain())
    }
}

impl<R: BlockRule<N>, const N: usize> Hasher for BlockHasher<R, N> {
    /// The low 64 bits of the hash.
    ///
    /// Proved:
    ///
    /// ```text
    /// value: result ≡ R.low (R.finish self.now.state self.now.left self.now.total)
    /// in_range: IsPosition N self.now
    /// ```
    #[inline(always)]
    fn finish(&self) -> u64 {
        R::low(self.hash())
    }

    /// Goes on over the bytes.
    ///
    /// Proved:
    ///
    /// ```text
    /// written: self.new ≡ after N R.block self.old bytes.now
    /// in_range_before: IsPosition N self.old
    /// in_range_after: IsPosition N self.new
    /// ```
    #[inline(always)]
    fn write(&mut self, bytes: &[u8]) {
        self.total = self.total.wrapping_add(bytes.len() as u64);
        self.kept = bytes_in::<R, N>(&mut self.state, &mut self.buffer, self.kept, bytes);
    }
}

impl<R: BlockRule<N>, const N: usize> Piecewise for BlockHasher<R, N> {
    #[inline(always)]
    fn state_in_range(&self) {
        let _total = self.total;
    }

    #[inline(always)]
    fn whole(text: &[u8]) -> u64 {
        R::low(BlockHasher::<R, N>::hash_of(R::plain(), text))
    }

    #[inline]
    fn fork(&self) -> BlockHasher<R, N> {
        BlockHasher {
            state: self.state,
            buffer: self.buffer,
            kept: self.kept,
            total: self.total,
        }
    }
}

impl<R: BlockRule<N>, const N: usize> Streamed for BlockHasher<R, N> {}
