//! Block-based hashes of two words.

// What follows is the proved text of crates/hash_blocks/src/wide_rule.rt without its contracts.

use crate::hash_blocks::block_hasher::BlockHasher;
use crate::hash_blocks::block_rule::BlockRule;

/// The second part, of a rule whose answer is two words.
pub trait WideRule<const N: usize>: BlockRule<N> {
    /// The two words of an answer.
    ///
    /// Proved:
    ///
    /// ```text
    /// result ≡ words answer
    /// ```
    fn words(answer: Self::Hash) -> (u64, u64);
}

impl<R: WideRule<N>, const N: usize> BlockHasher<R, N> {
    /// The 128 bits of the hash of the bytes so far, as two words. More bytes may be written afterwards.
    ///
    /// Proved:
    ///
    /// ```text
    /// here: result ≡ R.words (R.finish self.now.state self.now.left self.now.total)
    /// where_it_stands: (from text : List ℕ) → BlockStandsAt N R.start R.block self.now from text
    ///     → result ≡ R.words (R.hash from text)
    /// ```
    #[inline(always)]
    pub fn finish128(&self) -> (u64, u64) {
        R::words(self.hash())
    }
}
