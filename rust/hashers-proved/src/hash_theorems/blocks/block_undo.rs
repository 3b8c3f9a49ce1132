//! What a block-based hash that loses nothing has to define.

// What follows is the proved text of crates/hash_theorems/src/blocks/block_undo.rt without its contracts.
use crate::hash_blocks;

use hash_blocks::BlockRule;

/// The second part, of a rule that loses nothing: a block can be undone, there is one block between any two states, and
/// one state with each answer.
pub trait BlockUndo<const N: usize>: BlockRule<N> {
    /// A law with no code: the numbers of a seed are in range.
    ///
    /// Proved:
    ///
    /// ```text
    /// is_seed (Self.numbers seed)
    /// ```
    fn seed_in_range(seed: Self::Seed);

    /// A law with no code: an answer is in range.
    ///
    /// Proved:
    ///
    /// ```text
    /// is_answer hash
    /// ```
    fn answer_in_range(hash: Self::Hash);

    /// One block back.
    ///
    /// Proved:
    ///
    /// ```text
    /// state.new ≡ unblock state.old bytes.now
    /// ```
    fn unblock(state: &mut Self::State, bytes: &[u8; N]);

    /// The one block that leads from one state to another.
    ///
    /// Proved:
    ///
    /// ```text
    /// result ≡ between from.now to.now
    /// ```
    fn between(from: &Self::State, to: &Self::State) -> [u8; N];

    /// The one state that answers so.
    ///
    /// The caller has to see to it that:
    ///
    /// ```text
    /// length left.now < N
    /// ```
    ///
    /// Proved:
    ///
    /// ```text
    /// result ≡ unfinish hash left.now total
    /// ```
    fn unfinish(hash: Self::Hash, left: &[u8], total: u64) -> Self::State;
}
