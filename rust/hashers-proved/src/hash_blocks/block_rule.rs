//! What a block-based hash has to define.

// What follows is the proved text of crates/hash_blocks/src/block_rule.rt without its contracts.

/// A hash of blocks of `N` bytes: what it starts from, one block in, and the answer from what is kept, what is left after
/// the whole blocks, and the length. The implementing type is a name for the rule, and no value of it is made.
pub trait BlockRule<const N: usize> {
    /// What is kept of the blocks so far.
    type State: Copy;

    /// What a hash starts from beside its text: a seed, or a key.
    type Seed: Copy;

    /// What is answered: a word, or two.
    type Hash: Copy;

    /// The seed of a default hasher.
    ///
    /// Proved:
    ///
    /// ```text
    /// result ≡ plain
    /// ```
    fn plain() -> Self::Seed;

    /// What is kept of no blocks.
    ///
    /// Proved:
    ///
    /// ```text
    /// result ≡ start (numbers seed)
    /// ```
    fn start(seed: Self::Seed) -> Self::State;

    /// One block in.
    ///
    /// Proved:
    ///
    /// ```text
    /// state.new ≡ block state.old bytes.now
    /// ```
    fn block(state: &mut Self::State, bytes: &[u8; N]);

    /// The answer. The length comes modulo 2^64.
    ///
    /// The caller has to see to it that:
    ///
    /// ```text
    /// length left.now < N
    /// ```
    ///
    /// Proved:
    ///
    /// ```text
    /// result ≡ finish state.now left.now total
    /// ```
    fn finish(state: &Self::State, left: &[u8], total: u64) -> Self::Hash;

    /// The 64 bits that std's `finish` returns.
    ///
    /// Proved:
    ///
    /// ```text
    /// result ≡ low answer
    /// ```
    fn low(answer: Self::Hash) -> u64;
}
