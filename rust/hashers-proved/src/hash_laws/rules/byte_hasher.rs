//! The hasher of a rule with a step per byte.

// What follows is the proved text of crates/hash_laws/src/rules/byte_hasher.rt without its contracts.
use crate::std;

use crate::hash_laws::rules::byte_rule::{ByteRule, UndoRule};
use crate::hash_laws::traits::{ByteStep, Piecewise, Streamed, Undo};
use std::hash::Hasher;

/// The hasher of a rule with a step per byte. Contracts see it as what it keeps: mostly its state, a number below the rule's bound.
pub struct ByteHasher<R: ByteRule> {
    state: R::State,
}

impl<R: ByteRule> Default for ByteHasher<R> {
    /// The hasher of no bytes.
    #[inline]
    fn default() -> ByteHasher<R> {
        ByteHasher { state: R::start() }
    }
}

impl<R: ByteRule> Hasher for ByteHasher<R> {
    /// The rule's answer to the state, which stays as it is.
    ///
    /// Proved:
    ///
    /// ```text
    /// value: result ≡ R.answer (R.number self.now)
    /// in_range: R.number self.now < R.bound
    /// ```
    #[inline(always)]
    fn finish(&self) -> u64 {
        R::answer(&self.state)
    }

    /// Takes the bytes in, the rule's step for each.
    ///
    /// Proved:
    ///
    /// ```text
    /// value: self.new ≡ R.write self.old bytes.now
    /// state: R.number self.new ≡ R.after (R.number self.old) bytes.now
    /// in_range_before: R.number self.old < R.bound
    /// in_range_after: R.number self.new < R.bound
    /// ```
    #[inline(always)]
    fn write(&mut self, bytes: &[u8]) {
        R::write(&mut self.state, bytes);
    }
}

impl<R: ByteRule> Piecewise for ByteHasher<R> {
    #[inline(always)]
    fn state_in_range(&self) {
        let _state = &self.state;
    }

    #[inline(always)]
    fn whole(text: &[u8]) -> u64 {
        R::whole(text)
    }

    #[inline(always)]
    fn fork(&self) -> ByteHasher<R> {
        ByteHasher {
            state: R::fork(&self.state),
        }
    }
}

impl<R: ByteRule> Streamed for ByteHasher<R> {}

impl<R: UndoRule> Undo for ByteHasher<R> {
    #[inline]
    fn unwrite(&mut self, piece: &[u8]) {
        for byte in piece.iter().rev() {
            R::unstep(&mut self.state, *byte);
        }
    }

    #[inline]
    fn unfinish(answer: u64) -> Option<ByteHasher<R>> {
        let state = R::unanswer(answer)?;
        Some(ByteHasher { state })
    }
}

impl<R: UndoRule> ByteStep for ByteHasher<R> {
    /// Proved:
    ///
    /// ```text
    /// exact: R.number self.new ≡ R.step (R.number self.old) byte
    /// state: R.number self.new ≡ R.after (R.number self.old) (byte ∷ [])
    /// in_range_before: R.number self.old < R.bound
    /// in_range_after: R.number self.new < R.bound
    /// ```
    #[inline(always)]
    fn step(&mut self, byte: u8) {
        R::step(&mut self.state, byte);
    }

    /// Proved:
    ///
    /// ```text
    /// exact: R.step (R.number self.new) byte ≡ R.number self.old
    /// back: R.after (R.number self.new) (byte ∷ []) ≡ R.number self.old
    /// undone: (s : ℕ) → s < R.bound
    ///     → R.after s (byte ∷ []) ≡ R.number self.old → R.number self.new ≡ s
    /// in_range_before: R.number self.old < R.bound
    /// in_range_after: R.number self.new < R.bound
    /// ```
    #[inline(always)]
    fn unstep(&mut self, byte: u8) {
        R::unstep(&mut self.state, byte);
    }
}
