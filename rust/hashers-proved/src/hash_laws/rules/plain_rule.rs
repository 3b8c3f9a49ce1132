//! What a hash with a step per byte has to define whose state is one word.

// What follows is the proved text of crates/hash_laws/src/rules/plain_rule.rt without its contracts.
use crate::std;

use crate::hash_laws::rules::byte_rule::{ByteRule, StepRule, UndoRule};
use crate::hash_laws::rules::texts::{alone_or_in_eights, in_eights, whole_text};
use std::marker::PhantomData;

/// A word that is kept.
pub trait Word: Copy {}

impl Word for u32 {}

impl Word for u64 {}

/// A rule that keeps one word: its start, one byte on, and the answer. The implementing type is a name for the rule, and no
/// value of it is made.
pub trait PlainRule {
    /// What is kept.
    type Word: Word;

    /// Whether a `write` of a single byte has a way of its own. No result depends on it: where single bytes come often it saves
    /// the loop, and other lengths pay a test.
    const ALONE: bool;

    /// The word of no bytes.
    ///
    /// Proved:
    ///
    /// ```text
    /// Self.Word.number result ≡ start
    /// ```
    fn start() -> Self::Word;

    /// One byte on.
    ///
    /// Proved:
    ///
    /// ```text
    /// stepped: Self.Word.number result ≡ step (Self.Word.number word) byte
    /// in_range: Self.Word.number result < bound
    /// ```
    fn step(word: Self::Word, byte: u8) -> Self::Word;

    /// The answer.
    ///
    /// Proved:
    ///
    /// ```text
    /// result ≡ answer (Self.Word.number word)
    /// ```
    fn answer(word: Self::Word) -> u64;
}

/// The second part, of a rule whose steps lose nothing: one byte back, and the answer's inverse.
pub trait PlainUndo: PlainRule {
    /// One byte back.
    ///
    /// Proved:
    ///
    /// ```text
    /// back: Self.step (Self.Word.number result) byte ≡ Self.Word.number word
    /// in_range: Self.Word.number result < Self.bound
    /// ```
    fn unstep(word: Self::Word, byte: u8) -> Self::Word;

    /// The one word that answers so, or `None` exactly where the answer is not below the bound.
    ///
    /// Proved:
    ///
    /// ```text
    /// exact: IsSome result ↔ (hash < Self.bound)
    /// some: IfSome result (λ word. Self.answer (Self.Word.number word) ≡ hash)
    /// in_range: IfSome result (λ word. Self.Word.number word < Self.bound)
    /// none: IfNone result ((s : ℕ) → s < Self.bound → Self.answer s ≢ hash)
    /// ```
    fn unanswer(hash: u64) -> Option<Self::Word>;
}

/// The rule with a step per byte that a plain rule is: the number after a text is the recurrence of the step.
pub struct Plain<R> {
    rule: PhantomData<R>,
}

impl<R: PlainRule> StepRule for Plain<R> {
    type State = R::Word;

    #[inline(always)]
    fn start() -> R::Word {
        R::start()
    }

    #[inline(always)]
    fn fork(state: &R::Word) -> R::Word {
        *state
    }

    #[inline(always)]
    fn step(state: &mut R::Word, byte: u8) {
        *state = R::step(*state, byte);
    }
}

impl<R: PlainRule> ByteRule for Plain<R> {
    #[inline(always)]
    fn write(state: &mut R::Word, bytes: &[u8]) {
        if R::ALONE {
            alone_or_in_eights::<Plain<R>>(state, bytes);
        } else {
            in_eights::<Plain<R>>(state, bytes);
        }
    }

    #[inline(always)]
    fn answer(state: &R::Word) -> u64 {
        R::answer(*state)
    }

    #[inline(always)]
    fn whole(text: &[u8]) -> u64 {
        whole_text::<R>(text)
    }
}

impl<R: PlainUndo> UndoRule for Plain<R> {
    #[inline(always)]
    fn unstep(state: &mut R::Word, byte: u8) {
        *state = R::unstep(*state, byte);
    }

    #[inline(always)]
    fn unanswer(hash: u64) -> Option<R::Word> {
        R::unanswer(hash)
    }
}
