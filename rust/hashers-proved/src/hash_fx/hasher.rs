//! The hasher of fx, over words of either width.

// What follows is the proved text of crates/hash_fx/src/hasher.rt without its contracts.
// Clauses name Word.
#![allow(unused_imports)]
use crate::{hash_laws, std};

use crate::hash_fx::word::{FxSplit, FxWord};
use hash_laws::rules::Word;
use hash_laws::traits::{Piecewise, Undo};
use std::hash::Hasher;
use std::marker::{PhantomData};

/// The hasher of fx over words of a width: each piece is split into words by itself, each word takes the state one step, and the
/// answer is the state. Contracts see the hasher as its state, a number below 2 to the power of the width. The second parameter
/// is a name alone: types of one width under different names are different types.
pub struct WordHasher<W: FxSplit, Name = W> {
    state: W,
    name: PhantomData<Name>,
}

impl<W: FxSplit, Name> Default for WordHasher<W, Name> {
    /// The hasher of no words.
    #[inline]
    fn default() -> WordHasher<W, Name> {
        WordHasher {
            state: W::byte(0),
            name: PhantomData,
        }
    }
}

impl<W: FxSplit, Name> Hasher for WordHasher<W, Name> {
    /// The state, widened.
    ///
    /// Proved:
    ///
    /// ```text
    /// value: result ≡ W.number self.now
    /// in_range: W.number self.now < 2 ^ W.bits
    /// ```
    #[inline(always)]
    fn finish(&self) -> u64 {
        self.state.widened()
    }

    /// Takes the words of the piece in. Each write is split by itself.
    ///
    /// Proved:
    ///
    /// ```text
    /// value: self.new ≡ W.word_of (recurrence W.step (W.number self.old) (W.words piece.now))
    /// state: W.number self.new ≡ recurrence W.step (W.number self.old) (W.words piece.now)
    /// in_range_before: W.number self.old < 2 ^ W.bits
    /// in_range_after: W.number self.new < 2 ^ W.bits
    /// ```
    #[inline(always)]
    fn write(&mut self, piece: &[u8]) {
        self.state = self.state.words_in(piece).known();
    }
}

impl<W: FxSplit, Name> Piecewise for WordHasher<W, Name> {
    #[inline(always)]
    fn state_in_range(&self) {
        let _state = &self.state;
    }

    #[inline(always)]
    fn whole(text: &[u8]) -> u64 {
        W::whole(text)
    }

    #[inline(always)]
    fn fork(&self) -> WordHasher<W, Name> {
        WordHasher {
            state: self.state,
            name: PhantomData,
        }
    }
}

impl<W: FxSplit, Name> Undo for WordHasher<W, Name> {
    /// Takes the words of the piece out, from the last to the first.
    #[inline(always)]
    fn unwrite(&mut self, piece: &[u8]) {
        self.state = self.state.words_out(piece).known();
    }

    #[inline]
    fn unfinish(answer: u64) -> Option<WordHasher<W, Name>> {
        let state = W::narrowed(answer)?;
        Some(WordHasher {
            state,
            name: PhantomData,
        })
    }
}

impl<W: FxSplit, Name> WordHasher<W, Name> {
    /// Takes one word out again: the inverse of the write of a number of the width, both ways, on every state.
    ///
    /// Proved:
    ///
    /// ```text
    /// back: W.step (W.number self.new) (W.number word) ≡ W.number self.old
    /// undone: (s : ℕ) → s < 2 ^ W.bits
    ///     → W.step s (W.number word) ≡ W.number self.old → W.number self.new ≡ s
    /// in_range_before: W.number self.old < 2 ^ W.bits
    /// in_range_after: W.number self.new < 2 ^ W.bits
    /// ```
    #[inline(always)]
    pub fn unwrite_word(&mut self, word: W) {
        self.state = self.state.word_out(word.known());
    }

    /// The one word whose write leads from here to the answer: the write of a number of the width.
    ///
    /// Proved:
    ///
    /// ```text
    /// leads: W.step (W.number self.now) (W.number result) ≡ W.number answer
    /// alone: (word : ℕ) → word < 2 ^ W.bits
    ///     → W.step (W.number self.now) word ≡ W.number answer → word ≡ W.number result
    /// in_range: W.number result < 2 ^ W.bits
    /// ```
    #[inline(always)]
    pub fn word_for(&self, answer: W) -> W {
        self.state.word_to(answer).known()
    }
}
