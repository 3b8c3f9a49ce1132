//! A word of fx, and what depends on its width.

// What follows is the proved text of crates/hash_fx/src/word.rt without its contracts.
use crate::{hash_laws, hash_words};

use crate::hash_fx::words::{eights_in, eights_out, fours_and_bytes_in, fours_and_bytes_out};
use hash_laws::rules::Word;
use hash_words::{le_four, rotl32, rotl64};

/// A word of fx: a state, or what takes a state one step.
pub trait FxWord: Word {
    /// The word itself, of which generic code learns here that it is in range.
    ///
    /// Proved:
    ///
    /// ```text
    /// same: result ≡ self
    /// in_range: Self.number self < 2 ^ bits
    /// ```
    fn known(self) -> Self;

    /// One word in: the state turned by five bits, the word xored in, times the key of the width.
    ///
    /// Proved:
    ///
    /// ```text
    /// Self.number result ≡ step (Self.number self) (Self.number word)
    /// ```
    fn word_in(self, word: Self) -> Self;

    /// One word out again: times what undoes the key, the word xored out, turned back.
    ///
    /// Proved:
    ///
    /// ```text
    /// back: step (Self.number result) (Self.number word) ≡ Self.number self
    /// in_range: Self.number result < 2 ^ bits
    /// ```
    fn word_out(self, word: Self) -> Self;

    /// The one word that takes the state to another: times what undoes the key, and the turned state xored out.
    ///
    /// Proved:
    ///
    /// ```text
    /// step (Self.number self) (Self.number result) ≡ Self.number to
    /// ```
    fn word_to(self, to: Self) -> Self;

    /// A byte as a word.
    ///
    /// Proved:
    ///
    /// ```text
    /// Self.number result ≡ byte
    /// ```
    fn byte(byte: u8) -> Self;

    /// Four bytes as a word, the lowest first.
    ///
    /// Proved:
    ///
    /// ```text
    /// Self.number result ≡ le bytes.now
    /// ```
    fn four(bytes: &[u8; 4]) -> Self;

    /// The word, widened.
    ///
    /// Proved:
    ///
    /// ```text
    /// result ≡ Self.number self
    /// ```
    fn widened(self) -> u64;

    /// The word that is so when widened, or `None` exactly where there is none.
    ///
    /// Proved:
    ///
    /// ```text
    /// exact: IsSome result ↔ (hash < 2 ^ bits)
    /// some: IfSome result (λ s. Self.number s ≡ hash)
    /// ```
    fn narrowed(hash: u64) -> Option<Self>;
}

/// How a piece is split into words of one width.
pub trait FxSplit: FxWord {
    /// The words of a piece in.
    ///
    /// Proved:
    ///
    /// ```text
    /// Self.number result ≡ recurrence Self.step (Self.number self) (words piece.now)
    /// ```
    fn words_in(self, piece: &[u8]) -> Self;

    /// The answer to a whole text.
    ///
    /// Proved:
    ///
    /// ```text
    /// result ≡ recurrence Self.step 0 (words text.now)
    /// ```
    fn whole(text: &[u8]) -> u64;

    /// The words of a piece out again, from the last to the first.
    ///
    /// Proved:
    ///
    /// ```text
    /// recurrence Self.step (Self.number result) (words piece.now) ≡ Self.number self
    /// ```
    fn words_out(self, piece: &[u8]) -> Self;
}

impl FxWord for u32 {
    #[inline(always)]
    fn known(self) -> u32 {
        self
    }

    #[inline(always)]
    fn word_in(self, word: u32) -> u32 {
        (rotl32(self, 5) ^ word).wrapping_mul(0x27220a95)
    }

    #[inline(always)]
    fn word_out(self, word: u32) -> u32 {
        rotl32(self.wrapping_mul(0x780970bd) ^ word, 27)
    }

    #[inline(always)]
    fn word_to(self, to: u32) -> u32 {
        to.wrapping_mul(0x780970bd) ^ rotl32(self, 5)
    }

    #[inline(always)]
    fn byte(byte: u8) -> u32 {
        u32::from(byte)
    }

    #[inline(always)]
    fn four(bytes: &[u8; 4]) -> u32 {
        le_four(bytes)
    }

    #[inline(always)]
    fn widened(self) -> u64 {
        u64::from(self)
    }

    #[inline]
    fn narrowed(hash: u64) -> Option<u32> {
        u32::try_from(hash).ok()
    }
}

impl FxWord for u64 {
    #[inline(always)]
    fn known(self) -> u64 {
        self
    }

    #[inline(always)]
    fn word_in(self, word: u64) -> u64 {
        (rotl64(self, 5) ^ word).wrapping_mul(0x517cc1b727220a95)
    }

    #[inline(always)]
    fn word_out(self, word: u64) -> u64 {
        rotl64(self.wrapping_mul(0x2040003d780970bd) ^ word, 59)
    }

    #[inline(always)]
    fn word_to(self, to: u64) -> u64 {
        to.wrapping_mul(0x2040003d780970bd) ^ rotl64(self, 5)
    }

    #[inline(always)]
    fn byte(byte: u8) -> u64 {
        u64::from(byte)
    }

    #[inline(always)]
    fn four(bytes: &[u8; 4]) -> u64 {
        u64::from(le_four(bytes))
    }

    #[inline(always)]
    fn widened(self) -> u64 {
        self
    }

    #[inline]
    fn narrowed(hash: u64) -> Option<u64> {
        Some(hash)
    }
}

impl FxSplit for u32 {
    #[inline(always)]
    fn words_in(self, piece: &[u8]) -> u32 {
        fours_and_bytes_in(self, piece)
    }

    #[inline(always)]
    fn whole(text: &[u8]) -> u64 {
        u64::from(fours_and_bytes_in(0u32, text))
    }

    #[inline(always)]
    fn words_out(self, piece: &[u8]) -> u32 {
        fours_and_bytes_out(self, piece)
    }
}

impl FxSplit for u64 {
    #[inline(always)]
    fn words_in(self, piece: &[u8]) -> u64 {
        let (eights, rest) = piece.as_chunks::<8>();
        fours_and_bytes_in(eights_in(self, eights), rest)
    }

    /// Whole words alone have a way of their own, with nothing else on it.
    #[inline(always)]
    fn whole(text: &[u8]) -> u64 {
        let (eights, rest) = text.as_chunks::<8>();
        let state = eights_in(0, eights);
        if rest.is_empty() {
            state
        } else {
            fours_and_bytes_in(state, rest)
        }
    }

    #[inline(always)]
    fn words_out(self, piece: &[u8]) -> u64 {
        let (eights, rest) = piece.as_chunks::<8>();
        eights_out(fours_and_bytes_out(self, rest), eights)
    }
}
