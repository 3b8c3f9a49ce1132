//! What a hasher of SpookyHash keeps, in the open: for a caller that must keep it itself, as a program in C.

// What follows is the proved text of crates/hash_jenkins/src/spooky_parts.rt without its contracts.
use crate::hash_rounds;

use crate::hash_jenkins::spooky_long::{BLOCK, long_words, mix_blocks};
use crate::hash_jenkins::spooky_short::{FILL, LONG, short_words, short_words_v1};
use hash_rounds::{Turns, put};

/// The numbers that a [`SpookyHasher`](crate::hash_jenkins::spooky_hash::SpookyHasher) keeps. They may be copied:
/// each copy goes on by itself.
///
/// The parts of a text come from `new` and go on by `write`: contracts call such parts settled, and see their position. Of other
/// numbers nothing is promised but that the calls are safe. Each call asks that what is kept fits the buffer, which
/// `fits_buffer` tests.
#[repr(C)]
#[derive(Clone, Copy)]
pub struct SpookyParts {
    pub buffer: [u8; 192],
    pub words: [u64; 12],
    pub kept: usize,
    pub length: usize,
}

impl SpookyParts {
    /// The parts of no bytes, under two seeds.
    ///
    /// Proved:
    ///
    /// ```text
    /// position: position_of result ≡ position seed1 seed2 []
    /// settled: IsSettled result
    /// ```
    #[inline]
    pub fn new(seed1: u64, seed2: u64) -> SpookyParts {
        SpookyParts {
            buffer: [0; LONG],
            words: [
                seed1, seed2, FILL, seed1, seed2, FILL, seed1, seed2, FILL, seed1, seed2, FILL,
            ],
            kept: 0,
            length: 0,
        }
    }

    /// Whether what is kept fits the buffer, as the other calls ask: all bytes below 192, less than a block of 96 from then on.
    ///
    /// Proved:
    ///
    /// ```text
    /// IsTrue result ↔ FitsBuffer self.now
    /// ```
    #[inline(always)]
    pub fn fits_buffer(&self) -> bool {
        if self.length < LONG {
            self.kept == self.length
        } else {
            self.kept < BLOCK
        }
    }

    /// Goes on over the bytes, as a hasher's `write` does.
    ///
    /// The caller has to see to it that:
    ///
    /// ```text
    /// FitsBuffer self.old
    /// ```
    ///
    /// Proved:
    ///
    /// ```text
    /// position: IsSettled self.old → position_of self.new ≡ after (position_of self.old) bytes.now
    /// settled: IsSettled self.old → IsSettled self.new
    /// ```
    #[inline(always)]
    pub fn write(&mut self, bytes: &[u8]) {
        self.write_counted(bytes, &mut Turns::new());
    }

    // The same, where a counter is charged with the calls that mix blocks.
    /// The caller has to see to it that:
    ///
    /// ```text
    /// FitsBuffer self.old
    /// ```
    ///
    /// Proved:
    ///
    /// ```text
    /// position: IsSettled self.old → position_of self.new ≡ after (position_of self.old) bytes.now
    /// settled: IsSettled self.old → IsSettled self.new
    /// turns: IsSettled self.old
    ///     → turns.new ≡ turns.old + mixing_calls (position_of self.old) bytes.now
    /// ```
    #[inline(always)]
    pub(crate) fn write_counted(&mut self, bytes: &[u8], turns: &mut Turns) {
        self.length = self.length.saturating_add(bytes.len());
        if self.length < LONG {
            let end = self.kept + bytes.len();
            put(&mut self.buffer, self.kept, bytes);
            self.kept = end;
        } else {
            let words = &mut self.words;
            let buffer = &mut self.buffer;
            self.kept = mix_blocks(words, buffer, self.kept, bytes, turns);
        }
    }

    /// The hash of the bytes so far, as two words.
    ///
    /// The caller has to see to it that:
    ///
    /// ```text
    /// FitsBuffer self.now
    /// ```
    ///
    /// Proved:
    ///
    /// ```text
    /// IsSettled self.now → result ≡ hash (position_of self.now)
    /// ```
    #[inline]
    pub fn finish128(&self) -> (u64, u64) {
        if self.length < LONG {
            let h = short_words(self.words[0], self.words[1], &self.buffer, self.kept);
            (h[0], h[1])
        } else {
            let words = long_words(&self.words, &self.buffer[..self.kept]);
            (words[0], words[1])
        }
    }

    /// The hash of the bytes so far by version 1.
    ///
    /// The caller has to see to it that:
    ///
    /// ```text
    /// FitsBuffer self.now
    /// ```
    ///
    /// Proved:
    ///
    /// ```text
    /// IsSettled self.now → result ≡ hash_v1 (position_of self.now)
    /// ```
    #[inline]
    pub fn finish128_v1(&self) -> (u64, u64) {
        if self.length < LONG {
            let h = short_words_v1(self.words[0], self.words[1], &self.buffer, self.kept);
            (h[0], h[1])
        } else {
            let words = long_words(&self.words, &self.buffer[..self.kept]);
            (words[0], words[1])
        }
    }

    /// The four words that a text below 192 bytes ends in; `None` exactly from 192 bytes on.
    ///
    /// The caller has to see to it that:
    ///
    /// ```text
    /// FitsBuffer self.now
    /// ```
    ///
    /// Proved:
    ///
    /// ```text
    /// IsSettled self.now → result ≡ short_words_at (position_of self.now)
    /// ```
    #[inline]
    pub fn short_words(&self) -> Option<[u64; 4]> {
        if self.length < LONG {
            Some(short_words(self.words[0], self.words[1], &self.buffer, self.kept))
        } else {
            None
        }
    }

    /// The twelve words that a text of 192 bytes and more ends in; `None` exactly below 192 bytes.
    ///
    /// The caller has to see to it that:
    ///
    /// ```text
    /// FitsBuffer self.now
    /// ```
    ///
    /// Proved:
    ///
    /// ```text
    /// IsSettled self.now → result ≡ long_words_at (position_of self.now)
    /// ```
    #[inline]
    pub fn long_words(&self) -> Option<[u64; 12]> {
        if self.length < LONG {
            None
        } else {
            Some(long_words(&self.words, &self.buffer[..self.kept]))
        }
    }
}
