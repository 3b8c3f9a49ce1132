//! What a hasher of XXH3 keeps.

// What follows is the proved text of crates/hash_xxh3/src/parts.rt without its contracts.
use crate::{hash_laws, hash_words};

use crate::hash_xxh3::advance::{advance, begin_through};
use crate::hash_xxh3::long::{Lanes, START, end_kept};
use crate::hash_xxh3::secret::secret_of;
use crate::hash_xxh3::whole::of_kept;
use crate::hash_xxh3::wide::{wide_end_kept, wide_kept};
use hash_laws::traits::bytes_are_a_text;
use hash_words::put;

/// The numbers that a hasher keeps: of a text of at most 240 bytes the text, and of a longer one the eight words after a
/// stripe, and that stripe with the bytes after it, of which there is one at least.
#[derive(Clone, Copy)]
pub(crate) struct Xxh3Parts {
    pub seed: u64,
    pub lanes: Lanes,
    pub length: u64,
    pub long: bool,
    pub kept: usize,
    pub secret: [u8; 192],
    pub buffer: [u8; 256],
}

impl Xxh3Parts {
    /// No bytes, under a seed.
    ///
    /// Proved:
    ///
    /// ```text
    /// position: position_of result ≡ position seed []
    /// settled: IsSettled result
    /// ```
    #[inline(always)]
    pub(crate) fn new(seed: u64) -> Xxh3Parts {
        Xxh3Parts {
            seed,
            lanes: START,
            length: 0,
            long: false,
            kept: 0,
            secret: [0; 192],
            buffer: [0; 256],
        }
    }

    /// The parts that keep these numbers.
    ///
    /// The caller has to see to it that:
    ///
    /// ```text
    /// lanes: IsLanes lanes
    /// short: long ≡ false → kept < 241
    /// some: long ≡ true → 65 ≤ kept
    /// few: long ≡ true → kept ≤ 256
    /// ```
    ///
    /// Proved:
    ///
    /// ```text
    /// position: position_of result
    ///     ≡ (if long then advanced seed lanes length (take kept buffer) else Short seed (take kept buffer))
    /// settled: IsSettled result
    /// ```
    #[inline(always)]
    pub(crate) fn at(
        seed: u64,
        lanes: Lanes,
        length: u64,
        long: bool,
        kept: usize,
        buffer: [u8; 256],
    ) -> Xxh3Parts {
        bytes_are_a_text(&buffer);
        let secret = if long { secret_of(seed) } else { [0; 192] };
        Xxh3Parts {
            seed,
            lanes,
            length,
            long,
            kept,
            secret,
            buffer,
        }
    }

    // Goes on over the bytes that make a short text a long one.
    /// The caller has to see to it that:
    ///
    /// ```text
    /// settled: IsSettled self.old
    /// short: self.old.long ≡ false
    /// enough: 241 ≤ self.old.kept + length bytes.now
    /// ```
    ///
    /// Proved:
    ///
    /// ```text
    /// position: position_of self.new ≡ after (position_of self.old) bytes.now
    /// settled: IsSettled self.new
    /// ```
    #[inline]
    fn write_through(&mut self, bytes: &[u8]) {
        let kept = self.kept;
        self.secret = secret_of(self.seed);
        self.length = (kept as u64).wrapping_add(bytes.len() as u64);
        let lanes = &mut self.lanes;
        self.kept = begin_through(&self.secret, lanes, &mut self.buffer, kept, bytes);
        self.long = true;
    }

    /// Goes on over the bytes.
    ///
    /// The caller has to see to it that:
    ///
    /// ```text
    /// IsSettled self.old
    /// ```
    ///
    /// Proved:
    ///
    /// ```text
    /// position: position_of self.new ≡ after (position_of self.old) bytes.now
    /// settled: IsSettled self.new
    /// ```
    #[inline(always)]
    pub(crate) fn write(&mut self, bytes: &[u8]) {
        if self.long {
            self.length = self.length.wrapping_add(bytes.len() as u64);
            let lanes = &mut self.lanes;
            self.kept = advance(&self.secret, lanes, &mut self.buffer, self.kept, bytes);
        } else if self.kept + bytes.len() < 241 {
            put(&mut self.buffer, self.kept, bytes);
            self.kept += bytes.len();
        } else {
            self.write_through(bytes);
        }
    }

    /// The hash of the bytes so far.
    ///
    /// The caller has to see to it that:
    ///
    /// ```text
    /// IsSettled self.now
    /// ```
    ///
    /// Proved:
    ///
    /// ```text
    /// result ≡ hash (position_of self.now)
    /// ```
    #[inline(always)]
    pub(crate) fn finish(&self) -> u64 {
        let text = &self.buffer[..self.kept];
        if self.long {
            end_kept(&self.secret, &self.lanes, text, self.length)
        } else {
            of_kept(self.seed, text)
        }
    }

    /// The hash of 128 bits of the bytes so far.
    ///
    /// The caller has to see to it that:
    ///
    /// ```text
    /// IsSettled self.now
    /// ```
    ///
    /// Proved:
    ///
    /// ```text
    /// result ≡ wide_hash (position_of self.now)
    /// ```
    #[inline(always)]
    pub(crate) fn finish128(&self) -> (u64, u64) {
        let text = &self.buffer[..self.kept];
        if self.long {
            wide_end_kept(&self.secret, &self.lanes, text, self.length)
        } else {
            wide_kept(self.seed, text)
        }
    }
}
