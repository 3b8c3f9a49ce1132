//! lookup3, by Bob Jenkins (his lookup3.c): two words of 32 bits of a piece, from two words before it.

// What follows is the proved text of crates/hash_jenkins/src/lookup.rt without its contracts.
use crate::{hash_laws, hash_rounds, std};

use hash_laws::traits::{Piecewise, hash_of};
use hash_rounds::{le_four, lookup3_final, lookup3_mix};
use std::hash::Hasher;

// Adds three words.
/// Proved:
///
/// ```text
/// s.new ≡ add_words s.old words
/// ```
#[inline(always)]
fn add_words(s: &mut [u32; 3], words: (u32, u32, u32)) {
    s[0] = s[0].wrapping_add(words.0);
    s[1] = s[1].wrapping_add(words.1);
    s[2] = s[2].wrapping_add(words.2);
}

// The words of a block.
/// Proved:
///
/// ```text
/// result ≡ block_words block.now
/// ```
#[inline(always)]
fn block_words(block: &[u8; 12]) -> (u32, u32, u32) {
    let (words, _) = block.as_chunks::<4>();
    (le_four(&words[0]), le_four(&words[1]), le_four(&words[2]))
}

// The little-endian value of fewer than four bytes.
/// The caller has to see to it that:
///
/// ```text
/// length bytes.now < 4
/// ```
///
/// Proved:
///
/// ```text
/// result ≡ le bytes.now
/// ```
#[inline(always)]
fn le_few(bytes: &[u8]) -> u32 {
    match bytes {
        [] => 0,
        [a] => u32::from(*a),
        [a, b] => u32::from(*a) + u32::from(*b) * 256,
        [a, b, c, ..] => u32::from(*a) + u32::from(*b) * 256 + u32::from(*c) * 65536,
    }
}

// The words before a piece of this length.
/// Proved:
///
/// ```text
/// result ≡ start pc pb len
/// ```
#[inline(always)]
fn start(pc: u32, pb: u32, len: usize) -> [u32; 3] {
    let low = (len as u64 % 4294967296) as u32;
    let first = 0xdeadbeefu32.wrapping_add(low).wrapping_add(pc);
    [first, first, first.wrapping_add(pb)]
}

// Adds the words of what is left after the whole blocks, and zeros behind it.
/// The caller has to see to it that:
///
/// ```text
/// length rest.now < 12
/// ```
///
/// Proved:
///
/// ```text
/// s.new ≡ add_block s.old (zero_filled 12 rest.now)
/// ```
#[inline(always)]
fn add_rest(s: &mut [u32; 3], rest: &[u8]) {
    match rest.split_first_chunk::<4>() {
        None => add_words(s, (le_few(rest), 0, 0)),
        Some((a, more)) => match more.split_first_chunk::<4>() {
            None => add_words(s, (le_four(a), le_few(more), 0)),
            Some((b, last)) => add_words(s, (le_four(a), le_four(b), le_few(last))),
        },
    }
}

// The three words after a piece that has some bytes. Less than a block goes a way of its own, with no loop on it, and
// no length is divided, which takes as long as half a mixing.
/// Proved:
///
/// ```text
/// result ≡ lookup3_words pc pb piece.now
/// ```
#[inline(always)]
fn lookup3_words(pc: u32, pb: u32, piece: &[u8]) -> [u32; 3] {
    let mut s = start(pc, pb, piece.len());
    if piece.len() < 12 {
        add_rest(&mut s, piece);
    } else {
        let mut rest = piece;
        while let Some((block, more)) = rest.split_first_chunk::<12>() {
            add_words(&mut s, block_words(block));
            lookup3_mix(&mut s);
            rest = more;
        }
        add_rest(&mut s, rest);
    }
    lookup3_final(&mut s);
    s
}

/// Bob Jenkins' lookup3 (his lookup3.c, `hashlittle2`: burtleburtle.net/bob/c/lookup3.c).
///
/// A write of some bytes is one run: three words of 32 bits start from 0xdeadbeef, the length and the two words of the run
/// before. Whole blocks of 12 bytes are added and mixed; what is left, filled with zeros, is added and goes through the last
/// mixing. A write of no bytes changes nothing. `finish` returns `pc + 2^32 * pb`. Each run seeds the next, so the
/// result may depend on the split, and no write can be undone.
///
/// Contracts see the hasher as the two words (pc, pb), each below 2^32, which start at (0, 0): `write` gives
/// `h.new ≡ lookup3_from h.old bytes.now`. Of `a` the hash is 6351843130003064584.
pub struct Lookup3Hasher {
    pc: u32,
    pb: u32,
}

impl Lookup3Hasher {
    /// The hasher that stands at these two words, as after the pieces whose hash is pc + 2^32 * pb.
    ///
    /// Proved:
    ///
    /// ```text
    /// result ≡ (pc, pb)
    /// ```
    #[inline(always)]
    pub fn new(pc: u32, pb: u32) -> Lookup3Hasher {
        Lookup3Hasher { pc, pb }
    }

    /// The three words that a piece of some bytes ends in: the third word, which the answer leaves out, and then the
    /// two that `write` keeps, the higher one first. (Of no bytes they are those of a run that `write` does not
    /// make.)
    ///
    /// Proved:
    ///
    /// ```text
    /// words: result ≡ lookup3_words self.now.0 self.now.1 piece.now
    /// kept: piece.now ≢ []
    ///     → lookup3_from self.now piece.now ≡ (slice_index result 2, slice_index result 1)
    /// ```
    #[inline]
    pub fn piece_words(&self, piece: &[u8]) -> [u32; 3] {
        lookup3_words(self.pc, self.pb, piece)
    }

    /// The three words from which a run over a piece of so many bytes starts here: 0xdeadbeef, the length modulo 2^32 and pc in all
    /// three, and pb in the third.
    ///
    /// Proved:
    ///
    /// ```text
    /// result ≡ start self.now.0 self.now.1 len
    /// ```
    #[inline(always)]
    pub fn start_words(&self, len: usize) -> [u32; 3] {
        start(self.pc, self.pb, len)
    }
}

impl Default for Lookup3Hasher {
    /// The hasher of no pieces: both words are 0.
    #[inline]
    fn default() -> Lookup3Hasher {
        Lookup3Hasher::new(0, 0)
    }
}

impl Hasher for Lookup3Hasher {
    /// Both words: pc + 2^32 * pb.
    ///
    /// Proved:
    ///
    /// ```text
    /// value: result ≡ lookup3_answer self.now
    /// in_range: AreTwoWords self.now
    /// ```
    #[inline(always)]
    fn finish(&self) -> u64 {
        u64::from(self.pc) + u64::from(self.pb) * 4294967296
    }

    /// One run over the bytes; no bytes change nothing. The three words of the run begin with the length and the two words
    /// so far, take each whole block of twelve bytes in and mix, take what is left in, filled with zeros, and mix for the
    /// last time; two of them are kept.
    ///
    /// Proved:
    ///
    /// ```text
    /// state: self.new ≡ lookup3_from self.old bytes.now
    /// in_range_before: AreTwoWords self.old
    /// in_range_after: AreTwoWords self.new
    /// ```
    #[inline(always)]
    fn write(&mut self, bytes: &[u8]) {
        let pc = self.pc;
        let pb = self.pb;
        if !bytes.is_empty() {
            let words = lookup3_words(pc, pb, bytes);
            self.pc = words[2];
            self.pb = words[1];
        }
    }
}

impl Piecewise for Lookup3Hasher {
    #[inline(always)]
    fn state_in_range(&self) {
        let _pc = self.pc;
        let _pb = self.pb;
    }

    #[inline(always)]
    fn whole(text: &[u8]) -> u64 {
        let mut hasher = Lookup3Hasher::default();
        hasher.write(text);
        hasher.finish()
    }

    #[inline(always)]
    fn fork(&self) -> Lookup3Hasher {
        Lookup3Hasher {
            pc: self.pc,
            pb: self.pb,
        }
    }
}

/// lookup3 of the bytes in one piece, from the words 0 and 0.
///
/// Proved:
///
/// ```text
/// result ≡ lookup3_of bytes.now
/// ```
#[inline]
pub fn lookup3(bytes: &[u8]) -> u64 {
    hash_of::<Lookup3Hasher>(bytes)
}
