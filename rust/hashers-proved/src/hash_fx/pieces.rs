//! Lists of pieces of fx: where the split does not matter, and where one byte does.

// What follows is the proved text of crates/hash_fx/src/pieces.rt without its contracts.
use crate::{hash_laws, std};

use crate::hash_fx::{FxHasher32, FxHasher64, WordHasher};
use hash_laws::windows::window::differ_at_one_place;
use std::hash::Hasher;

/// Writes the pieces in order. The state is that after one write of the joined bytes, since the length of each piece but
/// the last is a multiple of eight, so that no word is split. There may be no pieces at all. It takes either type
/// of 64 bits.
///
/// The caller has to see to it that:
///
/// ```text
/// AreWhole 8 pieces.now
/// ```
///
/// Proved:
///
/// ```text
/// h.new ≡ fx64 h.old (words64 (joined pieces.now))
/// ```
#[inline]
pub fn run_words<Name>(h: &mut WordHasher<u64, Name>, pieces: &[&[u8]]) {
    for piece in pieces {
        h.write(piece);
    }
}

/// The same as `run_words`, on `FxHasher64` alone.
///
/// The caller has to see to it that:
///
/// ```text
/// AreWhole 8 pieces.now
/// ```
///
/// Proved:
///
/// ```text
/// h.new ≡ fx64 h.old (words64 (joined pieces.now))
/// ```
#[inline]
pub fn run_words64(h: &mut FxHasher64, pieces: &[&[u8]]) {
    run_words(h, pieces)
}

/// The same on `FxHasher32`, where the lengths are multiples of four.
///
/// The caller has to see to it that:
///
/// ```text
/// AreWhole 4 pieces.now
/// ```
///
/// Proved:
///
/// ```text
/// h.new ≡ fx32 h.old (words32 (joined pieces.now))
/// ```
#[inline]
pub fn run_words32(h: &mut FxHasher32, pieces: &[&[u8]]) {
    for part in pieces {
        h.write(part);
    }
}

/// Whether two texts have the same length.
///
/// Proved:
///
/// ```text
/// exactly: IsTrue result ↔ (length x.now ≡ length y.now)
/// first: IsText x.now
/// second: IsText y.now
/// ```
#[inline]
fn same_length(x: &[u8], y: &[u8]) -> bool {
    x.len() == y.len()
}

/// Whether there are as many pieces, of the same lengths one by one.
///
/// Proved:
///
/// ```text
/// exactly: IsTrue result ↔ (map length (texts x.now) ≡ map length (texts y.now))
/// first: OnTrue result (All IsText (texts x.now))
/// second: OnTrue result (All IsText (texts y.now))
/// ```
#[inline]
pub fn same_cuts(x: &[&[u8]], y: &[&[u8]]) -> bool {
    if x.len() != y.len() {
        return false;
    }
    for i in 0..x.len() {
        if !same_length(x[i], y[i]) {
            return false;
        }
    }
    true
}

/// Whether the two lists have as many pieces, of the same lengths one by one, and exactly one byte of all differs. Where
/// so, all three types answer differently to the two lists, from their defaults. Computes no hash.
///
/// Proved:
///
/// ```text
/// exactly: IsTrue result ↔ DifferByOneByte x.now y.now
/// differ_64: OnTrue result (fx64_pieces 0 (texts x.now) ≢ fx64_pieces 0 (texts y.now))
/// differ_32: OnTrue result (fx32_pieces 0 (texts x.now) ≢ fx32_pieces 0 (texts y.now))
/// ```
#[inline]
pub fn apart_by_one_fx(x: &[&[u8]], y: &[&[u8]]) -> bool {
    if !same_cuts(x, y) {
        return false;
    }
    let mut apart = false;
    for i in 0..x.len() {
        if x[i] != y[i] {
            if apart || !differ_at_one_place(x[i], y[i]) {
                return false;
            }
            apart = true;
        }
    }
    apart
}
