//! Laws of the fx hashes, and where one word tells two lists of pieces apart.

// What follows is the proved text of crates/hash_theorems/src/fx/pieces.rt without its contracts.
use crate::hash_fx;

use crate::hash_theorems::fx::differing::FxDiffering;
use hash_fx::pieces::same_cuts;
pub use hash_fx::pieces::{apart_by_one_fx, run_words, run_words32, run_words64};

/// Whether the two lists have as many pieces, of the same lengths one by one, and exactly one word of all differs.
///
/// Proved:
///
/// ```text
/// exactly: IsTrue result ↔ DifferByOneWord W.words x.now y.now
/// first: OnTrue result (All IsText (texts x.now))
/// second: OnTrue result (All IsText (texts y.now))
/// ```
#[inline]
fn apart_by_one_word<W: FxDiffering>(x: &[&[u8]], y: &[&[u8]]) -> bool {
    if !same_cuts(x, y) {
        return false;
    }
    let mut apart = 0;
    for i in 0..x.len() {
        let more = W::differing(x[i], y[i]);
        if more > 1 - apart {
            return false;
        }
        apart += more;
    }
    apart == 1
}

/// Whether the two lists have as many pieces, of the same lengths one by one, and exactly one word of 64 bits of all differs: up
/// to eight adjacent bytes, from a place in their piece that eight divides. If so, both types of 64 bits answer
/// differently to the two lists, from their defaults. Computes no hash.
///
/// Proved:
///
/// ```text
/// exactly: IsTrue result ↔ DifferByOneWord words64 x.now y.now
/// differ: OnTrue result (fx64_pieces 0 (texts x.now) ≢ fx64_pieces 0 (texts y.now))
/// ```
#[inline]
pub fn apart_by_one_word_fx64(x: &[&[u8]], y: &[&[u8]]) -> bool {
    apart_by_one_word::<u64>(x, y)
}

/// The same by words of 32 bits, up to four adjacent bytes: `FxHasher32` answers differently.
///
/// Proved:
///
/// ```text
/// exactly: IsTrue result ↔ DifferByOneWord words32 x.now y.now
/// differ: OnTrue result (fx32_pieces 0 (texts x.now) ≢ fx32_pieces 0 (texts y.now))
/// ```
#[inline]
pub fn apart_by_one_word_fx32(x: &[&[u8]], y: &[&[u8]]) -> bool {
    apart_by_one_word::<u32>(x, y)
}
