//! Laws of lookup3 and of SpookyHash alone.

// What follows is the proved text of crates/hash_theorems/src/jenkins/two_texts.rt without its contracts.
use crate::{hash_jenkins, hash_laws};

use hash_jenkins::Lookup3Hasher;
pub use hash_jenkins::apart_by_zeros;
use hash_jenkins::spooky_short::LONG;
use hash_laws::traits::Piecewise;
use hash_laws::windows::window;
use hash_laws::windows::window::{agree_from, first_difference};

/// Feeds the pieces to both hashers, in order. Where their answers were equal before, they are equal afterwards: what
/// `finish` returns is the whole state.
///
/// Proved:
///
/// ```text
/// first: a.new ≡ fold lookup3_from a.old (texts pieces.now)
/// second: b.new ≡ fold lookup3_from b.old (texts pieces.now)
/// alike: lookup3_answer a.old ≡ lookup3_answer b.old
///     → lookup3_answer a.new ≡ lookup3_answer b.new
/// ```
#[inline]
pub fn same_answers_later(a: &mut Lookup3Hasher, b: &mut Lookup3Hasher, pieces: &[&[u8]]) {
    for piece in pieces {
        a.feed(piece);
        b.feed(piece);
    }
}

/// Whether the texts have one length and differ, but only within one of lookup3's blocks of twelve bytes. What then differs,
/// `one_changed_block_shows` says.
///
/// Proved:
///
/// ```text
/// IsTrue result ↔ DifferInOneBlock 12 x.now y.now
/// ```
#[inline]
pub fn differ_in_one_block(x: &[u8], y: &[u8]) -> bool {
    window::differ_in_one_block::<12>(x, y)
}

/// Whether the texts have one length and differ, but only in what SpookyHash adds between two mixes below 192 bytes. What then
/// differs, `one_changed_stretch_shows` says.
///
/// Proved:
///
/// ```text
/// IsTrue result ↔ DifferInOneStretch x.now y.now
/// ```
#[inline]
pub fn differ_in_one_stretch(x: &[u8], y: &[u8]) -> bool {
    if x.len() != y.len() {
        return false;
    }
    match first_difference(x, y) {
        None => false,
        Some(from) => agree_from(x, y, (from + 16) / 32 * 32 + 16),
    }
}

/// Whether the texts have one length and differ, but only within one of lookup3's blocks of twelve bytes. If so,
/// they lead from any two words to other words a, b and c. Computes no hash.
///
/// Proved:
///
/// ```text
/// exactly: IsTrue result ↔ DifferInOneBlock 12 x.now y.now
/// differ: OnTrue result (HaveOtherThree x.now y.now)
/// ```
#[inline]
pub fn apart_by_block(x: &[u8], y: &[u8]) -> bool {
    differ_in_one_block(x, y)
}

/// Whether the texts are shorter than 192 bytes, have one length and differ, but only in what SpookyHash adds between
/// two mixes. If so, the four `short_words` of the two texts differ under all seeds. Computes no hash.
///
/// Proved:
///
/// ```text
/// exactly: IsTrue result ↔ ((length x.now < 192) × DifferInOneStretch x.now y.now)
/// differ: OnTrue result (HaveOtherWords x.now y.now)
/// ```
#[inline]
pub fn apart_by_stretch(x: &[u8], y: &[u8]) -> bool {
    x.len() < LONG && differ_in_one_stretch(x, y)
}
