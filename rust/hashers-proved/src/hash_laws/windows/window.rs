//! Whether two texts differ within a few adjacent places, or one block, only.

// What follows is the proved text of crates/hash_laws/src/windows/window.rt without its contracts.

/// Whether the texts have one length and differ, but only within `places` adjacent places, and at every place
/// only in bits that are 0 in `mask`. A text shorter than `places` is one window.
///
/// Proved:
///
/// ```text
/// IsTrue result ↔ DifferWithin places mask x.now y.now
/// ```
#[inline]
pub fn is_window(x: &[u8], y: &[u8], places: usize, mask: u8) -> bool {
    if x.len() != y.len() || !agree_under(mask, x, y) {
        return false;
    }
    match first_difference(x, y) {
        None => false,
        Some(from) => x.len() - from <= places || x[from + places..] == y[from + places..],
    }
}

/// Whether the texts have one length and exactly one place differs.
///
/// Proved:
///
/// ```text
/// IsTrue result ↔ DifferAtOnePlace x.now y.now
/// ```
#[inline]
pub fn differ_at_one_place(x: &[u8], y: &[u8]) -> bool {
    is_window(x, y, 1, 0)
}

/// Whether the bytes of two texts of one length agree, at every place, in the bits of the mask.
///
/// The caller has to see to it that:
///
/// ```text
/// length x.now ≡ length y.now
/// ```
///
/// Proved:
///
/// ```text
/// IsTrue result ↔ AgreeUnder mask x.now y.now
/// ```
#[inline]
fn agree_under(mask: u8, x: &[u8], y: &[u8]) -> bool {
    x.iter().zip(y).all(|(a, b)| a & mask == b & mask)
}

/// The first place at which two texts of one length differ; `None` if they are equal.
///
/// The caller has to see to it that:
///
/// ```text
/// length x.now ≡ length y.now
/// ```
///
/// Proved:
///
/// ```text
/// none: IfNone result (x.now ≡ y.now)
/// some: IfSome result (λ i. IsFirstDifference i x.now y.now)
/// ```
#[inline]
pub fn first_difference(x: &[u8], y: &[u8]) -> Option<usize> {
    x.iter().zip(y).position(|(a, b)| a != b)
}

/// Whether two texts of one length agree from a place on.
///
/// The caller has to see to it that:
///
/// ```text
/// length x.now ≡ length y.now
/// ```
///
/// Proved:
///
/// ```text
/// IsTrue result ↔ AgreeFrom place x.now y.now
/// ```
#[inline]
pub fn agree_from(x: &[u8], y: &[u8], place: usize) -> bool {
    place >= x.len() || x[place..] == y[place..]
}

/// Whether the texts have one length and differ, but only within one block of `N` bytes, or after the whole blocks.
///
/// The caller has to see to it that:
///
/// ```text
/// 0 < N
/// ```
///
/// Proved:
///
/// ```text
/// IsTrue result ↔ DifferInOneBlock N x.now y.now
/// ```
#[inline]
pub fn differ_in_one_block<const N: usize>(x: &[u8], y: &[u8]) -> bool {
    const { assert!(0 < N) };
    if x.len() != y.len() {
        return false;
    }
    match first_difference(x, y) {
        None => false,
        Some(from) => {
            let behind = N - from % N;
            behind >= x.len() - from || agree_from(x, y, from + behind)
        }
    }
}
