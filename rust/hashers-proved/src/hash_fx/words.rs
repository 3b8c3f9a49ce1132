//! Words in and out of a state.

// What follows is the proved text of crates/hash_fx/src/words.rt without its contracts.
use crate::hash_words;

use crate::hash_fx::word::FxWord;
use hash_words::le64;

/// A word for each byte in.
///
/// Proved:
///
/// ```text
/// W.number result ≡ fold W.step (W.number state) bytes.now
/// ```
#[inline(always)]
fn bytes_in<W: FxWord>(state: W, bytes: &[u8]) -> W {
    let mut h = state;
    for byte in bytes {
        h = h.word_in(W::byte(*byte));
    }
    h
}

/// A word for each byte out again, from the last to the first.
///
/// Proved:
///
/// ```text
/// fold W.step (W.number result) bytes.now ≡ W.number state
/// ```
#[inline(always)]
fn bytes_out<W: FxWord>(state: W, bytes: &[u8]) -> W {
    let mut h = state.known();
    for byte in bytes.iter().rev() {
        h = h.word_out(W::byte(*byte));
    }
    h
}

/// A word for each four bytes in.
///
/// Proved:
///
/// ```text
/// W.number result ≡ fold W.step (W.number state) (map le fours.now)
/// ```
#[inline(always)]
fn fours_in<W: FxWord>(state: W, fours: &[[u8; 4]]) -> W {
    let mut h = state;
    for four in fours {
        h = h.word_in(W::four(four));
    }
    h
}

/// A word for each four bytes out again, from the last to the first.
///
/// Proved:
///
/// ```text
/// fold W.step (W.number result) (map le fours.now) ≡ W.number state
/// ```
#[inline(always)]
fn fours_out<W: FxWord>(state: W, fours: &[[u8; 4]]) -> W {
    let mut h = state.known();
    for four in fours.iter().rev() {
        h = h.word_out(W::four(four));
    }
    h
}

/// The words of a piece by 32 bits in.
///
/// Proved:
///
/// ```text
/// W.number result ≡ recurrence W.step (W.number state) (words32 piece.now)
/// ```
#[inline(always)]
pub fn fours_and_bytes_in<W: FxWord>(state: W, piece: &[u8]) -> W {
    let (fours, bytes) = piece.as_chunks::<4>();
    bytes_in(fours_in(state, fours), bytes)
}

/// The words of a piece by 32 bits out again, from the last to the first.
///
/// Proved:
///
/// ```text
/// recurrence W.step (W.number result) (words32 piece.now) ≡ W.number state
/// ```
#[inline(always)]
pub fn fours_and_bytes_out<W: FxWord>(state: W, piece: &[u8]) -> W {
    let (fours, bytes) = piece.as_chunks::<4>();
    fours_out(bytes_out(state, bytes), fours)
}

/// A word for each eight bytes in.
///
/// Proved:
///
/// ```text
/// result ≡ fold fx64_step state (map le eights.now)
/// ```
#[inline(always)]
pub fn eights_in(state: u64, eights: &[[u8; 8]]) -> u64 {
    let mut h = state;
    for eight in eights {
        h = h.word_in(le64(eight));
    }
    h
}

/// A word for each eight bytes out again, from the last to the first.
///
/// Proved:
///
/// ```text
/// fold fx64_step result (map le eights.now) ≡ state
/// ```
#[inline(always)]
pub fn eights_out(state: u64, eights: &[[u8; 8]]) -> u64 {
    let mut h = state;
    for eight in eights.iter().rev() {
        h = h.word_out(le64(eight));
    }
    h
}
