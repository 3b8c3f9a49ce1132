//! The stretch of a text below 192 bytes that leads SpookyHash to the words that are wanted.

// What follows is the proved text of crates/hash_theorems/src/jenkins/stretch.rt without its contracts.
use crate::{hash_jenkins, hash_rounds};

use hash_jenkins::spooky_short::{LONG, add_chunks, zero_filled};
use hash_rounds::{le_words, put, put_array, un_short_end, un_short_mix};

// Takes a chunk's words out again.
/// Proved:
///
/// ```text
/// add_chunk h.new w.now ≡ h.old
/// ```
#[inline]
fn un_add_chunk(h: &mut [u64; 4], w: &[u64; 4]) {
    h[0] = h[0].wrapping_sub(w[2]);
    h[1] = h[1].wrapping_sub(w[3]);
    un_short_mix(h);
    h[2] = h[2].wrapping_sub(w[0]);
    h[3] = h[3].wrapping_sub(w[1]);
}

// Takes the last mix and the length back, which are the end of a text of so many bytes.
/// The caller has to see to it that:
///
/// ```text
/// len < 192
/// ```
///
/// Proved:
///
/// ```text
/// short_end (add_at h.new 3 (len * 2 ^ 56)) ≡ h.old
/// ```
#[inline]
fn un_end(h: &mut [u64; 4], len: usize) {
    un_short_end(h);
    h[3] = h[3].wrapping_sub((len as u64) << 56);
}

// Takes the chunks of a text out again, from the last to the first.
/// Proved:
///
/// ```text
/// chunks_from h.new text.now ≡ h.old
/// ```
#[inline]
fn un_add_chunks(h: &mut [u64; 4], text: &[u8]) {
    let (chunks, _) = text.as_chunks::<32>();
    for chunk in chunks.iter().rev() {
        un_add_chunk(h, &le_words(chunk));
    }
}

// The bytes of what is missing from four words to four others.
/// Proved:
///
/// ```text
/// bytes: result ≡ stretch_of (missing from.now to.now)
/// words: (i : ℕ) → slice_index to.now i < 2 ^ 64
/// ```
#[inline]
fn missing(from: &[u64; 4], to: &[u64; 4]) -> [u8; 32] {
    let mut stretch = [0; 32];
    put_array(&mut stretch, 0, to[0].wrapping_sub(from[0]).to_le_bytes());
    put_array(&mut stretch, 8, to[1].wrapping_sub(from[1]).to_le_bytes());
    put_array(&mut stretch, 16, to[2].wrapping_sub(from[2]).to_le_bytes());
    put_array(&mut stretch, 24, to[3].wrapping_sub(from[3]).to_le_bytes());
    stretch
}

/// The one stretch of 32 bytes between a front and a back that leads SpookyHash, under two seeds, to four words, of
/// which the first two are the hash. It is what is added between two mixes: the front has 16, 48, 80, 112 or 144
/// bytes, and the whole has less than 192.
///
/// From the words the last mix, the length and the chunks after it are undone, up to the stretch. What is then
/// missing is the stretch.
///
/// The caller has to see to it that:
///
/// ```text
/// place: length front.now % 32 ≡ 16
/// few: length front.now + length back.now < 160
/// ```
///
/// Proved:
///
/// ```text
/// leads: short_words seed1 seed2 (front.now ++ (result ++ back.now)) ≡ words
/// alone: (stretch : List ℕ) → IsText stretch → length stretch ≡ 32
///     → short_words seed1 seed2 (front.now ++ (stretch ++ back.now)) ≡ words → stretch ≡ result
/// ```
#[inline]
pub fn stretch_for(seed1: u64, seed2: u64, front: &[u8], back: &[u8], words: [u64; 4]) -> [u8; 32] {
    let at = front.len();
    let before: [u8; LONG] = zero_filled(front);
    let from = add_chunks(seed1, seed2, &before[..at + 16]);
    let mut behind = [0; LONG];
    put(&mut behind, 16, back);
    let mut to = words;
    un_end(&mut to, at + 32 + back.len());
    un_add_chunks(&mut to, &behind[..176 - at]);
    missing(&from, &to)
}
