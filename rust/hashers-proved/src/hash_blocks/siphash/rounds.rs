//! SipHash's round on four words of 64 bits, and what takes it back. All sums are modulo 2^64.

// What follows is the proved text of crates/hash_blocks/src/siphash/rounds.rt without its contracts.
use crate::hash_rounds;

use hash_rounds::rotl64;

/// One round: two halves.
///
/// Proved:
///
/// ```text
/// round: v.new ≡ apply 64 round_steps [] v.old
/// undone: apply 64 (undo 64 round_steps) [] v.new ≡ v.old
/// ```
#[inline(always)]
pub fn sip_round(v: &mut [u64; 4]) {
    half_round(v, 0, 1, 2, 3, 13, 16);
    half_round(v, 2, 1, 0, 3, 17, 21);
}

/// Takes a round back, on any four words.
///
/// Proved:
///
/// ```text
/// round: v.new ≡ apply 64 (undo 64 round_steps) [] v.old
/// undone: apply 64 round_steps [] v.new ≡ v.old
/// ```
#[inline(always)]
pub fn sip_unround(v: &mut [u64; 4]) {
    half_unround(v, 2, 1, 0, 3, 17, 21);
    half_unround(v, 0, 1, 2, 3, 13, 16);
}

/// The caller has to see to it that:
///
/// ```text
/// a_in: a < 4
/// b_in: b < 4
/// c_in: c < 4
/// d_in: d < 4
/// s_some: 0 < s
/// s_within: s < 64
/// t_some: 0 < t
/// t_within: t < 64
/// ```
///
/// Proved:
///
/// ```text
/// v.new ≡ apply 64 (half_round (a, b, c, d, s, t)) [] v.old
/// ```
#[inline(always)]
fn half_round(v: &mut [u64; 4], a: usize, b: usize, c: usize, d: usize, s: u32, t: u32) {
    v[a] = v[a].wrapping_add(v[b]);
    v[c] = v[c].wrapping_add(v[d]);
    v[b] = rotl64(v[b], s);
    v[b] ^= v[a];
    v[d] = rotl64(v[d], t);
    v[d] ^= v[c];
    v[a] = rotl64(v[a], 32);
}

/// The caller has to see to it that:
///
/// ```text
/// a_in: a < 4
/// b_in: b < 4
/// c_in: c < 4
/// d_in: d < 4
/// s_some: 0 < s
/// s_within: s < 64
/// t_some: 0 < t
/// t_within: t < 64
/// ```
///
/// Proved:
///
/// ```text
/// v.new ≡ apply 64 (undo 64 (half_round (a, b, c, d, s, t))) [] v.old
/// ```
#[inline(always)]
fn half_unround(v: &mut [u64; 4], a: usize, b: usize, c: usize, d: usize, s: u32, t: u32) {
    v[a] = rotl64(v[a], 32);
    v[d] ^= v[c];
    v[d] = rotl64(v[d], 64 - t);
    v[b] ^= v[a];
    v[b] = rotl64(v[b], 64 - s);
    v[c] = v[c].wrapping_sub(v[d]);
    v[a] = v[a].wrapping_sub(v[b]);
}

/// So many rounds.
///
/// Proved:
///
/// ```text
/// v.new ≡ rounds N v.old
/// ```
#[inline(always)]
pub(crate) fn sip_rounds<const N: usize>(v: &mut [u64; 4]) {
    for _turn in 0..N {
        sip_round(v);
    }
}

/// So many rounds taken back.
///
/// Proved:
///
/// ```text
/// v.new ≡ unrounds N v.old
/// ```
#[inline(always)]
fn sip_unrounds<const N: usize>(v: &mut [u64; 4]) {
    for _turn in 0..N {
        sip_unround(v);
    }
}

// The state before a word.
/// Proved:
///
/// ```text
/// v.new ≡ before_word C v.old word
/// ```
#[inline(always)]
fn word_out<const C: usize>(v: &mut [u64; 4], word: u64) {
    v[0] ^= word;
    sip_unrounds::<C>(v);
    v[3] ^= word;
}

/// Takes a word out of four words again, whether or not it was taken in by `C` rounds: the inverse of that, both ways.
///
/// Proved:
///
/// ```text
/// back: after_word C v.new word ≡ v.old
/// undone: (s : List ℕ) → AreFourWords s → after_word C s word ≡ v.old → v.new ≡ s
/// ```
#[inline]
pub fn sip_word_out<const C: usize>(v: &mut [u64; 4], word: u64) {
    word_out::<C>(v, word);
}
