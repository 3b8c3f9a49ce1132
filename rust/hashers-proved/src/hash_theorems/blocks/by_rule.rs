//! What follows for all block-based hashes that lose nothing.

// What follows is the proved text of crates/hash_theorems/src/blocks/by_rule.rt without its contracts.
use crate::{hash_blocks, hash_laws};

use crate::hash_theorems::blocks::block_undo::BlockUndo;
use hash_blocks::blocks_in;
use hash_laws::traits::bytes_are_a_text;
use hash_laws::windows::window::differ_in_one_block;

/// Whether the texts have one length and differ, but only within one block of `N` bytes, or after the whole blocks. If so,
/// their hashes differ under every seed. Computes no hash.
///
/// Proved:
///
/// ```text
/// exactly: IsTrue result ↔ DifferInOneBlock N x.now y.now
/// differ: OnTrue result ((from : List ℕ) → R.is_seed from → R.hash from x.now ≢ R.hash from y.now)
/// ```
#[inline]
pub fn apart_by_rule<R: BlockUndo<N>, const N: usize>(x: &[u8], y: &[u8]) -> bool {
    differ_in_one_block::<N>(x, y)
}

// The state before the bytes from which they, at the end of a text of so many bytes, lead to a hash: what is left behind the
// whole blocks is taken back first, and then the blocks, from the last to the first.
/// Proved:
///
/// ```text
/// result ≡ blocks_before N R.unblock (R.unfinish hash (tail N bytes.now) total) bytes.now
/// ```
#[inline]
fn blocks_out<R: BlockUndo<N>, const N: usize>(hash: R::Hash, bytes: &[u8], total: u64) -> R::State {
    let (whole, left) = bytes.as_chunks::<N>();
    let mut state = R::unfinish(hash, left, total);
    for block in whole.iter().rev() {
        R::unblock(&mut state, block);
    }
    state
}

/// The one block between a front of whole blocks and a back that gives a hash, under a seed.
///
/// The caller has to see to it that:
///
/// ```text
/// place: length front.now % N ≡ 0
/// fits: length front.now + N + length back.now < 2 ^ 64
/// ```
///
/// Proved:
///
/// ```text
/// leads: R.hash (R.numbers seed) (front.now ++ (result ++ back.now)) ≡ hash
/// alone: (block : List ℕ) → IsText block → length block ≡ N
///     → R.hash (R.numbers seed) (front.now ++ (block ++ back.now)) ≡ hash → block ≡ result
/// ```
#[inline]
pub fn block_for_by_rule<R: BlockUndo<N>, const N: usize>(
    seed: R::Seed,
    front: &[u8],
    back: &[u8],
    hash: R::Hash,
) -> [u8; N] {
    R::seed_in_range(seed);
    R::answer_in_range(hash);
    let mut from = R::start(seed);
    let _none = blocks_in::<R, N>(&mut from, front);
    let to = blocks_out::<R, N>(hash, back, (front.len() + N + back.len()) as u64);
    R::between(&from, &to)
}

/// Takes a block out again, whether or not it was taken in: the inverse of `block`, both ways.
///
/// The caller has to see to it that:
///
/// ```text
/// R.in_range state.old
/// ```
///
/// Proved:
///
/// ```text
/// back: R.block state.new bytes.now ≡ state.old
/// undone: (s : R.State) → R.in_range s → R.block s bytes.now ≡ state.old → state.new ≡ s
/// in_range: R.in_range state.new
/// ```
#[inline]
pub fn block_out<R: BlockUndo<N>, const N: usize>(state: &mut R::State, bytes: &[u8; N]) {
    bytes_are_a_text(bytes);
    R::unblock(state, bytes);
}

/// The one state that answers a hash, from the bytes that are left after the whole blocks and the length.
///
/// The caller has to see to it that:
///
/// ```text
/// length left.now < N
/// ```
///
/// Proved:
///
/// ```text
/// back: R.finish result left.now total ≡ hash
/// alone: (s : R.State) → R.in_range s → R.finish s left.now total ≡ hash → s ≡ result
/// in_range: R.in_range result
/// ```
#[inline]
pub fn state_behind<R: BlockUndo<N>, const N: usize>(
    hash: R::Hash,
    left: &[u8],
    total: u64,
) -> R::State {
    R::answer_in_range(hash);
    R::unfinish(hash, left, total)
}
