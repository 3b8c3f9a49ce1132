//! Spooky's rounds over whole blocks of 96 bytes, straight from the caller's slice.

// What follows is the proved text of crates/hash_rounds/src/blocks.rt without its contracts.
use crate::hash_words;

use crate::hash_rounds::spooky::{spooky_mix, spooky_unmix};
use crate::hash_rounds::turns::Turns;
use hash_words::le_words;

/// Mixes the blocks of 96 bytes into a state by `spooky_mix`, from the first to the last, each as twelve
/// little-endian words. No bytes leave the state. 96 divides the number of bytes. The call counts one turn.
///
/// The caller has to see to it that:
///
/// ```text
/// length bytes.now % 96 ≡ 0
/// ```
///
/// Proved:
///
/// ```text
/// mixed: s.new ≡ spooky_blocks s.old bytes.now
/// undone: spooky_unblocks s.new bytes.now ≡ s.old
/// turn: t.new ≡ t.old + 1
/// ```
#[inline(always)]
pub fn spooky_blocks(bytes: &[u8], s: &mut [u64; 12], t: &mut Turns) {
    t.tick();
    let (blocks, _) = bytes.as_chunks::<96>();
    let mut words = *s;
    for block in blocks {
        spooky_mix(&le_words(block), &mut words);
    }
    *s = words;
}

/// Takes `spooky_blocks` of the same bytes back, on any state, from the last block to the first. 96 divides the
/// number of bytes.
///
/// The caller has to see to it that:
///
/// ```text
/// length bytes.now % 96 ≡ 0
/// ```
///
/// Proved:
///
/// ```text
/// round: s.new ≡ spooky_unblocks s.old bytes.now
/// undone: spooky_blocks s.new bytes.now ≡ s.old
/// ```
#[inline]
pub fn spooky_unblocks(bytes: &[u8], s: &mut [u64; 12]) {
    let (blocks, _) = bytes.as_chunks::<96>();
    for i in (0..blocks.len()).rev() {
        spooky_unmix(&le_words(&blocks[i]), s);
    }
}
