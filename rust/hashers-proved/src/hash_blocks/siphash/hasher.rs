//! SipHash-c-d.

// What follows is the proved text of crates/hash_blocks/src/siphash/hasher.rt without its contracts.
use crate::hash_rounds;

use crate::hash_blocks::siphash::rounds::sip_rounds;
use crate::hash_blocks::{BlockHasher, BlockRule, le_seven};
use hash_rounds::le64;

/// A key of 128 bits, as two words: the little-endian values of its first and its last eight bytes.
#[derive(Clone, Copy)]
pub struct SipKey {
    pub k0: u64,
    pub k1: u64,
}

// What is kept of no blocks.
/// Proved:
///
/// ```text
/// result ≡ start k0 k1
/// ```
#[inline(always)]
fn start(k0: u64, k1: u64) -> [u64; 4] {
    [
        k0 ^ 0x736f6d6570736575,
        k1 ^ 0x646f72616e646f6d,
        k0 ^ 0x6c7967656e657261,
        k1 ^ 0x7465646279746573,
    ]
}

// One word in, by `C` rounds.
/// Proved:
///
/// ```text
/// v.new ≡ after_word C v.old word
/// ```
#[inline(always)]
fn word_in<const C: usize>(v: &mut [u64; 4], word: u64) {
    v[3] ^= word;
    sip_rounds::<C>(v);
    v[0] ^= word;
}

/// The rule of SipHash by `C` rounds for each word and `D` at the end.
pub struct SipRule<const C: usize, const D: usize>;

impl<const C: usize, const D: usize> BlockRule<8> for SipRule<C, D> {
    type State = [u64; 4];

    type Seed = SipKey;

    type Hash = u64;

    #[inline(always)]
    fn plain() -> SipKey {
        SipKey { k0: 0, k1: 0 }
    }

    #[inline(always)]
    fn start(key: SipKey) -> [u64; 4] {
        start(key.k0, key.k1)
    }

    #[inline(always)]
    fn block(state: &mut [u64; 4], bytes: &[u8; 8]) {
        word_in::<C>(state, le64(bytes));
    }

    #[inline(always)]
    fn finish(state: &[u64; 4], left: &[u8], total: u64) -> u64 {
        let mut v = *state;
        word_in::<C>(&mut v, le_seven(left) + total % 256 * 0x0100_0000_0000_0000);
        v[2] ^= 0xff;
        sip_rounds::<D>(&mut v);
        v[0] ^ v[1] ^ (v[2] ^ v[3])
    }

    #[inline(always)]
    fn low(hash: u64) -> u64 {
        hash
    }
}

/// SipHash-1-3, which the maps of Rust and Python take.
pub type SipHasher13 = BlockHasher<SipRule<1, 3>, 8>;

/// SipHash-2-4, as its authors recommend it.
pub type SipHasher24 = BlockHasher<SipRule<2, 4>, 8>;

/// SipHash-1-3 of the bytes under a key.
///
/// Proved:
///
/// ```text
/// result ≡ siphash 1 3 key.k0 key.k1 bytes.now
/// ```
#[inline]
pub fn siphash13(key: SipKey, bytes: &[u8]) -> u64 {
    SipHasher13::hash_of(key, bytes)
}

/// SipHash-2-4 of the bytes under a key. Under the key of the bytes 0 to 15 that of the bytes 0 to 14 is 0xa129ca6149be45e5.
///
/// Proved:
///
/// ```text
/// result ≡ siphash 2 4 key.k0 key.k1 bytes.now
/// ```
#[inline]
pub fn siphash24(key: SipKey, bytes: &[u8]) -> u64 {
    SipHasher24::hash_of(key, bytes)
}
