//! Hashers of 128 bits.

// What follows is the proved text of crates/hash_kinds/src/wide.rt without its contracts.
use crate::{hash_blocks, hash_jenkins, hash_laws, hash_xxh3};

use hash_blocks::BlockHasher;
use hash_blocks::murmur3::Murmur3Rule128;
use hash_jenkins::spooky_hash::SpookyHasher;
use hash_laws::traits::Streamed;
use hash_xxh3::Xxh3Hasher;

/// A hasher of texts that has 128 bits of them, as one number.
pub trait WideHash: Streamed {
    /// The number of the text so far.
    ///
    /// Proved:
    ///
    /// ```text
    /// (text : List ℕ) → Self.stands_at self.now Self.start text → result ≡ wide_of text
    /// ```
    fn wide(&self) -> u128;
}

/// Two words as one number, the first above the second.
///
/// Proved:
///
/// ```text
/// result ≡ both words
/// ```
#[inline]
pub fn both(words: (u64, u64)) -> u128 {
    u128::from(words.0) * (1 << 64) + u128::from(words.1)
}

impl WideHash for SpookyHasher {
    #[inline]
    fn wide(&self) -> u128 {
        both(self.finish128())
    }
}

impl WideHash for BlockHasher<Murmur3Rule128, 16> {
    #[inline]
    fn wide(&self) -> u128 {
        both(self.finish128())
    }
}

impl WideHash for Xxh3Hasher {
    /// The high word stands above the low one, which comes first.
    #[inline]
    fn wide(&self) -> u128 {
        let (low, high) = self.finish128();
        both((high, low))
    }
}
