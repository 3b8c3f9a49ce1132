//! What makes an Xxh3Hasher under a seed for each key of std's maps and sets.

// What follows is the proved text of crates/hash_xxh3/src/build.rt without its contracts.
use crate::std;

use crate::hash_xxh3::hasher::Xxh3Hasher;
use std::hash::{BuildHasher, Hash, Hasher};

/// Makes an [`Xxh3Hasher`] under a seed for each key of std's maps and sets:
/// `HashMap::with_hasher(BuildXxh3 { seed })`.
///
/// Not for the keys of strangers: XXH3 is not made to keep its seed, and by the law `eight_bytes_can_be_blinded` whoever
/// knows it writes down as many keys of one hash as he likes.
#[derive(Clone, Copy)]
pub struct BuildXxh3 {
    pub seed: u64,
}

impl BuildHasher for BuildXxh3 {
    type Hasher = Xxh3Hasher;

    /// The hasher of no bytes under the seed.
    #[inline(always)]
    fn build_hasher(&self) -> Xxh3Hasher {
        Xxh3Hasher::new(self.seed)
    }

    /// The hash of a key: that of the bytes that std feeds, joined, under the seed.
    ///
    /// Proved:
    ///
    /// ```text
    /// std: result ≡ hash (fold after (position self.now.seed []) (T.hash_input x))
    /// defined: result ≡ xxh3_64_of self.now.seed (concat (T.hash_input x))
    /// ```
    #[inline(always)]
    fn hash_one<T: Hash>(&self, x: T) -> u64 {
        let mut hasher = Xxh3Hasher::new(self.seed);
        x.hash(&mut hasher);
        hasher.finish()
    }
}
