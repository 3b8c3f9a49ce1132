//! What makes a hasher for each key of std's maps and sets.
//!
//! std feeds a key in one or more writes, which `hash_input` of the key's type lists: a number is its little-endian bytes,
//! a slice its length as 8 bytes and then each item, a `&str` its bytes and then 0xFF, a pair its first part and then its
//! second.
//!
//! That is Rattle's std, where each item is a write of its own. Rust's std feeds the same bytes, but those of a slice of bytes at once.
//! Where cuts don't show, both hashes are one, and [`hash_one_slice`] holds. Where they show, under fx and lookup3, they differ, so
//! `hash_one_slice_in_writes` and `hash_one_slice_fx` of the Rattle text are left out here. The proofs also take numbers to be fed as
//! little-endian bytes, and `usize` to have 64 bits.

// What follows is the proved text of crates/hash_writes/src/build.rt without its contracts.
// The clauses of hash_one name Hasher.
#![allow(unused_imports)]
use crate::{hash_laws, std};

use hash_laws::traits::{Piecewise, Streamed};
use std::hash::{BuildHasher, Hash, Hasher};
use std::marker::PhantomData;

/// Makes the default hasher of `H` for each key, as std's `BuildHasherDefault` does for types that can be copied. It takes
/// no memory, and each one makes the same hashers.
///
/// `HashMap::<K, V, BuildFresh<H>>::with_hasher(BuildFresh::new())` is a map of std over `H`. It keeps no secret: for the
/// keys of strangers take std's `RandomState`.
#[derive(Clone, Copy, Default)]
pub struct BuildFresh<H> {
    hasher: PhantomData<H>,
}

impl<H> BuildFresh<H> {
    /// The builder.
    #[inline]
    pub const fn new() -> BuildFresh<H> {
        BuildFresh {
            hasher: PhantomData,
        }
    }
}

impl<H: Piecewise> BuildHasher for BuildFresh<H> {
    type Hasher = H;

    /// The default hasher of `H`.
    #[inline(always)]
    fn build_hasher(&self) -> H {
        H::fresh()
    }

    /// The hash of a key: the answer to the fresh state after the writes that std makes of it, in their order.
    ///
    /// Proved:
    ///
    /// ```text
    /// std: result ≡ H.finish (fold H.write H.first (T.hash_input x))
    /// defined: result ≡ H.answer (fold H.after H.fresh (T.hash_input x))
    /// ```
    #[inline(always)]
    fn hash_one<T: Hash>(&self, x: T) -> u64 {
        let mut hasher = H::fresh();
        x.hash(&mut hasher);
        hasher.answer()
    }
}

/// The hash of a key by [`BuildFresh`], where the split does not matter: that of the bytes that std feeds, joined.
///
/// Proved:
///
/// ```text
/// All IsText (K.hash_input key) → result ≡ H.hash_of (concat (K.hash_input key))
/// ```
#[inline(always)]
pub fn hash_one_joined<H: Streamed, K: Hash>(key: K) -> u64 {
    BuildFresh::<H>::new().hash_one(key)
}

/// The hash of a slice of bytes as a key: that of its length in 8 bytes, followed by its bytes.
///
/// Proved:
///
/// ```text
/// result ≡ H.hash_of (le_bytes 8 (length key.now) ++ key.now)
/// ```
#[inline(always)]
pub fn hash_one_slice<H: Streamed>(key: &[u8]) -> u64 {
    hash_one_joined::<H, &[u8]>(key)
}

/// The hash of a number as a key: that of its 8 bytes, the lowest first. It is one write, so this holds where the split matters, too.
///
/// Proved:
///
/// ```text
/// result ≡ H.hash_of (le_bytes 8 key)
/// ```
#[inline(always)]
pub fn hash_one_number<H: Piecewise>(key: u64) -> u64 {
    BuildFresh::<H>::new().hash_one::<u64>(key)
}

/// The hash of a pair of numbers as a key: that of the 8 bytes of the first, followed by those of the second.
///
/// Proved:
///
/// ```text
/// result ≡ H.hash_of (le_bytes 8 key.0 ++ le_bytes 8 key.1)
/// ```
#[inline(always)]
pub fn hash_one_pair<H: Streamed>(key: (u64, u64)) -> u64 {
    hash_one_joined::<H, (u64, u64)>(key)
}

/// The hash of a pair of numbers as a key, also where the split matters: the answer after the 8 bytes of the first as one write, and then
/// those of the second.
///
/// Proved:
///
/// ```text
/// result ≡ H.answer (H.after (H.after H.fresh (le_bytes 8 key.0)) (le_bytes 8 key.1))
/// ```
#[inline(always)]
pub fn hash_one_pair_in_writes<H: Piecewise>(key: (u64, u64)) -> u64 {
    BuildFresh::<H>::new().hash_one::<(u64, u64)>(key)
}

/// The hash of a string as a key: that of its bytes in UTF-8, followed by 0xFF.
///
/// Proved:
///
/// ```text
/// result ≡ H.hash_of (key.now ++ 0xFF ∷ [])
/// ```
#[inline(always)]
pub fn hash_one_str<H: Streamed>(key: &str) -> u64 {
    hash_one_joined::<H, &str>(key)
}

/// Feeds a key to a hasher for which the split does not matter: the state is that after the bytes that std feeds, joined, from
/// wherever the hasher stood.
///
/// Proved:
///
/// ```text
/// All IsText (K.hash_input key) → H.in_range (H.state h.old)
///     → H.state h.new ≡ H.after (H.state h.old) (concat (K.hash_input key))
/// ```
#[inline(always)]
pub fn feed_key<H: Streamed, K: Hash>(h: &mut H, key: K) {
    key.hash(h);
}
