//! The fx hash, its laws of lists of pieces, and std's maps and sets by it, under the names that users know from the crate fxhash.

// What follows is the proved text of crates/hashers/src/fx_hash.rt without its contracts.
#[allow(unused_imports)]
use crate::{hash_fx, hash_theorems, hash_writes, std};

pub use hash_fx::{
    FxHasher, FxHasher32, FxHasher64, FxSplit, FxWord, MachineWord, WordHasher, fxhash, fxhash32,
    fxhash64,
};
pub use hash_theorems::fx::pieces as pieces;
use hash_writes::build::{
    BuildFresh, hash_one_number, hash_one_pair_in_writes,
};
#[cfg(feature = "std")]
use std::collections::{HashMap, HashSet};

/// Makes an [`FxHasher`] for each key.
pub type FxBuildHasher = BuildFresh<FxHasher>;

/// A map of std by [`FxHasher`]: `FxHashMap::with_hasher(FxBuildHasher::new())` is an empty one.
#[cfg(feature = "std")]
pub type FxHashMap<K, V> = HashMap<K, V, FxBuildHasher>;

/// A set of std by [`FxHasher`].
#[cfg(feature = "std")]
pub type FxHashSet<K> = HashSet<K, FxBuildHasher>;

/// The hash of a number as a key of such a map: that of the number as one word.
///
/// Proved:
///
/// ```text
/// result ≡ fx64 0 (key ∷ [])
/// ```
#[inline(always)]
pub fn hash_one_number_fx(key: u64) -> u64 {
    hash_one_number::<FxHasher>(key)
}

/// The hash of a pair of numbers as a key of such a map: that of the two as words.
///
/// Proved:
///
/// ```text
/// result ≡ fx64 0 (key.0 ∷ key.1 ∷ [])
/// ```
#[inline(always)]
pub fn hash_one_pair_fx(key: (u64, u64)) -> u64 {
    hash_one_pair_in_writes::<FxHasher>(key)
}
