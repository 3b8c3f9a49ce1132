//! FNV-1a, and std's maps and sets by it.

// What follows is the proved text of crates/hashers/src/fnv.rt without its contracts.
#[allow(unused_imports)]
use crate::{hash_bytes, hash_writes, std};

pub use hash_bytes::fnv::{
    BASIS_32, BASIS_64, FNV1aHasher32, FNV1aHasher64, Fnv1aRule32, Fnv1aRule64, PRIME_32, PRIME_64,
    UNPRIME_32, UNPRIME_64, fnv1a32, fnv1a64,
};
use hash_writes::build::BuildFresh;
#[cfg(feature = "std")]
use std::collections::{HashMap, HashSet};

/// Makes an [`FNV1aHasher64`] for each key of a map or a set, as the type of this name in the crate fnv does.
pub type FnvBuildHasher = BuildFresh<FNV1aHasher64>;

/// A map of std by FNV-1a at 64 bits: `FnvHashMap::with_hasher(FnvBuildHasher::new())` is an empty one.
#[cfg(feature = "std")]
pub type FnvHashMap<K, V> = HashMap<K, V, FnvBuildHasher>;

/// A set of std by FNV-1a at 64 bits.
#[cfg(feature = "std")]
pub type FnvHashSet<K> = HashSet<K, FnvBuildHasher>;
