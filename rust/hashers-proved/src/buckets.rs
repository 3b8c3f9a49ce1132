//! A table of a fixed number of lists over any hasher: keys of bytes, each with a number.
//!
//! ```
//! use hashers_proved::buckets::Buckets;
//!
//! let mut ages = Buckets::<64>::new();
//! ages.insert("Ada", 36);
//! ages.insert("Alan", 41);
//! assert_eq!(ages.get("Ada"), Some(36));
//! assert_eq!(ages.insert("Ada", 37), Some(36));
//! assert_eq!(ages.remove(b"Alan"), Some(41));
//! assert_eq!(ages.len(), 1);
//! ```
use crate::extras::no_memory;
use crate::hash_buckets as proved;
use crate::hash_jenkins::spooky_hash::SpookyHasher;
use crate::hash_laws::traits::{Piecewise, hash_of};
use crate::shim::memory::Global;
use crate::shim::Vec as Bytes;
use core::fmt;
use real_std::string::String;
use real_std::vec::Vec;

/// `N` lists of keys with their values. A key is in the list whose number is the remainder of its hash by `H` and `N`, and is looked for
/// there alone. The table does not grow: with some `N` keys a list has one on average.
///
/// Where there is no memory, a call ends the program, as std's collections do.
pub struct Buckets<const N: usize, H: Piecewise = SpookyHasher> {
    table: proved::Buckets<H, N>,
}

impl<const N: usize> Buckets<N> {
    /// The empty table, over SpookyHash; over another hasher it is `Buckets::default()`. No lists at all do not compile:
    ///
    /// ```compile_fail
    /// let _ = hashers_proved::buckets::Buckets::<0>::new();
    /// ```
    pub fn new() -> Buckets<N> {
        Buckets::default()
    }
}

impl<const N: usize, H: Piecewise> Default for Buckets<N, H> {
    fn default() -> Buckets<N, H> {
        const { assert!(N > 0, "a table of no lists") };
        Buckets { table: proved::Buckets::new(Global).unwrap_or_else(|_| no_memory::<Bytes<(Bytes<u8>, u64)>>(N)) }
    }
}

impl<const N: usize, H: Piecewise> Buckets<N, H> {
    /// The key's value, if it is there.
    pub fn get(&self, key: impl AsRef<[u8]>) -> Option<u64> {
        self.table.get(key.as_ref())
    }

    /// Whether the key is there.
    pub fn contains_key(&self, key: impl AsRef<[u8]>) -> bool {
        self.get(key).is_some()
    }

    /// Gives the key the value, and tells the one that it had.
    pub fn insert(&mut self, key: impl Into<Vec<u8>>, value: u64) -> Option<u64> {
        self.table.insert(key.into().into(), value).unwrap_or_else(|_| no_memory::<(Bytes<u8>, u64)>(1))
    }

    /// Takes the key out, and tells its value.
    pub fn remove(&mut self, key: impl AsRef<[u8]>) -> Option<u64> {
        self.table.remove(key.as_ref())
    }

    /// How many keys there are. It asks each list.
    pub fn len(&self) -> usize {
        (0..N).map(|number| self.table.bucket(number).len()).sum()
    }

    /// Whether there are none.
    pub fn is_empty(&self) -> bool {
        self.table.is_empty()
    }

    /// The number of the list in which the key is, or would be.
    pub fn bucket_of(&self, key: impl AsRef<[u8]>) -> usize {
        (hash_of::<H>(key.as_ref()) % N as u64) as usize
    }

    /// The keys of that list with their values.
    ///
    /// # Panics
    ///
    /// Panics if there is no such list.
    pub fn bucket(&self, number: usize) -> impl ExactSizeIterator<Item = (&[u8], u64)> {
        self.table.bucket(number).iter().map(pair)
    }

    /// All keys with their values, list by list.
    pub fn iter(&self) -> Iter<'_> {
        let lists: Vec<_> = (0..N).map(|number| self.table.bucket(number)).collect();
        Iter { pairs: lists.into_iter().flatten() }
    }
}

type List<'a> = &'a [(Bytes<u8>, u64)];

fn pair((key, value): &(Bytes<u8>, u64)) -> (&[u8], u64) {
    (key, *value)
}

/// The keys of a table with their values, list by list.
#[derive(Clone, Debug)]
pub struct Iter<'a> {
    pairs: core::iter::Flatten<real_std::vec::IntoIter<List<'a>>>,
}

impl<'a> Iterator for Iter<'a> {
    type Item = (&'a [u8], u64);

    fn next(&mut self) -> Option<(&'a [u8], u64)> {
        self.pairs.next().map(pair)
    }
}

impl core::iter::FusedIterator for Iter<'_> {}

impl<'a, const N: usize, H: Piecewise> IntoIterator for &'a Buckets<N, H> {
    type Item = (&'a [u8], u64);
    type IntoIter = Iter<'a>;

    fn into_iter(self) -> Iter<'a> {
        self.iter()
    }
}

impl<K: Into<Vec<u8>>, const N: usize, H: Piecewise> Extend<(K, u64)> for Buckets<N, H> {
    fn extend<I: IntoIterator<Item = (K, u64)>>(&mut self, pairs: I) {
        for (key, value) in pairs {
            self.insert(key, value);
        }
    }
}

impl<K: Into<Vec<u8>>, const N: usize, H: Piecewise> FromIterator<(K, u64)> for Buckets<N, H> {
    fn from_iter<I: IntoIterator<Item = (K, u64)>>(pairs: I) -> Buckets<N, H> {
        let mut table = Buckets::default();
        table.extend(pairs);
        table
    }
}

impl<const N: usize, H: Piecewise> Clone for Buckets<N, H> {
    fn clone(&self) -> Buckets<N, H> {
        self.iter().collect()
    }
}

/// The same keys, with the same values.
impl<const N: usize, H: Piecewise> PartialEq for Buckets<N, H> {
    fn eq(&self, other: &Buckets<N, H>) -> bool {
        self.len() == other.len() && self.iter().all(|(key, value)| other.get(key) == Some(value))
    }
}

impl<const N: usize, H: Piecewise> Eq for Buckets<N, H> {}

impl<const N: usize, H: Piecewise> fmt::Debug for Buckets<N, H> {
    fn fmt(&self, f: &mut fmt::Formatter) -> fmt::Result {
        f.debug_map().entries(self.iter().map(|(key, value)| (String::from_utf8_lossy(key), value))).finish()
    }
}
