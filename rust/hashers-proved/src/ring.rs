//! Consistent hashing: nodes on a ring of 2^64 places, where only a lost node's keys move.
//!
//! A node has as many points on the ring as its weight says, and a key belongs to the node of the first point at or after the key's hash,
//! round the ring. So when a node goes, its keys alone get other owners, and when one comes, keys go to it alone. The scheme is of Karger,
//! Lehman, Leighton, Panigrahy, Levine and Lewin, "Consistent hashing and random trees" (1997).
//!
//! ```
//! use hashers_proved::ring::Ring;
//!
//! let mut ring = Ring::new();
//! ring.add("node1", 100);
//! ring.add("node2", 100);
//! ring.add("node3", 200);
//! let owner = ring.owner(b"key").unwrap().to_vec();
//! ring.remove(&owner);
//! assert_ne!(ring.owner(b"key"), Some(owner.as_slice()));
//! // two places for each key
//! assert_eq!(ring.owners("key", 2).len(), 2);
//! ```
use crate::extras::no_memory;
use crate::hash_jenkins::spooky_hash::SpookyHasher;
use crate::hash_laws::traits::Piecewise;
use crate::hash_ring::points::Point;
use crate::hash_ring::{self as proved, Node, Refused};
use crate::shim::memory::Global;
use core::alloc::Layout;
use core::fmt;
use real_std::collections::BTreeMap;
use real_std::string::String;
use real_std::vec::Vec;

/// Nodes on a ring, each a name, any bytes, with a weight. `H` hashes their points, and keys.
///
/// Which nodes own which keys depends on the set of nodes alone, and not on the order in which they came. Point number `k` of a node, from
/// 0 up to its weight, is at the place that is the hash of its name followed by `k` in 8 bytes, the lowest first; a key is at its hash. All
/// points stand in one sorted array, 16 bytes each. Some 160 points a node give each about its share.
///
/// Where there is no memory, a call ends the program, as std's collections do.
pub struct Ring<H: Piecewise = SpookyHasher> {
    ring: proved::Ring<H>,
}

impl Ring {
    /// The ring of no nodes, over SpookyHash; over another hasher it is `Ring::default()`.
    pub fn new() -> Ring {
        Ring::default()
    }
}

impl<H: Piecewise> Default for Ring<H> {
    fn default() -> Ring<H> {
        Ring { ring: proved::Ring::new(Global) }
    }
}

/// How many points so much weight is. Panics where it is none, and, as std's collections do, where it is more than `isize::MAX` bytes.
fn points(weight: u64) -> usize {
    assert!(weight > 0, "a node without a point");
    let count = usize::try_from(weight).expect("capacity overflow");
    Layout::array::<Point>(count).expect("capacity overflow");
    count
}

impl<H: Piecewise> Ring<H> {
    /// Adds a node with so many points, and tells whether it is new: where a node of the name is there, the ring stays as it is.
    ///
    /// # Panics
    ///
    /// Panics if the weight is 0, or so many points are more than `isize::MAX` bytes.
    pub fn add(&mut self, name: impl Into<Vec<u8>>, weight: u64) -> bool {
        let count = points(weight);
        match self.ring.add(name.into().into(), weight) {
            Ok(()) => true,
            Err(Refused::IsThere(_)) => false,
            Err(Refused::NoRoom(_)) => no_memory::<Point>(count),
        }
    }

    /// Takes the node of that name out, and tells its weight, if it was there.
    pub fn remove(&mut self, name: impl AsRef<[u8]>) -> Option<u64> {
        self.ring.remove(name.as_ref())
    }

    /// The node that owns the key; `None` where there are no nodes.
    pub fn owner(&self, key: impl AsRef<[u8]>) -> Option<&[u8]> {
        self.ring.owner(key.as_ref())
    }

    /// The node that owns the place: that of the first point at or after it, round the ring.
    pub fn owner_at(&self, place: u64) -> Option<&[u8]> {
        self.ring.owner_at(place)
    }

    /// The first nodes from the key's place on, so many different ones, or all where there are fewer. The first owns the key, and the
    /// others are those that would own it if the ones before were gone.
    pub fn owners(&self, key: impl AsRef<[u8]>, count: usize) -> Vec<&[u8]> {
        self.ring.owners(Global, key.as_ref(), count).unwrap_or_else(|_| no_memory::<usize>(count.min(self.len()))).into()
    }

    /// The first node from the key's place on of which the closure says that it has room.
    pub fn owner_below(&self, key: impl AsRef<[u8]>, has_room: impl Fn(&[u8]) -> bool) -> Option<&[u8]> {
        self.ring.owner_below(key.as_ref(), has_room)
    }

    /// The weight of the node of that name, if it is there.
    pub fn weight(&self, name: impl AsRef<[u8]>) -> Option<u64> {
        let nodes = self.ring.nodes();
        let at = nodes.binary_search_by(|node| node.name.as_slice().cmp(name.as_ref())).ok()?;
        Some(nodes[at].weight)
    }

    /// How many nodes there are.
    pub fn len(&self) -> usize {
        self.ring.len()
    }

    /// Whether there are none.
    pub fn is_empty(&self) -> bool {
        self.ring.is_empty()
    }

    /// The nodes with their weights, in the order of their names.
    pub fn iter(&self) -> Iter<'_> {
        Iter { nodes: self.ring.nodes().iter() }
    }

    /// Of each node, in the order of their names, how many of the 2^64 places it owns. Under a hash of 32 bits all keys lie in the first 2^32
    /// of them, so there it says nothing of the keys.
    pub fn shares(&self) -> Vec<u128> {
        self.ring.shares(Global).unwrap_or_else(|_| no_memory::<u128>(self.len())).into()
    }
}

/// The nodes of a [`Ring`] with their weights, in the order of their names.
#[derive(Clone, Debug)]
pub struct Iter<'a> {
    nodes: core::slice::Iter<'a, Node>,
}

impl<'a> Iterator for Iter<'a> {
    type Item = (&'a [u8], u64);

    fn next(&mut self) -> Option<(&'a [u8], u64)> {
        self.nodes.next().map(|node| (node.name.as_slice(), node.weight))
    }

    fn size_hint(&self) -> (usize, Option<usize>) {
        self.nodes.size_hint()
    }
}

impl ExactSizeIterator for Iter<'_> {}

impl core::iter::FusedIterator for Iter<'_> {}

impl<'a, H: Piecewise> IntoIterator for &'a Ring<H> {
    type Item = (&'a [u8], u64);
    type IntoIter = Iter<'a>;

    fn into_iter(self) -> Iter<'a> {
        self.iter()
    }
}

/// The weights of the nodes by their names, of two of one name that of the last. It panics where [`Ring::add`] does.
fn by_name<N: Into<Vec<u8>>>(nodes: impl IntoIterator<Item = (N, u64)>) -> BTreeMap<Vec<u8>, u64> {
    let named: BTreeMap<Vec<u8>, u64> = nodes.into_iter().map(|(name, weight)| (name.into(), weight)).collect();
    for weight in named.values() {
        points(*weight);
    }
    named
}

/// Makes a ring at once, which is faster than node by node. Of two nodes of one name the last one counts. It panics where [`add`](Ring::add)
/// does.
impl<N: Into<Vec<u8>>, H: Piecewise> FromIterator<(N, u64)> for Ring<H> {
    fn from_iter<I: IntoIterator<Item = (N, u64)>>(nodes: I) -> Ring<H> {
        let named = by_name(nodes);
        let count = named.values().fold(0, |sum: usize, weight| sum.saturating_add(points(*weight)));
        let nodes: Vec<Node> = named.into_iter().map(|(name, weight)| Node { name: name.into(), weight }).collect();
        Ring { ring: proved::Ring::from_nodes(Global, nodes.into()).unwrap_or_else(|_| no_memory::<Point>(count)) }
    }
}

/// Adds the nodes; of one name that is there the weight becomes the new one, and of two of one name the last one counts. It panics where
/// [`add`](Ring::add) does, and then the ring stays as it was.
impl<N: Into<Vec<u8>>, H: Piecewise> Extend<(N, u64)> for Ring<H> {
    fn extend<I: IntoIterator<Item = (N, u64)>>(&mut self, nodes: I) {
        for (name, weight) in by_name(nodes) {
            if self.weight(&name) != Some(weight) {
                self.remove(&name);
                self.add(name, weight);
            }
        }
    }
}

/// Makes the points anew.
impl<H: Piecewise> Clone for Ring<H> {
    fn clone(&self) -> Ring<H> {
        self.iter().collect()
    }
}

impl<H: Piecewise> PartialEq for Ring<H> {
    fn eq(&self, other: &Ring<H>) -> bool {
        self.ring.nodes() == other.ring.nodes()
    }
}

impl<H: Piecewise> Eq for Ring<H> {}

impl<H: Piecewise> fmt::Debug for Ring<H> {
    fn fmt(&self, f: &mut fmt::Formatter) -> fmt::Result {
        f.debug_map().entries(self.iter().map(|(name, weight)| (String::from_utf8_lossy(name), weight))).finish()
    }
}
