//! Consistent hashing over any hasher: nodes on a ring of 2^64 places, where only the lost node's keys move.
//!
//! A node has as many points on the ring as its weight says, and a key belongs to the node of the first point at or after
//! the key's hash, round the ring. So when a node goes, its keys alone get other owners, and when one comes, keys go to it
//! alone. The scheme is of Karger, Lehman, Leighton, Panigrahy, Levine and Lewin, "Consistent hashing and random trees"
//! (1997); several points for a node are theirs too.
//!
//! Which nodes own which keys depends on the set of nodes alone, and not on the order in which they came. How evenly the
//! keys fall depends on the hasher: see docs/RING.md.

// What follows is the proved text of crates/hash_ring/src/lib.rt without its contracts.
use crate::hashers;
use crate::shim::{Vec, vec, std};

pub mod points;

use crate::hash_ring::points::{Point, first_from, index_round, merge_backward};
use hashers::laws::{Piecewise, hash_of};
use std::alloc::{AllocError, AllocFailed, Global};
use std::error::Error as StdError;
use std::fmt;
use std::fmt::{Debug, Display, Formatter};
use std::marker::{PhantomData};

/// A node: its name, and its weight, which is how many points it has on the ring. Nodes are in the order of their names, byte by
/// byte, and of one name in that of their weights.
#[derive(Debug, PartialEq, Eq, PartialOrd, Ord)]
pub struct Node {
    pub name: Vec<u8>,
    pub weight: u64,
}

/// Why a node was not added, or a ring was not built. What was handed over comes back: the name, or all nodes.
#[derive(Debug)]
pub enum Refused<T> {
    /// A node of this name is on the ring; or two of the nodes have one name.
    IsThere(T),
    /// There is no memory for the nodes and the points.
    NoRoom(T),
}

impl<T> Display for Refused<T> {
    #[inline]
    fn fmt(&self, f: &mut Formatter) -> fmt::Result {
        match self {
            Refused::IsThere(_) => write!(f, "two nodes would have one name"),
            Refused::NoRoom(_) => write!(f, "there is no memory for the nodes and their points"),
        }
    }
}

impl<T: Debug> StdError for Refused<T> {}

/// Nodes on a ring of 2^64 places. Contracts see the finite map from the nodes' names to their weights.
///
/// Point number `k` of a node, from 0 up to its weight, is at the place `hash_of` of its name followed by `k` in 8 bytes, the lowest
/// first, as one piece. A key is at the place `hash_of` of its bytes. Points at one place belong to the node whose name is least in the
/// order of bytes.
///
/// All points stand in one sorted array, 16 bytes each.
pub struct Ring<H: Piecewise> {
    nodes: Vec<Node>, // in the order of their names
    points: Vec<Point>, // in the order of their places, and at one place in that of their nodes
    hasher: PhantomData<H>,
}

/// Puts the points of the node after the others.
///
/// Proved:
///
/// ```text
/// ok: OnOk result (AddsPoints H.hash_of node.now index points.old.items points.new.items)
/// err: OnErr result (take (length points.old.items) points.new.items ≡ points.old.items)
/// ```
#[inline]
fn push_points<H: Piecewise>(
    alloc: Global,
    points: &mut Vec<Point>,
    node: &Node,
    index: usize,
) -> Result<(), AllocError> {
    let name = node.name.as_slice();
    let mut text = Vec::from_slice(alloc, name)?;
    for number in 0..node.weight {
        text.truncate(name.len());
        text.extend_from_slice(&number.to_le_bytes())?;
        points.push(Point {
            place: hash_of::<H>(&text),
            node: index,
        })?;
    }
    Ok(())
}

/// The points of the nodes, in their order.
///
/// Proved:
///
/// ```text
/// just: IfOk result (λ points. ArePoints H.hash_of (pairs nodes.now) points.items)
/// ordered: IfOk result (λ points. AllPairs IsBefore points.items)
/// ```
#[inline]
fn all_points<H: Piecewise>(alloc: Global, nodes: &[Node]) -> Result<Vec<Point>, AllocError> {
    let mut points = Vec::new(alloc);
    for index in 0..nodes.len() {
        push_points::<H>(alloc, &mut points, &nodes[index], index)?;
    }
    points.sort_unstable();
    Ok(points)
}

/// Whether each name is less than those after it.
///
/// Proved:
///
/// ```text
/// IsTrue result ↔ T (is_sorted (slice_cmp nat_cmp) (pairs nodes.now))
/// ```
#[inline]
fn names_rise(nodes: &[Node]) -> bool {
    nodes.is_sorted_by(|one, next| one.name.cmp(&next.name).is_lt())
}

/// The points of the node, in order.
///
/// Proved:
///
/// ```text
/// just: IfOk result (λ added. IsPermutation
///     (points_of H.hash_of (pair_of node.now) index) added.items)
/// ordered: IfOk result (λ added. AllPairs IsBefore added.items)
/// ```
#[inline]
fn points_in_order<H: Piecewise>(
    alloc: Global,
    node: &Node,
    index: usize,
) -> Result<Vec<Point>, AllocError> {
    let count = usize::try_from(node.weight).map_err(|_| AllocError)?;
    let mut added = Vec::with_capacity(alloc, count)?;
    push_points::<H>(alloc, &mut added, node, index)?;
    added.sort_unstable();
    Ok(added)
}

/// Puts the points of a new node among the others, of whose nodes those from its index on stand one further then. Where there is no
/// memory the points stay as they were.
///
/// The caller has to see to it that:
///
/// ```text
/// in_range: All (λ p. p.node + 1 < 2 ^ 64) points.old.items
/// ordered: AllPairs IsBefore points.old.items
/// ```
///
/// Proved:
///
/// ```text
/// merged: OnOk result (IsPermutation
///     (map (opened_up index) points.old.items ++ points_of H.hash_of (pair_of node.now) index)
///     points.new.items)
/// ordered: OnOk result (AllPairs IsBefore points.new.items)
/// err: OnErr result (points.new.items ≡ points.old.items)
/// ```
#[inline]
fn merge_points<H: Piecewise>(
    alloc: Global,
    points: &mut Vec<Point>,
    node: &Node,
    index: usize,
) -> Result<(), AllocError> {
    let added = points_in_order::<H>(alloc, node, index)?;
    let others = points.len();
    points.extend_from_slice(&added)?;
    merge_backward(points, others, &added, index);
    Ok(())
}

/// The first `most` different nodes whose points come round from the place, or all where there are fewer.
///
/// Proved:
///
/// ```text
/// own: IfOk result (λ xs. (hash : List ℕ → ℕ) (named : List (List ℕ × ℕ))
///     → IsRing hash named points.now
///     → AreOwners hash (nodes_of named) place (names_at named xs.items))
/// real: IfOk result (λ xs. (hash : List ℕ → ℕ) (named : List (List ℕ × ℕ))
///     → IsRing hash named points.now
///     → All (λ i. i < length named) xs.items)
/// count: IfOk result (λ xs. (hash : List ℕ → ℕ) (named : List (List ℕ × ℕ))
///     → IsRing hash named points.now
///     → length xs.items ≡ min most (length named))
/// ```
#[inline]
fn owners_of(
    alloc: Global,
    points: &[Point],
    place: u64,
    most: usize,
) -> Result<Vec<usize>, AllocError> {
    let mut owners = vec![in alloc; 0usize; most]?;
    let count = points::owners_at(points, place, &mut owners);
    owners.truncate(count);
    Ok(owners)
}

/// The names of the nodes at these indices.
///
/// The caller has to see to it that:
///
/// ```text
/// All (λ i. i < length nodes.now) indices.now
/// ```
///
/// Proved:
///
/// ```text
/// IfOk result (λ xs. texts xs.items ≡ names_at (pairs nodes.now) indices.now)
/// ```
#[inline]
fn names_of<'a>(
    alloc: Global,
    nodes: &'a [Node],
    indices: &[usize],
) -> Result<Vec<&'a [u8]>, AllocError> {
    let mut names = Vec::with_capacity(alloc, indices.len())?;
    for at in 0..indices.len() {
        names.push(nodes[indices[at]].name.as_slice())?;
    }
    Ok(names)
}

/// The name of the first node round from the place whom the test passes. A node is asked again at each of its points.
///
/// The caller has to see to it that:
///
/// ```text
/// ring: IsRing H.hash_of (pairs nodes.now) points.now
/// callable: F.IsAlwaysCallable has_room
/// ```
///
/// Proved:
///
/// ```text
/// some: IfSome result (λ x. IsFirstToPass H.hash_of (ring_of nodes.now) place
///     (FnReturnsAt F.Fn has_room) x.now)
/// none: IfNone result ((name : List ℕ) → map.get (ring_of nodes.now) name ≢ None
///     → FnReturnsAt F.Fn has_room name false)
/// ```
#[inline]
fn first_with_room<'a, H: Piecewise, F: Fn(&[u8]) -> bool>(
    nodes: &'a [Node],
    points: &[Point],
    place: u64,
    has_room: F,
) -> Option<&'a [u8]> {
    let first = first_from(points, place);
    for steps in 0..points.len() {
        let point = points[index_round(points.len(), first, steps)];
        let name = nodes[point.node].name.as_slice();
        if has_room(name) {
            return Some(name);
        }
    }
    None
}

/// How many places each node owns: those after one point up to the next one are of the next one's node, and those after the
/// last point of the first one's.
///
/// The caller has to see to it that:
///
/// ```text
/// IsRing H.hash_of (pairs nodes.now) points.now
/// ```
///
/// Proved:
///
/// ```text
/// each: IfOk result (λ xs. 0 < length points.now
///     → AreShares H.hash_of (ring_of nodes.now) xs.items)
/// all: IfOk result (λ xs. 0 < length points.now → sum xs.items ≡ 2 ^ 64)
/// count: IfOk result (λ xs. length xs.items ≡ length nodes.now)
/// ```
#[inline]
fn shares_of<H: Piecewise>(
    alloc: Global,
    nodes: &[Node],
    points: &[Point],
) -> Result<Vec<u128>, AllocError> {
    let mut shares = vec![in alloc; 0u128; nodes.len()]?;
    let mut from: u128 = 0;
    for point in points {
        let to = u128::from(point.place) + 1;
        shares[point.node] += to - from;
        from = to;
    }
    let Some(first) = points.first() else {
        return Ok(shares);
    };
    shares[first.node] += (1 << 64) - from;
    Ok(shares)
}

impl<H: Piecewise> Ring<H> {
    /// The ring of no nodes.
    ///
    /// Proved:
    ///
    /// ```text
    /// result ≡ map.empty
    /// ```
    #[inline]
    pub fn new(alloc: Global) -> Self {
        Ring {
            nodes: Vec::new(alloc),
            points: Vec::new(alloc),
            hasher: PhantomData,
        }
    }

    /// How many nodes there are.
    ///
    /// Proved:
    ///
    /// ```text
    /// result ≡ map.len self.now
    /// ```
    #[inline]
    pub fn len(&self) -> usize {
        self.nodes.len()
    }

    /// Whether there is no node.
    ///
    /// Proved:
    ///
    /// ```text
    /// IsTrue result ↔ (map.len self.now ≡ 0)
    /// ```
    #[inline]
    pub fn is_empty(&self) -> bool {
        self.len() == 0
    }

    /// The nodes with their weights, in the order of their names, byte by byte.
    ///
    /// Proved:
    ///
    /// ```text
    /// pairs result.now ≡ map.entries self.now
    /// ```
    #[inline]
    pub fn nodes(&self) -> &[Node] {
        &self.nodes
    }

    /// The ring of these nodes, in whatever order they come, by one sort of all points. Where two have one name, or where there is no
    /// memory, the nodes come back, in whatever order.
    ///
    /// The caller has to see to it that:
    ///
    /// ```text
    /// All (λ node. 1 ≤ node.weight) nodes.items
    /// ```
    ///
    /// Proved:
    ///
    /// ```text
    /// built: IfOk result (λ ring. ring ≡ with_all map.empty (pairs nodes.items))
    /// count: IfOk result (λ ring. map.len ring ≡ length nodes.items)
    /// differ: OnOk result (KeysDiffer (pairs nodes.items))
    /// err: IfErr result (HandsAllBack nodes.items)
    /// ```
    #[inline]
    pub fn from_nodes(alloc: Global, mut nodes: Vec<Node>) -> Result<Self, Refused<Vec<Node>>> {
        nodes.sort_unstable();
        if !names_rise(&nodes) {
            return Err(Refused::IsThere(nodes));
        }
        match all_points::<H>(alloc, &nodes) {
            Ok(points) => Ok(Ring {
                nodes,
                points,
                hasher: PhantomData,
            }),
            Err(AllocError) => Err(Refused::NoRoom(nodes)),
        }
    }

    /// Where the node of this name stands, or where it would.
    ///
    /// Proved:
    ///
    /// ```text
    /// MatchResult result (IsNamedAt (map.entries self.now) name.now)
    ///     (IsGapAt (map.entries self.now) name.now)
    /// ```
    #[inline]
    fn place_of(&self, name: &[u8]) -> Result<usize, usize> {
        self.nodes
            .binary_search_by(|node| node.name.as_slice().cmp(name))
    }

    /// Puts a node of `weight` points on the ring. Where a node of this name is there, or where there is no memory, the ring stays as it
    /// was, and the name comes back.
    ///
    /// The new points are merged with the others, so the time grows with all weights together. To build a ring of many nodes at once
    /// take `from_nodes`.
    ///
    /// The caller has to see to it that:
    ///
    /// ```text
    /// 1 ≤ weight
    /// ```
    ///
    /// Proved:
    ///
    /// ```text
    /// added: OnOk result (self.new ≡ map.insert self.old name.items weight)
    /// new: OnOk result (map.get self.old name.items ≡ None)
    /// unchanged: OnErr result (self.new ≡ self.old)
    /// err: IfErr result (HandsBack self.old name)
    /// ```
    #[inline]
    pub fn add(&mut self, name: Vec<u8>, weight: u64) -> Result<(), Refused<Vec<u8>>> {
        let at = match self.place_of(&name) {
            Ok(_) => return Err(Refused::IsThere(name)),
            Err(at) => at,
        };
        if let Err(AllocFailed { value }) = self.nodes.insert(at, Node { name, weight }) {
            return Err(Refused::NoRoom(value.name));
        }
        let alloc = *self.nodes.allocator();
        match merge_points::<H>(alloc, &mut self.points, &self.nodes[at], at) {
            Ok(()) => Ok(()),
            Err(AllocError) => Err(Refused::NoRoom(self.nodes.remove(at).name)),
        }
    }

    /// Takes the node off the ring, and answers its weight. It takes no memory.
    ///
    /// Proved:
    ///
    /// ```text
    /// value: result ≡ map.get self.old name.now
    /// removed: self.new ≡ map.remove self.old name.now
    /// ```
    #[inline]
    pub fn remove(&mut self, name: &[u8]) -> Option<u64> {
        let Ok(gone) = self.place_of(name) else {
            return None;
        };
        let kept = points::remove(&mut self.points, gone);
        self.points.truncate(kept);
        Some(self.nodes.remove(gone).weight)
    }

    /// The name of the node that owns the key: that of the first point at or after the key's hash, round the ring. `None` just where
    /// there are no nodes. It is a binary search, and takes no memory.
    ///
    /// Proved:
    ///
    /// ```text
    /// owns: IfSome result (λ x. IsOwner H.hash_of self.now (H.hash_of key.now) x.now)
    /// none: IfNone result (self.now ≡ map.empty)
    /// some: OnSome result (self.now ≢ map.empty)
    /// ```
    #[inline]
    pub fn owner(&self, key: &[u8]) -> Option<&[u8]> {
        self.owner_at(hash_of::<H>(key))
    }

    /// The name of the node that owns this place of the ring: that of the first point at or after it, round the ring. `None` just where
    /// there are no nodes. It is a binary search, and takes no memory.
    ///
    /// Proved:
    ///
    /// ```text
    /// owns: IfSome result (λ x. IsOwner H.hash_of self.now place x.now)
    /// none: IfNone result (self.now ≡ map.empty)
    /// some: OnSome result (self.now ≢ map.empty)
    /// ```
    #[inline]
    pub fn owner_at(&self, place: u64) -> Option<&[u8]> {
        if self.points.is_empty() {
            return None;
        }
        let point = self.points[points::owner_at(&self.points, place)];
        Some(&self.nodes[point.node].name)
    }

    /// The names of the first `n` different nodes round the ring from the key's hash, or of all nodes where there are fewer. The first is
    /// the owner, the second would own the key if the first were gone, and so on. It refuses only when out of memory.
    ///
    /// Proved:
    ///
    /// ```text
    /// own: IfOk result (λ xs.
    ///     AreOwners H.hash_of self.now (H.hash_of key.now) (texts xs.items))
    /// count: IfOk result (λ xs. length xs.items ≡ min n (map.len self.now))
    /// different: IfOk result (λ xs. AllPairs (λ a b. a ≢ b) (texts xs.items))
    /// ```
    #[inline]
    pub fn owners(&self, alloc: Global, key: &[u8], n: usize) -> Result<Vec<&[u8]>, AllocError> {
        let most = n.min(self.nodes.len());
        let owners = owners_of(alloc, &self.points, hash_of::<H>(key), most)?;
        names_of(alloc, &self.nodes, &owners)
    }

    /// How much of the ring each node owns, in the order of `nodes`: how many of the 2^64 places. Where there is a node they sum up to
    /// 2^64. It refuses only when out of memory. Under a hash of 32 bits all keys lie in the first 2^32 places, so it says nothing of them.
    ///
    /// Proved:
    ///
    /// ```text
    /// each: IfOk result (λ xs. self.now ≢ map.empty → AreShares H.hash_of self.now xs.items)
    /// all: IfOk result (λ xs. self.now ≢ map.empty → sum xs.items ≡ 2 ^ 64)
    /// count: IfOk result (λ xs. length xs.items ≡ map.len self.now)
    /// ```
    #[inline]
    pub fn shares(&self, alloc: Global) -> Result<Vec<u128>, AllocError> {
        let shares = shares_of::<H>(alloc, &self.nodes, &self.points)?;
        Ok(shares)
    }

    /// The name of the first of the key's `owners` whom the test passes, or `None` where it passes no node. It takes no memory, and
    /// asks a node again at each of its points.
    ///
    /// With a test of how much a node carries, as "fewer keys than 1.25 times the mean", these are consistent hashes with bounded loads:
    /// Vahab Mirrokni, Mikkel Thorup, Morteza Zadimoghaddam, "Consistent Hashing with Bounded Loads", 2016.
    ///
    /// The caller has to see to it that:
    ///
    /// ```text
    /// F.IsAlwaysCallable has_room
    /// ```
    ///
    /// Proved:
    ///
    /// ```text
    /// some: IfSome result (λ x. IsFirstToPass H.hash_of self.now (H.hash_of key.now)
    ///     (FnReturnsAt F.Fn has_room) x.now)
    /// none: IfNone result ((name : List ℕ) → map.get self.now name ≢ None
    ///     → FnReturnsAt F.Fn has_room name false)
    /// ```
    #[inline]
    pub fn owner_below<F: Fn(&[u8]) -> bool>(&self, key: &[u8], has_room: F) -> Option<&[u8]> {
        first_with_room::<H, F>(&self.nodes, &self.points, hash_of::<H>(key), has_room)
    }
}
