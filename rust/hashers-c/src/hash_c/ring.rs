//! A ring of nodes in the caller's memory:
//! the points of its nodes, 16 bytes each, in the order of their places, and at one place in that of
//! their nodes. Node `i` is the one with the name number `i` in the order of bytes. Which names there are the caller keeps.

// What follows is the proved text of crates/hash_c/src/ring.rt without its contracts.
use hashers_proved::hash_ring;

use crate::hash_c::kinds::{hashers_hash, kind_at};
use hash_ring::points::{self, Point};

/// Writes the points of a node, as many as there is room for, in order. The text is the node's name with 8 bytes more, which are written
/// over. It answers whether it did: where no hash has the number, or the text has less than 8 bytes, nothing is written.
///
/// Proved:
///
/// ```text
/// exactly: IsTrue result ↔ (IsSome (kind_at kind) × (8 ≤ length text.old))
/// just: OnTrue result (IsPermutation
///     (points_of (hash_at kind) (take (length text.old - 8) text.old, length points.old) node) points.new)
/// ordered: OnTrue result (AllPairs IsBefore points.new)
/// name: take (length text.old - 8) text.new ≡ take (length text.old - 8) text.old
/// refused: OnFalse result ((points.new ≡ points.old) × (text.new ≡ text.old))
/// ```
#[inline]
pub fn hashers_ring_points(
    kind: u32,
    text: &mut [u8],
    node: usize,
    points: &mut [Point],
) -> bool {
    if kind_at(kind).is_none() || text.len() < 8 {
        return false;
    }
    let name = text.len() - 8;
    for number in 0..points.len() {
        text[name..].copy_from_slice(&(number as u64).to_le_bytes());
        points[number] = Point {
            place: hashers_hash(kind, text),
            node,
        };
    }
    hashers_ring_sort(points);
    true
}

/// Puts the points in order. Those of all nodes, one node's behind another's, become a ring so.
///
/// Proved:
///
/// ```text
/// moved: IsPermutation points.old points.new
/// ordered: AllPairs IsBefore points.new
/// ring: (hash : List ℕ → ℕ) (nodes : List (List ℕ × ℕ))
///     → T (is_sorted (slice_cmp nat_cmp) nodes)
///     → All (λ node. 1 ≤ node.1) nodes → ArePoints hash nodes points.old → IsRing hash nodes points.new
/// ```
#[inline]
pub fn hashers_ring_sort(points: &mut [Point]) {
    points::sort(points);
}

/// Puts the points of a new node, in order, among the others, of whose nodes those from its index on stand one further then. The others are
/// the first points of the array, which has as much room more as there are new ones. It answers whether it did: where there is too
/// little room, the one or the other points are not in order, or an index would pass the last one of `usize`, nothing changes.
///
/// Proved:
///
/// ```text
/// exactly: IsTrue result ↔ MayMerge points.old added.now
/// merged: OnTrue result (IsPermutation
///     (map (opened_up node) (take (length points.old - length added.now) points.old) ++ added.now) points.new)
/// ordered: OnTrue result (AllPairs IsBefore points.new)
/// ring: OnTrue result ((hash : List ℕ → ℕ) (nodes : List (List ℕ × ℕ)) (name : List ℕ)
///     → IsRing hash nodes (take (length points.old - length added.now) points.old) → IsGapAt nodes name node
///     → 1 ≤ length added.now → IsPermutation (points_of hash (name, length added.now) node) added.now
///     → IsRing hash (insert nodes node (name, length added.now)) points.new)
/// refused: OnFalse result (points.new ≡ points.old)
/// ```
#[inline]
pub fn hashers_ring_add(points: &mut [Point], added: &[Point], node: usize) -> bool {
    points::add(points, added, node)
}

/// Takes the points of a node out, counts the nodes of the others anew, and answers how many these are. What stands behind them then
/// means nothing.
///
/// Proved:
///
/// ```text
/// kept: take result points.new ≡ left_without node points.old
/// count: result ≡ length (left_without node points.old)
/// ring: (hash : List ℕ → ℕ) (nodes : List (List ℕ × ℕ)) → IsRing hash nodes points.old
///     → node < length nodes → IsRing hash (remove nodes node) (take result points.new)
/// ```
#[inline]
pub fn hashers_ring_remove(points: &mut [Point], node: usize) -> usize {
    points::remove(points, node)
}

/// Where the point stands whose node owns the place: the first one at or after it, round the ring. Where there are no points it is 0.
///
/// Proved:
///
/// ```text
/// within: 0 < length points.now → result < length points.now
/// none: length points.now ≡ 0 → result ≡ 0
/// first: AllPairs IsBefore points.now → (i : ℕ) → IsStart points.now place i
///     → result ≡ index_round (length points.now) i 0
/// owns: (hash : List ℕ → ℕ) (nodes : List (List ℕ × ℕ)) → 0 < length points.now
///     → IsRing hash nodes points.now → IsOwner hash (nodes_of nodes) place (name_at nodes points.now result)
/// ```
#[inline]
pub fn hashers_ring_owner(points: &[Point], place: u64) -> usize {
    points::owner_at(points, place)
}

/// Writes the first different nodes whose points come round from the place, and answers how many these are: all nodes that have a point,
/// or as many as there is room for. The first owns the place, the second would if the first were gone, and so on.
///
/// Proved:
///
/// ```text
/// within: result ≤ length nodes.old
/// own: (hash : List ℕ → ℕ) (named : List (List ℕ × ℕ)) → IsRing hash named points.now
///     → AreOwners hash (nodes_of named) place (names_at named (take result nodes.new))
/// real: (hash : List ℕ → ℕ) (named : List (List ℕ × ℕ)) → IsRing hash named points.now
///     → All (λ i. i < length named) (take result nodes.new)
/// count: (hash : List ℕ → ℕ) (named : List (List ℕ × ℕ)) → IsRing hash named points.now
///     → result ≡ min (length nodes.old) (length named)
/// rest: drop result nodes.new ≡ drop result nodes.old
/// ```
#[inline]
pub fn hashers_ring_owners(points: &[Point], place: u64, nodes: &mut [usize]) -> usize {
    points::owners_at(points, place, nodes)
}
