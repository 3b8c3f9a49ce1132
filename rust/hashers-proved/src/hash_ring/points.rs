//! The points of a ring in an array of the caller's: without a heap, names or a hasher. Node `i` is the one with the name number `i` in the
//! order of bytes. A ring's points stand in the order of their places, and at one place in that of their nodes.

// What follows is the proved text of crates/hash_ring/src/points.rt without its contracts.

/// A point on the ring, and the index of its node among the nodes.
#[repr(C)]
#[derive(Clone, Copy, PartialEq, Eq, PartialOrd, Ord)]
pub struct Point {
    pub place: u64,
    pub node: usize,
}

/// The number where `is`, and 0 elsewhere. It is a shift, as the compiler makes a jump of an `if`, whose way no processor guesses.
///
/// The caller has to see to it that:
///
/// ```text
/// n < 2 ^ 63
/// ```
///
/// Proved:
///
/// ```text
/// result ≡ (if is then n else 0)
/// ```
#[inline]
fn if_so(is: bool, n: usize) -> usize {
    (n << u32::from(is)) - n
}

/// How many points a search without jumps is faster over: so many lie in a processor's caches.
const FEW: usize = 1 << 17;

/// Puts the points in order. Those of all nodes, one node's after another's, become a ring so.
///
/// Proved:
///
/// ```text
/// moved: IsPermutation points.old points.new
/// ordered: AllPairs IsBefore points.new
/// ring: (hash : List ℕ → ℕ) (nodes : List (List ℕ × ℕ))
///     → T (is_sorted (slice_cmp nat_cmp) nodes)
///     → All (λ node. 1 ≤ node.1) nodes → ArePoints hash nodes points.old → IsRing hash nodes points.new
/// ```
#[inline]
pub fn sort(points: &mut [Point]) {
    points.sort_unstable();
}

/// Where the first point at or after the place stands, or the points' end. Over many points each step waits for memory, and
/// jumps that are guessed fetch points early.
///
/// Proved:
///
/// ```text
/// within: result ≤ length points.now
/// start: AllPairs IsBefore points.now → IsStart points.now place result
/// ```
#[inline]
pub(crate) fn first_from(points: &[Point], place: u64) -> usize {
    if points.len() <= FEW {
        return first_without_jumps(points, place);
    }
    points.partition_point(|point| point.place < place)
}

/// The same, by a binary search that makes no jump on what a point is.
///
/// Proved:
///
/// ```text
/// within: result ≤ length points.now
/// start: AllPairs IsBefore points.now → IsStart points.now place result
/// ```
#[inline]
fn first_without_jumps(points: &[Point], place: u64) -> usize {
    let mut first = 0;
    let mut size = points.len();
    while size > 1 {
        let half = size / 2;
        first += if_so(points[first + half].place < place, half);
        size -= half;
    }
    if size == 1 && points[first].place < place {
        first + 1
    } else {
        first
    }
}

/// The index some steps after the first one, round a list of `n`.
///
/// The caller has to see to it that:
///
/// ```text
/// within: first ≤ n
/// below: steps < n
/// ```
///
/// Proved:
///
/// ```text
/// value: result ≡ index_round n first steps
/// in_range: result < n
/// ```
#[inline]
pub(crate) fn index_round(n: usize, first: usize, steps: usize) -> usize {
    if steps < n - first {
        first + steps
    } else {
        steps - (n - first)
    }
}

/// Where the point stands whose node owns the place: the first one at or after it, round the ring. Where there are no points it is 0.
/// It is a
/// binary search.
///
/// Proved:
///
/// ```text
/// within: 0 < length points.now → result < length points.now
/// none: length points.now ≡ 0 → result ≡ 0
/// first: AllPairs IsBefore points.now → (i : ℕ) → IsStart points.now place i
///     → result ≡ index_round (length points.now) i 0
/// owns: (hash : List ℕ → ℕ) (nodes : List (List ℕ × ℕ)) → 0 < length points.now
///     → IsRing hash nodes points.now → IsOwner hash (nodes_of nodes) place (name_at nodes points.now result)
/// ```
#[inline]
pub fn owner_at(points: &[Point], place: u64) -> usize {
    if points.is_empty() {
        return 0;
    }
    index_round(points.len(), first_from(points, place), 0)
}

/// Writes the first different nodes whose points come round from the place, and answers how many these are: all nodes that have a point,
/// or as many as there is room for. The first owns the place, the second would if the first were gone, and so on.
///
/// Proved:
///
/// ```text
/// within: result ≤ length nodes.old
/// own: (hash : List ℕ → ℕ) (named : List (List ℕ × ℕ)) → IsRing hash named points.now
///     → AreOwners hash (nodes_of named) place (names_at named (take result nodes.new))
/// real: (hash : List ℕ → ℕ) (named : List (List ℕ × ℕ)) → IsRing hash named points.now
///     → All (λ i. i < length named) (take result nodes.new)
/// count: (hash : List ℕ → ℕ) (named : List (List ℕ × ℕ)) → IsRing hash named points.now
///     → result ≡ min (length nodes.old) (length named)
/// rest: drop result nodes.new ≡ drop result nodes.old
/// ```
#[inline]
pub fn owners_at(points: &[Point], place: u64, nodes: &mut [usize]) -> usize {
    let first = first_from(points, place);
    let mut count = 0;
    for steps in 0..points.len() {
        if count == nodes.len() {
            return count;
        }
        let node = points[index_round(points.len(), first, steps)].node;
        if !nodes[..count].contains(&node) {
            nodes[count] = node;
            count += 1;
        }
    }
    count
}

/// The point, where a node comes at an index.
///
/// The caller has to see to it that:
///
/// ```text
/// point.node + 1 < 2 ^ 64
/// ```
///
/// Proved:
///
/// ```text
/// result ≡ opened_up come point
/// ```
#[inline(always)]
fn opened_up(come: usize, point: Point) -> Point {
    Point {
        node: point.node + usize::from(point.node >= come),
        ..point
    }
}

/// Merges the points of a new node with the others, the first `others` ones, of whose nodes those from its index on stand one further
/// then. The array fills from the end, so that no point is written over before it is read.
///
/// The caller has to see to it that:
///
/// ```text
/// room: length points.old ≡ others + length added.now
/// in_range: All (λ p. p.node + 1 < 2 ^ 64) (take others points.old)
/// others_ordered: AllPairs IsBefore (take others points.old)
/// added_ordered: AllPairs IsBefore added.now
/// ```
///
/// Proved:
///
/// ```text
/// merged: IsPermutation
///     (map (opened_up index) (take others points.old) ++ added.now) points.new
/// ordered: AllPairs IsBefore points.new
/// ```
#[inline]
pub(crate) fn merge_backward(points: &mut [Point], others: usize, added: &[Point], index: usize) {
    let mut left = others;
    let mut right = added.len();
    while left > 0 {
        let point = opened_up(index, points[left - 1]);
        if right > 0 && point < added[right - 1] {
            right -= 1;
            points[left + right] = added[right];
        } else {
            left -= 1;
            points[left + right] = point;
        }
    }
    points[..right].copy_from_slice(&added[..right]);
}

/// Whether the points stand in order.
///
/// Proved:
///
/// ```text
/// IsTrue result ↔ AllPairs IsBefore points.now
/// ```
#[inline]
fn are_in_order(points: &[Point]) -> bool {
    points.is_sorted()
}

/// Puts the points of a new node, in order, among the others, of whose nodes those from its index on stand one further then. The others are
/// the first points of the array, which has as much room more as there are new ones. It answers whether it did: where there is too
/// little room, the one or the other points are not in order, or an index would pass the last one of `usize`, nothing changes.
///
/// Proved:
///
/// ```text
/// exactly: IsTrue result ↔ MayMerge points.old added.now
/// merged: OnTrue result (IsPermutation
///     (map (opened_up index) (take (length points.old - length added.now) points.old) ++ added.now) points.new)
/// ordered: OnTrue result (AllPairs IsBefore points.new)
/// ring: OnTrue result ((hash : List ℕ → ℕ) (nodes : List (List ℕ × ℕ)) (name : List ℕ)
///     → IsRing hash nodes (take (length points.old - length added.now) points.old) → IsGapAt nodes name index
///     → 1 ≤ length added.now → IsPermutation (points_of hash (name, length added.now) index) added.now
///     → IsRing hash (insert nodes index (name, length added.now)) points.new)
/// refused: OnFalse result (points.new ≡ points.old)
/// ```
#[inline]
pub fn add(points: &mut [Point], added: &[Point], index: usize) -> bool {
    if points.len() < added.len() {
        return false;
    }
    let others = points.len() - added.len();
    let may = are_in_order(&points[..others])
        && are_in_order(added)
        && points[..others].iter().all(|point| point.node < usize::MAX);
    if may {
        merge_backward(points, others, added, index);
    }
    may
}

/// The point, where the node at an index has gone.
///
/// Proved:
///
/// ```text
/// result ≡ closed_up gone point
/// ```
#[inline(always)]
fn closed_up(gone: usize, point: Point) -> Point {
    Point {
        node: point.node - usize::from(point.node > gone),
        ..point
    }
}

/// Takes the points of a node out, counts the nodes of the others again, and returns how many these are. What stands after them then
/// means nothing.
///
/// Proved:
///
/// ```text
/// kept: take result points.new ≡ left_without gone points.old
/// count: result ≡ length (left_without gone points.old)
/// ring: (hash : List ℕ → ℕ) (nodes : List (List ℕ × ℕ)) → IsRing hash nodes points.old
///     → gone < length nodes → IsRing hash (remove nodes gone) (take result points.new)
/// ```
#[inline]
pub fn remove(points: &mut [Point], gone: usize) -> usize {
    let mut kept = 0;
    for index in 0..points.len() {
        let point = points[index];
        points[kept] = closed_up(gone, point);
        kept += usize::from(point.node != gone);
    }
    kept
}
