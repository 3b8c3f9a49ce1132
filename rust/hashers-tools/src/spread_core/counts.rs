//! How hashes fall into buckets, and how many of them are equal. A hash falls into the bucket that its rest by the number of
//! buckets names.

// What follows is the proved text of crates/spread_core/src/counts.rt without its contracts.
use hashers_proved::shim::{Vec, std};

use crate::spread_core::sizes::Sizes;
use std::alloc::{AllocError, Global};

/// How hashes fall into so many buckets.
#[derive(Clone, Copy, Debug, PartialEq, Eq)]
pub struct Spread {
    /// How many buckets there are.
    pub buckets: u64,
    /// How many hashes the fullest has.
    pub fullest: u64,
    /// How many are empty.
    pub empty: u64,
    /// The sum of the squares of what they have.
    pub squares: u128,
}

/// The numbers of the hashes of keys.
#[derive(Clone, Copy, Debug, PartialEq, Eq)]
pub struct Counts {
    /// How many pairs of hashes are equal.
    pub collisions: u128,
    /// How they fall into the first number of buckets.
    pub first: Spread,
    /// How they fall into the second, if there is one.
    pub second: Option<Spread>,
}

/// How many of the hashes fall into each bucket.
///
/// The caller has to see to it that:
///
/// ```text
/// 0 < buckets
/// ```
///
/// Proved:
///
/// ```text
/// IfOk result (λ counts. counts.items ≡ bucket_counts buckets hashes.now)
/// ```
#[inline]
fn bucket_counts(alloc: Global, hashes: &[u64], buckets: u64) -> Result<Vec<u64>, AllocError> {
    let mut counts = Vec::new(alloc);
    counts.resize(buckets as usize, 0)?;
    for hash in hashes {
        let bucket = (*hash % buckets) as usize;
        counts[bucket] += 1;
    }
    Ok(counts)
}

/// The greatest of the counts; 0 where there is none.
///
/// Proved:
///
/// ```text
/// most: All (λ count. count ≤ result) counts.now
/// reached: 0 < length counts.now → Contains counts.now result
/// ```
#[inline]
fn fullest(counts: &[u64]) -> u64 {
    counts.iter().copied().max().unwrap_or(0)
}

/// How many of the counts are 0.
///
/// Proved:
///
/// ```text
/// result ≡ count_by (λ count. count == 0) counts.now
/// ```
#[inline]
fn empty(counts: &[u64]) -> u64 {
    counts.iter().filter(|count| **count == 0).count() as u64
}

/// The sum of the squares of the counts.
///
/// The caller has to see to it that:
///
/// ```text
/// sum counts.now < 2 ^ 64
/// ```
///
/// Proved:
///
/// ```text
/// result ≡ sum_by (λ count. count * count) counts.now
/// ```
#[inline]
fn squares(counts: &[u64]) -> u128 {
    let mut total: u128 = 0;
    for count in counts {
        let wide = u128::from(*count);
        total += wide * wide;
    }
    total
}

/// How the hashes fall into so many buckets. It takes 8 bytes for each bucket, and refuses only where there is no memory for them.
///
/// The caller has to see to it that:
///
/// ```text
/// 0 < buckets
/// ```
///
/// Proved:
///
/// ```text
/// IfOk result (IsSpread buckets hashes.now)
/// ```
#[inline]
pub fn spread_of(alloc: Global, hashes: &[u64], buckets: u64) -> Result<Spread, AllocError> {
    let counts = bucket_counts(alloc, hashes, buckets)?;
    Ok(Spread {
        buckets,
        fullest: fullest(&counts),
        empty: empty(&counts),
        squares: squares(&counts),
    })
}

/// How many hashes before that place equal the one there, of hashes in order. It is told the same of the place before.
///
/// The caller has to see to it that:
///
/// ```text
/// order: IsNonDecreasing hashes.now
/// within: place < length hashes.now
/// before: 0 < place → equal ≡ times (slice_index hashes.now (place - 1)) (take (place - 1) hashes.now)
/// ```
///
/// Proved:
///
/// ```text
/// result ≡ times (slice_index hashes.now place) (take place hashes.now)
/// ```
#[inline]
fn equal_before(hashes: &[u64], place: usize, equal: u64) -> u64 {
    if place == 0 {
        return 0;
    }
    if hashes[place] == hashes[place - 1] {
        equal + 1
    } else {
        0
    }
}

/// How many pairs of hashes are equal, of hashes in order.
///
/// The caller has to see to it that:
///
/// ```text
/// IsNonDecreasing hashes.now
/// ```
///
/// Proved:
///
/// ```text
/// result ≡ collisions hashes.now
/// ```
#[inline]
fn collisions_in_order(hashes: &[u64]) -> u128 {
    let mut total: u128 = 0;
    let mut equal: u64 = 0;
    for i in 0..hashes.len() {
        equal = equal_before(hashes, i, equal);
        total += u128::from(equal);
    }
    total
}

/// How many pairs of hashes are equal. It sorts them: the number does not depend on their order.
///
/// Proved:
///
/// ```text
/// value: result ≡ collisions hashes.old
/// kept: IsPermutation hashes.old hashes.new
/// ```
#[inline]
pub fn collisions(hashes: &mut [u64]) -> u128 {
    hashes.sort_unstable();
    collisions_in_order(hashes)
}

/// How the hashes fall into the second number of buckets, if there is one.
///
/// The caller has to see to it that:
///
/// ```text
/// ForSome size (λ buckets. 0 < buckets)
/// ```
///
/// Proved:
///
/// ```text
/// IfOk result (IsSecond size hashes.now)
/// ```
#[inline]
fn second_spread(
    alloc: Global,
    hashes: &[u64],
    size: Option<u64>,
) -> Result<Option<Spread>, AllocError> {
    match size {
        Some(buckets) => {
            let spread = spread_of(alloc, hashes, buckets)?;
            Ok(Some(spread))
        }
        None => Ok(None),
    }
}

/// The numbers of the hashes, which it sorts.
///
/// Proved:
///
/// ```text
/// IfOk result (IsCounts sizes hashes.old)
/// ```
#[inline]
pub fn counts_of(alloc: Global, hashes: &mut [u64], sizes: Sizes) -> Result<Counts, AllocError> {
    let first = spread_of(alloc, hashes, sizes.first)?;
    let second = second_spread(alloc, hashes, sizes.second)?;
    Ok(Counts {
        collisions: collisions(hashes),
        first,
        second,
    })
}
