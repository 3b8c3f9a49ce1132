//! The hash of all that a reader gives, if that is less than a limit.

// What follows is the proved text of crates/hash_laws/src/reading/limited.rt without its contracts.
#[allow(unused_imports)]
use crate::std;

#[cfg(feature = "std")]
use crate::hash_laws::reading::reader::{Fault, hash_reader};
use crate::hash_laws::traits::{Piecewise, Streamed};
use std::io::Read;

/// Why there is no hash of what is read.
#[derive(Debug)]
pub enum Unhashed {
    /// A read failed.
    ReadFault(Fault),
    /// As many bytes were read as the limit allows, and no end was seen.
    TooLong,
}

/// A default hasher that was fed all that is to be read in pieces of `N` bytes, if that is less than `limit` bytes.
///
/// The caller has to see to it that:
///
/// ```text
/// not_empty: 0 < N
/// small: N ≤ 65536
/// ```
///
/// Proved:
///
/// ```text
/// Feeds N H.after H.fresh H.state (read limit R.remaining r.old r.new) result
/// ```
#[inline]
pub fn fed<H: Piecewise, R: Read, const N: usize>(limit: u64, r: &mut R) -> Result<H, Unhashed> {
    const { assert!(0 < N) };
    let mut hasher = H::fresh();
    match hash_reader::<H, R, N>(&mut hasher, r, limit) {
        Err(fault) => Err(Unhashed::ReadFault(fault)),
        Ok(taken) => {
            if taken.ended {
                Ok(hasher)
            } else {
                Err(Unhashed::TooLong)
            }
        }
    }
}

/// The hash of what is read, as of one text.
///
/// The caller has to see to it that:
///
/// ```text
/// not_empty: 0 < N
/// small: N ≤ 65536
/// ```
///
/// Proved:
///
/// ```text
/// Hashes H.hash_of (read limit R.remaining r.old r.new) result
/// ```
#[inline]
pub fn hash_of_text<H: Streamed, R: Read, const N: usize>(
    limit: u64,
    r: &mut R,
) -> Result<u64, Unhashed> {
    const { assert!(0 < N) };
    let hasher = fed::<H, R, N>(limit, r)?;
    Ok(hasher.answer())
}
