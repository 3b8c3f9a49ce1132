//! The hash by a kind of all that a reader gives.

// What follows is the proved text of crates/hash_kinds/src/reading.rt without its contracts.
#[allow(unused_imports)]
use crate::{hash_laws, hash_names, std};

use crate::hash_kinds::table::{Kind, by_kind};
use crate::hash_kinds::wide::WideHash;
#[cfg(feature = "std")]
use hash_laws::reading::limited::{fed, hash_of_text};
use hash_laws::traits::{Piecewise, Streamed};
#[cfg(feature = "std")]
pub use hash_names::reading::{PIECE, Unhashed};
use hash_names::task::HashTask;
use std::io::Read;
use std::marker::PhantomData;

/// How many bytes are read at once.
pub const BUFFER: usize = 65536;

/// The 128 bits of what is read, as one number.
///
/// The caller has to see to it that:
///
/// ```text
/// not_empty: 0 < N
/// small: N ≤ 65536
/// ```
///
/// Proved:
///
/// ```text
/// Hashes H.wide_of (read limit R.remaining r.old r.new) result
/// ```
#[inline]
pub fn hash_of_wide<H: WideHash, R: Read, const N: usize>(
    limit: u64,
    r: &mut R,
) -> Result<u128, Unhashed> {
    const { assert!(0 < N) };
    let hasher = fed::<H, R, N>(limit, r)?;
    Ok(hasher.wide())
}

/// To hash what a reader gives, if that is less than a limit in bytes.
struct HashRead<R> {
    source: PhantomData<R>,
}

impl<R: Read> HashTask for HashRead<R> {
    type Told = u64;

    type Input = R;

    type Outcome = Result<u64, Unhashed>;

    #[inline]
    fn by_text<H: Streamed>(limit: u64, r: &mut R) -> Result<u64, Unhashed> {
        hash_of_text::<H, R, BUFFER>(limit, r)
    }

    #[inline]
    fn by_pieces<H: Piecewise>(limit: u64, r: &mut R) -> Result<u64, Unhashed> {
        let hasher = fed::<H, R, PIECE>(limit, r)?;
        Ok(hasher.answer())
    }
}

/// The hash by that kind of all that is read, if that is less than `limit` bytes. lookup3 and fx take pieces of 4096 bytes.
///
/// Proved:
///
/// ```text
/// Hashes (read_of kind) (read limit R.remaining r.old r.new) result
/// ```
#[inline]
pub fn hash_by<R: Read>(kind: Kind, limit: u64, r: &mut R) -> Result<u64, Unhashed> {
    by_kind::<HashRead<R>>(kind, limit, r)
}
