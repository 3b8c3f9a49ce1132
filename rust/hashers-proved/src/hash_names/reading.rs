//! The hash of that name of all that a reader gives.

// What follows is the proved text of crates/hash_names/src/reading.rt without its contracts.
#[allow(unused_imports)]
use crate::{hash_laws, std};

use crate::hash_names::table::{by_ported, ported_named};
use crate::hash_names::task::HashTask;
#[cfg(feature = "std")]
pub use hash_laws::reading::limited::Unhashed;
#[cfg(feature = "std")]
use hash_laws::reading::limited::{fed, hash_of_text};
use hash_laws::traits::{Piecewise, Streamed};
use std::io::Read;
use std::marker::PhantomData;

/// How many bytes are read at once, and fed at once to a hasher to which cuts show.
pub const PIECE: usize = 4096;

/// Why there is no hash of that name of what is read.
#[derive(Debug)]
pub enum NoHash {
    /// No hash has the name. Nothing was read.
    UnknownName,
    /// What is read has no hash.
    Unhashed(Unhashed),
}

/// To hash what a reader gives, if that is less than a limit in bytes.
struct HashRead<R> {
    source: PhantomData<R>,
}

impl<R: Read> HashTask for HashRead<R> {
    type Told = u64;

    type Input = R;

    type Outcome = Result<u64, Unhashed>;

    #[inline]
    fn by_text<H: Streamed>(limit: u64, r: &mut R) -> Result<u64, Unhashed> {
        hash_of_text::<H, R, PIECE>(limit, r)
    }

    #[inline]
    fn by_pieces<H: Piecewise>(limit: u64, r: &mut R) -> Result<u64, Unhashed> {
        let hasher = fed::<H, R, PIECE>(limit, r)?;
        Ok(hasher.answer())
    }
}

/// The hash of that name of all that is read, if that is less than `limit` bytes. lookup3 and fx take pieces of 4096 bytes. An unknown
/// name is refused before anything is read.
///
/// Proved:
///
/// ```text
/// HashesNamed (named name.now) (read limit R.remaining r.old r.new) result
/// ```
#[inline]
pub fn hash_named<R: Read>(name: &str, limit: u64, r: &mut R) -> Result<u64, NoHash> {
    match ported_named(name.as_bytes()) {
        Some(ported) => match by_ported::<HashRead<R>>(ported, limit, r) {
            Ok(hash) => Ok(hash),
            Err(unhashed) => Err(NoHash::Unhashed(unhashed)),
        },
        None => Err(NoHash::UnknownName),
    }
}
