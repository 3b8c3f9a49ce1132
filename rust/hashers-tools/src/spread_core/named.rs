//! The hashes of keys, by a hasher or by its name.

// What follows is the proved text of crates/spread_core/src/named.rt without its contracts.
// Proofs name the loops.
#![allow(unused_labels)]
use hashers_proved::{hash_kinds, hash_names, hashers, text_set};
use hashers_proved::shim::{Vec, std};

use crate::spread_core::counts::{Counts, counts_of};
use crate::spread_core::sizes::Sizes;
use hash_kinds::table::{Kind, by_kind};
use hash_names::task::HashTask;
use hashers::laws::{Piecewise, Streamed, hash_of};
use std::alloc::{AllocError, Global};
use text_set::{RandomKeys, Texts};

/// Keys, and the hash of each.
pub struct Hashed {
    /// The keys, each once.
    pub keys: Texts<RandomKeys>,
    /// The hashes that were computed last, in no order that is promised.
    pub hashes: Vec<u64>,
}

/// Puts the hash of each key at its place.
///
/// The caller has to see to it that:
///
/// ```text
/// length hashes.old ≡ length keys.now.texts
/// ```
///
/// Proved:
///
/// ```text
/// hashes: hashes.new ≡ map H.hash_of keys.now.texts
/// texts: All IsText keys.now.texts
/// ```
#[inline]
pub fn hash_each<H: Piecewise>(keys: &Texts<RandomKeys>, hashes: &mut [u64]) {
    for i in 0..hashes.len() {
        hashes[i] = hash_of::<H>(keys.text_at(i));
    }
}

/// Makes room for a hash of each key.
///
/// Proved:
///
/// ```text
/// OnOk result (length hashes.new.items ≡ count)
/// ```
#[inline]
fn make_room(hashes: &mut Vec<u64>, count: usize) -> Result<(), AllocError> {
    hashes.resize(count, 0)
}

/// Hashes the keys so many times, and once at least.
///
/// Proved:
///
/// ```text
/// keys: hashed.new.keys ≡ hashed.old.keys
/// hashes: OnOk result (hashed.new.hashes.items ≡ map H.hash_of hashed.old.keys.texts)
/// texts: OnOk result (All IsText hashed.old.keys.texts)
/// ```
#[inline]
fn hash_often<H: Piecewise>(rounds: u32, hashed: &mut Hashed) -> Result<(), AllocError> {
    make_room(&mut hashed.hashes, hashed.keys.len())?;
    hash_each::<H>(&hashed.keys, &mut hashed.hashes);
    'again: for _ in 1..rounds {
        hash_each::<H>(&hashed.keys, &mut hashed.hashes);
    }
    Ok(())
}

/// To hash keys so many times, and once at least. A key is one piece.
struct HashKeys;

impl HashTask for HashKeys {
    type Told = u32;

    type Input = Hashed;

    type Outcome = Result<(), AllocError>;

    #[inline]
    fn by_text<H: Streamed>(rounds: u32, hashed: &mut Hashed) -> Result<(), AllocError> {
        hash_often::<H>(rounds, hashed)
    }

    #[inline]
    fn by_pieces<H: Piecewise>(rounds: u32, hashed: &mut Hashed) -> Result<(), AllocError> {
        hash_often::<H>(rounds, hashed)
    }
}

/// Hashes the keys by that hash, so many times, and once at least. A key is one piece; the keys stay.
///
/// Proved:
///
/// ```text
/// IsHashed (hash_of kind) hashed.old hashed.new result
/// ```
#[inline]
pub fn hash_by(kind: Kind, rounds: u32, hashed: &mut Hashed) -> Result<(), AllocError> {
    by_kind::<HashKeys>(kind, rounds, hashed)
}

/// The numbers of the hashes of the keys by that hash. The keys stay.
///
/// Proved:
///
/// ```text
/// keys: hashed.new.keys ≡ hashed.old.keys
/// counts: IfOk result (IsCounts sizes (map (hash_of kind) hashed.old.keys.texts))
/// ```
#[inline]
pub fn counts_by(
    alloc: Global,
    kind: Kind,
    sizes: Sizes,
    hashed: &mut Hashed,
) -> Result<Counts, AllocError> {
    hash_by(kind, 1, hashed)?;
    counts_of(alloc, &mut hashed.hashes, sizes)
}
