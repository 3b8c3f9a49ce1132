//! poly61 and SipHash-2-4 under two keys, of what a reader gives.

// What follows is the proved text of crates/hash_lines/src/keys.rt without its contracts.
use crate::{hash_blocks, hash_keyed, hash_kinds, hashers};
use crate::shim::std;

use hash_blocks::siphash::{SipHasher24, SipKey};
use hash_keyed::pair::Poly61Pair;
use hash_kinds::reading::Unhashed;
use hashers::reader::hash_stream;
use std::io::Read;

/// poly61 under two keys of what is read, the hash at the first key above that at the second.
///
/// The caller has to see to it that:
///
/// ```text
/// not_empty: 0 < N
/// small: N ≤ 65536
/// ```
///
/// Proved:
///
/// ```text
/// Hashes (poly61_at_both keys) (read limit R.remaining r.old r.new) result
/// ```
#[inline]
pub(crate) fn hash_of_poly61<R: Read, const N: usize>(
    keys: (u64, u64),
    limit: u64,
    r: &mut R,
) -> Result<u128, Unhashed> {
    const { assert!(0 < N) };
    let mut pair = Poly61Pair::new(keys.0, keys.1);
    match hash_stream::<Poly61Pair, R, N>(&mut pair, r, limit) {
        Err(fault) => Err(Unhashed::ReadFault(fault)),
        Ok(taken) => {
            if !taken.ended {
                return Err(Unhashed::TooLong);
            }
            let (high, low) = pair.finish();
            Ok(u128::from(high) * (1 << 64) + u128::from(low))
        }
    }
}

/// SipHash-2-4 of what is read, under a key of these two words.
///
/// The caller has to see to it that:
///
/// ```text
/// not_empty: 0 < N
/// small: N ≤ 65536
/// ```
///
/// Proved:
///
/// ```text
/// Hashes (siphash24_at keys) (read limit R.remaining r.old r.new) result
/// ```
#[inline]
pub(crate) fn hash_of_siphash24<R: Read, const N: usize>(
    keys: (u64, u64),
    limit: u64,
    r: &mut R,
) -> Result<u64, Unhashed> {
    const { assert!(0 < N) };
    let (k0, k1) = keys;
    let mut hasher = SipHasher24::new(SipKey { k0, k1 });
    match hash_stream::<SipHasher24, R, N>(&mut hasher, r, limit) {
        Err(fault) => Err(Unhashed::ReadFault(fault)),
        Ok(taken) => {
            if taken.ended {
                Ok(hasher.hash())
            } else {
                Err(Unhashed::TooLong)
            }
        }
    }
}
