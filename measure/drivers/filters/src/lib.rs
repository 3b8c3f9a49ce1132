//! The Bloom filter of rust/hashers-proved behind a C call, for `filters.c`.
use hashers_proved::bloom::Bloom;
use hashers_proved::fnv::FNV1aHasher64;
use hashers_proved::fx_hash::FxHasher;
use hashers_proved::jenkins::spooky_hash::SpookyHasher;
use hashers_proved::jenkins::Lookup3Hasher;
use hashers_proved::laws::Piecewise;
use hashers_proved::oz::{DJB2Hasher, SDBMHasher};
use std::ffi::{c_char, CStr};
use std::slice::from_raw_parts;

/// Makes a filter of so many bits and probes, inserts each key that is to be there, and asks so many rounds for the others, all of one size:
/// how many were found.
#[inline(never)]
fn found<F: Piecewise, G: Piecewise>(there: &[u8], asked: &[u8], size: usize, rounds: usize, bits: u64, probes: u32) -> u64 {
    let mut filter = Bloom::<F, G>::with_shape(bits, probes);
    there.chunks_exact(size).for_each(|key| drop(filter.insert(key)));
    (0..rounds).map(|_| asked.chunks_exact(size).filter(|key| filter.contains(key)).count() as u64).sum()
}

/// The same by the two hashes of that name.
#[no_mangle]
pub unsafe extern "C" fn measure_filters(
    pair: *const c_char, there: *const u8, there_len: usize, asked: *const u8, asked_len: usize, size: usize, rounds: usize, bits: u64, probes: u32,
) -> u64 {
    let of = match CStr::from_ptr(pair).to_bytes() {
        b"djb2, sdbm" => found::<DJB2Hasher, SDBMHasher>,
        b"fnv1a64, djb2" => found::<FNV1aHasher64, DJB2Hasher>,
        b"fnv1a64, lookup3" => found::<FNV1aHasher64, Lookup3Hasher>,
        b"fxhash, fnv1a64" => found::<FxHasher, FNV1aHasher64>,
        b"fxhash, lookup3" => found::<FxHasher, Lookup3Hasher>,
        b"spooky, lookup3" => found::<SpookyHasher, Lookup3Hasher>,
        _ => return u64::MAX,
    };
    of(from_raw_parts(there, there_len), from_raw_parts(asked, asked_len), size, rounds, bits, probes)
}
