#![cfg_attr(feature = "std", doc = include_str!("../README.md"))]
#![cfg_attr(not(feature = "std"), doc = "The hashes alone, over core. With the feature `std`, which README.md describes, there is more.")]
//!
//! # Hashes
//!
//! | Hash of all bytes at once | Hasher |
//! |---|---|
// declared: hashes
//! | [`fnv::fnv1a32`] | [`fnv::FNV1aHasher32`] |
//! | [`fnv::fnv1a64`] | [`fnv::FNV1aHasher64`] |
//! | [`oz::djb2`] | [`oz::DJB2Hasher`] |
//! | [`oz::sdbm`] | [`oz::SDBMHasher`] |
//! | [`oz::loselose`] | [`oz::LoseLoseHasher`] |
//! | [`pigeon::bricolage`] | [`pigeon::Bricolage`] |
//! | [`jenkins::oaat`] | [`jenkins::OAATHasher`] |
//! | [`jenkins::lookup3`] | [`jenkins::Lookup3Hasher`] |
//! | [`jenkins::spooky_hash::spooky`] | [`jenkins::spooky_hash::SpookyHasher`] |
//! | [`jenkins::spooky_hash::spooky_v1`] | [`jenkins::spooky_hash::SpookyV1Hasher`] |
//! | [`null::passthrough`] | [`null::PassThroughHasher`] |
//! | [`fx_hash::fxhash`] | [`fx_hash::FxHasher`] |
//! | [`fx_hash::fxhash32`] | [`fx_hash::FxHasher32`] |
//! | [`fx_hash::fxhash64`] | [`fx_hash::FxHasher64`] |
//! | [`crc32::crc32`] | [`crc32::Crc32Hasher`] |
//! | [`crc32::crc32c`] | [`crc32::Crc32cHasher`] |
//! | [`more::fnv1_32`] | [`more::Fnv1Hasher32`] |
//! | [`more::fnv1_64`] | [`more::Fnv1Hasher64`] |
//! | [`more::djb2_add::djb2_add`] | [`more::Djb2AddHasher`] |
//! | [`more::joaat::joaat`] | [`more::JoaatHasher`] |
//! | [`more::elf::elf`] | [`more::ElfHasher`] |
//! | [`null::null`] | [`null::NullHasher`] |
//! | [`xxhash::xxh32`] | [`xxhash::Xxh32Hasher`] |
//! | [`xxhash::xxh64`] | [`xxhash::Xxh64Hasher`] |
//! | [`murmur3::murmur3_32`] | [`murmur3::Murmur3Hasher32`] |
//! | [`murmur3::murmur3_128`] | [`murmur3::Murmur3Hasher128`] |
//! | [`siphash::siphash13`] | [`siphash::SipHasher13`] |
//! | [`siphash::siphash24`] | [`siphash::SipHasher24`] |
//! | [`xxhash::xxh3_64`] | [`xxhash::Xxh3Hasher`] |
// end of declared
#![no_std]
#![forbid(unsafe_code)]
#![warn(missing_docs)]
// In the proved text, whose language has no such lints.
#![allow(clippy::manual_is_multiple_of, clippy::new_without_default, clippy::precedence)]
#![allow(clippy::collapsible_if, clippy::extra_unused_type_parameters, clippy::manual_find, clippy::manual_map, clippy::needless_range_loop)]

#[cfg(target_endian = "big")]
compile_error!("hashers-proved is for little-endian hosts: std feeds numbers in the host's order, and little-endian is what is proved");
#[cfg(not(any(target_pointer_width = "32", target_pointer_width = "64")))]
compile_error!("hashers-proved is for hosts of 64 bits, and of 32");

#[cfg(feature = "std")]
extern crate std as real_std;

// The sources name `std`: core's items, or std's, and the two modules of Rattle's std that stable Rust has not.
mod std {
    #[cfg(not(feature = "std"))]
    pub use core::*;
    #[cfg(feature = "std")]
    pub use real_std::*;

    pub use crate::shim::{simd, snapshot};
}

#[macro_use]
#[doc(hidden)]
#[allow(missing_docs)]
pub mod shim;
mod extras;

// One module for each Rattle crate, the lowest first.
#[doc(hidden)]
pub mod hash_words;
#[doc(hidden)]
pub mod hash_rounds;
#[doc(hidden)]
pub mod hash_laws;
#[doc(hidden)]
pub mod hash_writes;
// It imports the trait for `write`, which extras.rs makes a method.
#[doc(hidden)]
#[allow(unused_imports)]
pub mod hash_fx;
#[doc(hidden)]
pub mod hash_jenkins;
#[doc(hidden)]
pub mod hash_blocks;
#[doc(hidden)]
pub mod hash_xxh3;
#[doc(hidden)]
pub mod hash_bytes;
#[doc(hidden)]
pub mod hash_more;
#[doc(hidden)]
pub mod hash_theorems;
#[doc(hidden)]
pub mod hashers;
#[doc(hidden)]
pub mod hash_keyed {
    mod modular;
    pub mod pair;
    pub mod parts;
    pub mod poly61;
    mod words;
}
#[doc(hidden)]
pub mod hash_map_keys {
    pub mod hasher;
    pub mod keys {
        pub use crate::extras::MapKeys;
    }
    pub mod numbers;
    mod words;
    pub mod xxh3_pieces;
}
#[cfg(not(feature = "std"))]
#[doc(hidden)]
pub mod hash_bloom {
    pub mod bits;
    pub mod words;
}
#[cfg(not(feature = "std"))]
#[doc(hidden)]
pub mod hash_cuts {
    mod cuts;
    mod gear;
    pub use cuts::{Chunks, Cuts};
}
#[cfg(not(feature = "std"))]
#[doc(hidden)]
pub mod hash_ring {
    pub mod points;
}
#[doc(hidden)]
pub mod hash_names {
    #[cfg(feature = "std")]
    pub mod reading;
    pub mod table;
    pub mod task;
}
#[doc(hidden)]
pub mod hash_kinds {
    #[cfg(feature = "std")]
    pub mod reading;
    pub mod table;
    pub mod wide;
}
// What takes memory, reads or writes.
#[cfg(feature = "std")]
#[doc(hidden)]
pub mod text_set;
#[cfg(feature = "std")]
#[doc(hidden)]
pub mod hash_lines;
#[cfg(feature = "std")]
#[doc(hidden)]
pub mod streams {
    pub mod failure;
    pub mod hex;
    pub mod tries;
}
#[cfg(feature = "std")]
#[doc(hidden)]
pub mod hash_buckets;
#[cfg(feature = "std")]
#[doc(hidden)]
pub mod hash_ring;
#[cfg(feature = "std")]
#[doc(hidden)]
pub mod hash_cuts;
#[cfg(feature = "std")]
#[doc(hidden)]
pub mod hash_bloom;

/// A file is hashed by `io::copy`, or by [`hash_stream`](reader::hash_stream), which takes an array's size and a limit:
///
/// ```
/// use hashers_proved::{reader::hash_stream, xxhash::Xxh3Hasher};
/// use std::{fs::File, hash::Hasher, io};
///
/// let (mut copied, mut read) = (Xxh3Hasher::new(0), Xxh3Hasher::new(0));
/// io::copy(&mut File::open("Cargo.toml")?, &mut copied)?;
/// hash_stream::<_, _, 65536>(&mut read, &mut File::open("Cargo.toml")?, u64::MAX)?;
/// assert_eq!(copied.finish(), read.finish());
/// # Ok::<(), io::Error>(())
/// ```
///
/// An array of no bytes to read through does not compile:
///
/// ```compile_fail
/// use hashers_proved::{fnv::FNV1aHasher64, reader::hash_stream};
///
/// let _ = hash_stream::<_, _, 0>(&mut FNV1aHasher64::default(), &mut b"a".as_slice(), 1);
/// ```
#[cfg(feature = "std")]
#[doc(inline)]
pub use hashers::reader;
#[doc(inline)]
pub use hashers::{build, laws, null, promises, rounds, rules, window};

/// FxHasher in a map:
///
/// ```
/// use hashers_proved::fx_hash::FxHasher;
/// use std::{collections::HashMap, hash::BuildHasherDefault};
///
/// let ages: HashMap<u32, u32, BuildHasherDefault<FxHasher>> = HashMap::from_iter([(1815, 36)]);
/// assert_eq!(ages[&1815], 36);
/// ```
#[doc(inline)]
pub use hashers::fx_hash;

/// djb2, whose last bytes can be undone:
///
/// ```
/// use hashers_proved::oz::{djb2, DJB2Hasher};
/// use std::hash::Hasher;
///
/// let mut hasher = DJB2Hasher::default();
/// hasher.write(b"abc");
/// hasher.unwrite(b"bc");
/// assert_eq!(hasher.finish(), djb2(b"a"));
/// ```
#[doc(inline)]
pub use hashers::oz;

/// One byte that differs always gives another hash:
///
/// ```
/// use hashers_proved::pigeon::bricolage;
///
/// assert_ne!(bricolage(b"pigeon"), bricolage(b"pidgon"));
/// ```
#[doc(inline)]
pub use hashers::pigeon;

/// FNV-1a of 32 and 64 bits.
///
/// ```
/// use hashers_proved::fnv::{fnv1a32_u32, fnv1a64, FNV1aHasher64};
/// use std::hash::Hasher;
///
/// let mut hasher = FNV1aHasher64::default();
/// hasher.write(b"a");
/// assert_eq!((hasher.finish(), fnv1a64(b"a"), fnv1a32_u32(b"a")), (0xaf63dc4c8601ec8c, 0xaf63dc4c8601ec8c, 0xe40c292c));
/// hasher.reset();
/// assert_eq!(hasher.finish(), fnv1a64(b""));
/// ```
pub mod fnv {
    #[doc(inline)]
    pub use crate::extras::fnv1a32_u32;
    #[doc(inline)]
    pub use crate::hashers::fnv::*;
}

#[cfg(not(feature = "std"))]
#[doc(inline)]
pub use hash_bloom::words as bloom;
#[cfg(not(feature = "std"))]
#[doc(inline)]
pub use hash_ring::points as ring;

// The uses, whose calls a user of Rust expects: each over its proved module, by hand.
#[cfg(feature = "std")]
pub mod bloom;
#[cfg(feature = "std")]
pub mod buckets;
#[cfg(feature = "std")]
pub mod cuts;
#[cfg(feature = "std")]
pub mod lines;
#[cfg(feature = "std")]
pub mod ring;

/// Bob Jenkins' hash functions: one-at-a-time, lookup3 and SpookyHash.
///
/// ```
/// use hashers_proved::jenkins::{oaat, spooky_hash::{spooky128, SpookyHasher}};
/// use std::hash::Hasher;
///
/// let mut hasher = SpookyHasher::new(1, 2);
/// hasher.write(b"in two ");
/// hasher.write(b"pieces");
/// assert_eq!(hasher.finish128(), spooky128(1, 2, b"in two pieces"));
/// assert_ne!(oaat(b"a"), oaat(b"b"));
/// ```
pub mod jenkins {
    #[doc(inline)]
    pub use crate::hash_jenkins::*;
    #[doc(inline)]
    pub use crate::hashers::jenkins::BuildSpooky;
    #[doc(inline)]
    pub use crate::hash_theorems::jenkins::{block::block_for, stretch, two_texts};

    /// SpookyHash under two seeds, of 64 or 128 bits, of a text at once or in parts.
    pub mod spooky_hash {
        #[doc(inline)]
        pub use crate::extras::{spooky128, spooky128_v1};
        #[doc(inline)]
        pub use crate::hash_jenkins::spooky_hash::*;
    }
}

/// Relatives that other programs compute, which the crate hashers 1.0.1 does not have.
///
/// ```
/// use hashers_proved::more::{crc32, crc32_combine};
///
/// assert_eq!(crc32(b"123456789"), 0xcbf43926);
/// assert_eq!(crc32_combine(crc32(b"1234"), crc32(b"56789"), 5), 0xcbf43926);
/// ```
pub mod more {
    #[doc(inline)]
    pub use crate::hash_more::*;
    #[doc(inline)]
    pub use crate::hash_theorems::more::*;
    #[doc(inline)]
    pub use crate::hash_more::{crc32::*, djb2_add::*, elf::*, fnv1::*, joaat::*};
}

/// Hashes by the block that other systems take: MurmurHash3, XXH32 and XXH64 under a seed, and SipHash under a key.
///
/// ```
/// use hashers_proved::blocks::{Xxh64Hasher, murmur3_32, xxh64};
/// use std::hash::Hasher;
///
/// assert_eq!(murmur3_32(0, b"hello"), 0x248bfa47);
/// let mut hasher = Xxh64Hasher::new(7);
/// hasher.write(b"in two ");
/// hasher.write(b"pieces");
/// assert_eq!(hasher.finish(), xxh64(7, b"in two pieces"));
/// ```
pub mod blocks {
    #[doc(inline)]
    pub use crate::hash_theorems::blocks::*;
    #[doc(inline)]
    pub use crate::extras::{BuildMurmur3At128, BuildMurmur3At32, BuildXxh32, BuildXxh64, SipKeys};
    #[doc(inline)]
    pub use crate::hash_blocks::{BlockHasher, BlockRule, WideRule};
    #[doc(inline)]
    pub use crate::hash_blocks::murmur3::*;
    #[doc(inline)]
    pub use crate::hash_blocks::siphash::*;
    #[doc(inline)]
    pub use crate::hash_blocks::xxhash::*;
}

/// XXH32, XXH64 and XXH3.
pub mod xxhash {
    #[doc(inline)]
    pub use crate::extras::{BuildXxh32, BuildXxh64};
    #[doc(inline)]
    pub use crate::hash_blocks::xxhash::*;
    #[doc(inline)]
    pub use crate::xxh3::*;
}

/// MurmurHash3 of 32 and 128 bits.
pub mod murmur3 {
    #[doc(inline)]
    pub use crate::extras::{BuildMurmur3At128, BuildMurmur3At32};
    #[doc(inline)]
    pub use crate::hash_blocks::murmur3::*;
}

/// SipHash-1-3 and SipHash-2-4.
pub mod siphash {
    #[doc(inline)]
    pub use crate::extras::SipKeys;
    #[doc(inline)]
    pub use crate::hash_blocks::siphash::*;
}

/// CRC-32 and CRC-32C.
pub mod crc32 {
    #[doc(inline)]
    pub use crate::extras::{crc32_u32, crc32c_u32};
    #[doc(inline)]
    pub use crate::hash_more::crc32::*;
}

/// XXH3 of 64 and 128 bits under a seed, of a text at once or in parts, and the texts of given hashes. No protection: whoever knows the seed
/// writes down 2^64 texts of one hash.
///
/// ```
/// use hashers_proved::xxh3::{unmix::bytes_for, xxh3_128, xxh3_64, Xxh3Hasher};
/// use std::hash::Hasher;
///
/// let mut hasher = Xxh3Hasher::new(7);
/// hasher.write(b"in two ");
/// hasher.write(b"pieces");
/// assert_eq!(hasher.finish(), xxh3_64(7, b"in two pieces"));
/// assert_eq!(hasher.finish128(), xxh3_128(7, b"in two pieces"));
/// // each hash has one text of eight bytes
/// assert_eq!(bytes_for(7, xxh3_64(7, b"8 letter")), *b"8 letter");
/// ```
pub mod xxh3 {
    #[doc(inline)]
    pub use crate::extras::xxh3_u128;
    #[doc(inline)]
    pub use crate::hash_map_keys::xxh3_pieces::*;
    #[doc(inline)]
    pub use crate::hash_xxh3::*;
    #[doc(inline)]
    pub use crate::hash_theorems::xxh3::*;
}

/// The polynomial hash of Carter and Wegman over 2^61 - 1, at a key. Of the 2^61 - 1 keys at most n / 7 + 2 give two different texts of up
/// to n bytes one hash. That is proved of the Rattle text, by laws that have no code. It is no protection against who sees hashes or times.
/// `Debug` shows no key.
///
/// ```
/// use hashers_proved::keyed::poly61;
///
/// // the hash of a text at a key of one's own
/// assert_eq!(poly61(7, b"a"), 2520);
/// ```
pub mod keyed {
    #[doc(inline)]
    pub use crate::hash_keyed::{pair::*, parts::*, poly61::*};
}

/// A hash of numbers at a key: the high half of the 128 bits of a product and a sum (Dietzfelbinger 1996), with a product more for a second
/// word. Over all keys any two hashes are two random numbers, so k bits of them are the same at one key in 2^k, whatever the two numbers.
/// That is proved of the Rattle text, by laws that have no code. It is no protection against who sees hashes or times, nor at a key that is
/// known. For maps there is [`map_keys`].
pub mod numbers {
    #[doc(inline)]
    pub use crate::hash_map_keys::numbers::*;
}

/// One hasher for all keys of maps that strangers choose: each word of a key's first 128 bytes times a random multiplier of its own, `poly61` of
/// the bytes after them times one more, and an addend; the hash is the high half of the 128 bits. Of two keys of one type that were chosen
/// without knowing the random ones, any k low and high bits together, as a map's place and tag, are the same with a chance of at most 1 / 2^k;
/// where both have more than 128 bytes, n the longer one after them, of at most 1 / 2^k + (n / 7 + 2) / (2^61 - 1). That is proved of the Rattle
/// text, by laws that have no code. It is no protection against who sees hashes, the order of a map or times. `Debug` shows no key.
///
#[cfg_attr(feature = "std", doc = "```")]
#[cfg_attr(not(feature = "std"), doc = "```ignore")]
/// use hashers_proved::map_keys::{KeyMap, MapHashers, MapKeys};
/// use std::collections::HashMap;
///
/// // a map under random keys of the process, for words that strangers send
/// let mut counts: KeyMap<&str, u32> = KeyMap::default();
/// for word in "to be or not to be".split(' ') {
///     *counts.entry(word).or_default() += 1;
/// }
/// assert_eq!(counts["be"], 2);
/// // one with keys of its own
/// let keys = MapKeys::random();
/// let mut ages: HashMap<(u64, &str), u8, MapHashers> = HashMap::with_hasher(keys.hashers());
/// ages.insert((1815, "Ada"), 36);
/// ```
pub mod map_keys {
    #[cfg(feature = "std")]
    #[doc(inline)]
    pub use crate::extras::{KeyMap, KeySet};
    #[doc(inline)]
    pub use crate::extras::{MapHashers, MapKeys};
    #[doc(inline)]
    pub use crate::hash_map_keys::hasher::*;
}

/// std's own hasher, under the path that the crate hashers 1.0.1 gives it. It is no part of the proof.
#[cfg(feature = "std")]
pub mod builtin {
    use core::hash::Hasher;

    #[doc(no_inline)]
    pub use real_std::collections::hash_map::DefaultHasher;

    /// The hash of the bytes by [`DefaultHasher`], in one write. std may change it.
    pub fn default(bytes: &[u8]) -> u64 {
        let mut hasher = DefaultHasher::new();
        hasher.write(bytes);
        hasher.finish()
    }
}
