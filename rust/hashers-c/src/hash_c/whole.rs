//! One call over a whole text.

// What follows is the proved text of crates/hash_c/src/whole.rt without its contracts.
use hashers_proved::{hash_blocks, hash_more, hash_xxh3, hashers};

use hash_blocks::murmur3::{murmur3_32, murmur3_128};
use hash_blocks::siphash::{SipKey, siphash13, siphash24};
use hash_blocks::xxhash::{xxh32, xxh64};
use hash_more::crc32::{crc32, crc32c};
use hash_more::djb2_add::djb2_add;
use hash_more::elf::elf;
use hash_more::fnv1::{fnv1_32, fnv1_64};
use hash_more::joaat::joaat;
use hash_xxh3::xxh3_64;
use hashers::fnv::{fnv1a32, fnv1a64};
use hashers::fx_hash::{fxhash, fxhash32, fxhash64};
use hashers::jenkins;
use hashers::jenkins::oaat;
use hashers::jenkins::spooky_hash::{spooky, spooky_v1};
use hashers::null::{null, passthrough};
use hashers::oz::{djb2, loselose, sdbm};
use hashers::pigeon::bricolage;

/// lookup3 of the text. It is a call of its own, since within an exported one the test for a null pointer is compiled so that it
/// waits for the answer of the call before.
///
/// Proved:
///
/// ```text
/// result ≡ lookup3_of text.now
/// ```
#[inline(never)]
fn lookup3(text: &[u8]) -> u64 {
    jenkins::lookup3(text)
}

// declared: wholes
/// `fnv1a32` of the text: FNV-1a at 32 bits.
///
/// Proved:
///
/// ```text
/// result ≡ fnv1a32_of text.now
/// ```
#[inline]
pub fn hashers_fnv1a32(text: &[u8]) -> u64 {
    fnv1a32(text)
}

/// `fnv1a64` of the text: FNV-1a at 64 bits.
///
/// Proved:
///
/// ```text
/// result ≡ fnv1a64_of text.now
/// ```
#[inline]
pub fn hashers_fnv1a64(text: &[u8]) -> u64 {
    fnv1a64(text)
}

/// `djb2` of the text: djb2, with an exclusive or.
///
/// Proved:
///
/// ```text
/// result ≡ djb2_of text.now
/// ```
#[inline]
pub fn hashers_djb2(text: &[u8]) -> u64 {
    djb2(text)
}

/// `sdbm` of the text: sdbm.
///
/// Proved:
///
/// ```text
/// result ≡ sdbm_from 0 text.now
/// ```
#[inline]
pub fn hashers_sdbm(text: &[u8]) -> u64 {
    sdbm(text)
}

/// `loselose` of the text: the sum of the bytes.
///
/// Proved:
///
/// ```text
/// result ≡ loselose_from 0 text.now
/// ```
#[inline]
pub fn hashers_loselose(text: &[u8]) -> u64 {
    loselose(text)
}

/// `bricolage` of the text: Steven Pigeon's.
///
/// Proved:
///
/// ```text
/// result ≡ bricolage_from 0 text.now
/// ```
#[inline]
pub fn hashers_bricolage(text: &[u8]) -> u64 {
    bricolage(text)
}

/// `oaat` of the text: one-at-a-time at 64 bits.
///
/// Proved:
///
/// ```text
/// result ≡ oaat_of text.now
/// ```
#[inline]
pub fn hashers_oaat(text: &[u8]) -> u64 {
    oaat(text)
}

/// `lookup3` of the text as one piece: lookup3, hashlittle2.
///
/// Proved:
///
/// ```text
/// result ≡ lookup3_of text.now
/// ```
#[inline]
pub fn hashers_lookup3(text: &[u8]) -> u64 {
    lookup3(text)
}

/// `spooky` of the text under two seeds of 0: SpookyHash, its first word.
///
/// Proved:
///
/// ```text
/// result ≡ (spooky 0 0 text.now).0
/// ```
#[inline]
pub fn hashers_spooky(text: &[u8]) -> u64 {
    spooky(text)
}

/// `spooky_v1` of the text under two seeds of 0: SpookyHash as the crate hashers 1.0.1 has it, its first word.
///
/// Proved:
///
/// ```text
/// result ≡ (spooky_v1 0 0 text.now).0
/// ```
#[inline]
pub fn hashers_spooky_v1(text: &[u8]) -> u64 {
    spooky_v1(text)
}

/// `passthrough` of the text: the last eight bytes.
///
/// Proved:
///
/// ```text
/// result ≡ passthrough_from 0 text.now
/// ```
#[inline]
pub fn hashers_passthrough(text: &[u8]) -> u64 {
    passthrough(text)
}

/// `fxhash` of the text as one piece: fx at the width of a machine word.
///
/// Proved:
///
/// ```text
/// result ≡ fx64 0 (words64 text.now)
/// ```
#[inline]
pub fn hashers_fxhash(text: &[u8]) -> u64 {
    fxhash(text)
}

/// `fxhash32` of the text as one piece: fx at 32 bits.
///
/// Proved:
///
/// ```text
/// result ≡ fx32 0 (words32 text.now)
/// ```
#[inline]
pub fn hashers_fxhash32(text: &[u8]) -> u64 {
    fxhash32(text)
}

/// `fxhash64` of the text as one piece: fx at 64 bits.
///
/// Proved:
///
/// ```text
/// result ≡ fx64 0 (words64 text.now)
/// ```
#[inline]
pub fn hashers_fxhash64(text: &[u8]) -> u64 {
    fxhash64(text)
}

/// `crc32` of the text: CRC-32, zlib's.
///
/// Proved:
///
/// ```text
/// result ≡ crc32_of text.now
/// ```
#[inline]
pub fn hashers_crc32(text: &[u8]) -> u64 {
    crc32(text)
}

/// `crc32c` of the text: CRC-32C, that of iSCSI.
///
/// Proved:
///
/// ```text
/// result ≡ crc32c_of text.now
/// ```
#[inline]
pub fn hashers_crc32c(text: &[u8]) -> u64 {
    crc32c(text)
}

/// `fnv1_32` of the text: FNV-1 at 32 bits.
///
/// Proved:
///
/// ```text
/// result ≡ fnv1_32_from fnv1a32_basis text.now
/// ```
#[inline]
pub fn hashers_fnv1_32(text: &[u8]) -> u64 {
    fnv1_32(text)
}

/// `fnv1_64` of the text: FNV-1 at 64 bits.
///
/// Proved:
///
/// ```text
/// result ≡ fnv1_64_from fnv1a64_basis text.now
/// ```
#[inline]
pub fn hashers_fnv1_64(text: &[u8]) -> u64 {
    fnv1_64(text)
}

/// `djb2_add` of the text: djb2 with a sum, that of .gnu.hash in ELF files.
///
/// Proved:
///
/// ```text
/// result ≡ djb2_add_from 5381 text.now
/// ```
#[inline]
pub fn hashers_djb2_add(text: &[u8]) -> u64 {
    djb2_add(text)
}

/// `joaat` of the text: one-at-a-time at 32 bits, PHP's joaat.
///
/// Proved:
///
/// ```text
/// result ≡ joaat_answer (joaat_from 0 text.now)
/// ```
#[inline]
pub fn hashers_joaat(text: &[u8]) -> u64 {
    joaat(text)
}

/// `elf` of the text: that of .hash in ELF files.
///
/// Proved:
///
/// ```text
/// result ≡ elf_from 0 text.now
/// ```
#[inline]
pub fn hashers_elf(text: &[u8]) -> u64 {
    elf(text)
}

/// `null` of the text: 0, whatever the text.
///
/// Proved:
///
/// ```text
/// result ≡ 0
/// ```
#[inline]
pub fn hashers_null(text: &[u8]) -> u64 {
    null(text)
}

/// `xxh32` of the text under the seed 0: XXH32.
///
/// Proved:
///
/// ```text
/// result ≡ xxh32 0 text.now
/// ```
#[inline]
pub fn hashers_xxh32(text: &[u8]) -> u64 {
    u64::from(xxh32(0, text))
}

/// `xxh64` of the text under the seed 0: XXH64.
///
/// Proved:
///
/// ```text
/// result ≡ xxh64 0 text.now
/// ```
#[inline]
pub fn hashers_xxh64(text: &[u8]) -> u64 {
    xxh64(0, text)
}

/// `murmur3_32` of the text under the seed 0: MurmurHash3_x86_32.
///
/// Proved:
///
/// ```text
/// result ≡ murmur3_32 0 text.now
/// ```
#[inline]
pub fn hashers_murmur3_32(text: &[u8]) -> u64 {
    u64::from(murmur3_32(0, text))
}

/// `murmur3` of the text under the seed 0: MurmurHash3_x64_128, its first word.
///
/// Proved:
///
/// ```text
/// result ≡ (murmur3_128 0 text.now).0
/// ```
#[inline]
pub fn hashers_murmur3(text: &[u8]) -> u64 {
    murmur3_128(0, text).0
}

/// `siphash13` of the text under the key 0: SipHash-1-3.
///
/// Proved:
///
/// ```text
/// result ≡ siphash 1 3 0 0 text.now
/// ```
#[inline]
pub fn hashers_siphash13(text: &[u8]) -> u64 {
    siphash13(SipKey { k0: 0, k1: 0 }, text)
}

/// `siphash24` of the text under the key 0: SipHash-2-4.
///
/// Proved:
///
/// ```text
/// result ≡ siphash 2 4 0 0 text.now
/// ```
#[inline]
pub fn hashers_siphash24(text: &[u8]) -> u64 {
    siphash24(SipKey { k0: 0, k1: 0 }, text)
}

/// `xxh3` of the text under the seed 0: XXH3 of 64 bits.
///
/// Proved:
///
/// ```text
/// result ≡ xxh3_64_of 0 text.now
/// ```
#[inline]
pub fn hashers_xxh3(text: &[u8]) -> u64 {
    xxh3_64(0, text)
}
// end of declared
