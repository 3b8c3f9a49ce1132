//! Texts that come in parts. The hash so far is all that is kept, but for SpookyHash: `write` takes it to the hash with more bytes
//! behind, and `unwrite` to the hash without the last ones. The hash of no bytes is where a text begins. Every number is a hash so
//! far: of one of 32 bits the low 32 are taken.

// What follows is the proved text of crates/hash_c/src/parts.rt without its contracts.
use crate::std;
use hashers_proved::{hash_more, hashers};

use hash_more::crc32::{Crc32Hasher, Crc32cHasher};
use hash_more::djb2_add::Djb2AddHasher;
use hash_more::elf::ElfRule;
use hash_more::fnv1::{Fnv1Hasher32, Fnv1Hasher64};
use hash_more::joaat::JoaatHasher;
use hashers::fnv::{FNV1aHasher32, FNV1aHasher64};
use hashers::fx_hash::{FxHasher, FxHasher32, FxHasher64};
use hashers::jenkins::{Lookup3Hasher, OAATHasher, OaatRule};
use hashers::laws::Undo;
use hashers::null::{null, passthrough_from};
use hashers::oz::{DJB2Hasher, LoseLoseHasher, SDBMHasher};
use hashers::pigeon::Bricolage;
use hashers::rules::{ByteRule, Plain, PlainRule};
use std::hash::Hasher;

/// The hasher whose hash so far is this one.
///
/// The caller has to see to it that:
///
/// ```text
/// H.is_answer hash
/// ```
///
/// Proved:
///
/// ```text
/// here: H.answer (H.state result) ≡ hash
/// in_range: H.in_range (H.state result)
/// ```
#[inline(always)]
fn at<H: Undo>(hash: u64) -> H {
    match H::unfinish(hash) {
        Some(hasher) => hasher,
        None => unreachable!(),
    }
}

/// The hash with more bytes behind.
///
/// The caller has to see to it that:
///
/// ```text
/// H.is_answer hash
/// ```
///
/// Proved:
///
/// ```text
/// follows: (s : H.State) → H.in_range s → H.answer s ≡ hash
///     → result ≡ H.answer (H.after s bytes.now)
/// some: (s : H.State) × H.in_range s × (H.answer s ≡ hash)
///     × (result ≡ H.answer (H.after s bytes.now))
/// ```
#[inline(always)]
fn written<H: Undo>(hash: u64, bytes: &[u8]) -> u64 {
    let mut hasher = at::<H>(hash);
    hasher.feed(bytes);
    hasher.answer()
}

/// The hash without the last bytes.
///
/// The caller has to see to it that:
///
/// ```text
/// H.is_answer hash
/// ```
///
/// Proved:
///
/// ```text
/// back: (s : H.State) → H.in_range s → H.answer s ≡ result
///     → H.answer (H.after s bytes.now) ≡ hash
/// undone: (s : H.State) → H.in_range s → H.answer (H.after s bytes.now) ≡ hash
///     → result ≡ H.answer s
/// reached: (bound : ℕ) → ((s : H.State) → H.in_range s → H.answer s < bound) → result < bound
/// ```
#[inline(always)]
fn unwritten<H: Undo>(hash: u64, bytes: &[u8]) -> u64 {
    let mut hasher = at::<H>(hash);
    hasher.unwrite(bytes);
    hasher.answer()
}

// declared: parts
/// The hash `fnv1a32` after more bytes.
///
/// Proved:
///
/// ```text
/// result ≡ fnv1a32_from (hash % 2 ^ 32) bytes.now
/// ```
#[inline]
pub fn hashers_fnv1a32_write(hash: u64, bytes: &[u8]) -> u64 {
    written::<FNV1aHasher32>(hash % 4294967296, bytes)
}

/// The hash `fnv1a32` without the last bytes.
///
/// Proved:
///
/// ```text
/// back: fnv1a32_from result bytes.now ≡ hash % 2 ^ 32
/// undone: (s : ℕ) → s < 2 ^ 32 → fnv1a32_from s bytes.now ≡ hash % 2 ^ 32 → result ≡ s
/// ```
#[inline]
pub fn hashers_fnv1a32_unwrite(hash: u64, bytes: &[u8]) -> u64 {
    unwritten::<FNV1aHasher32>(hash % 4294967296, bytes)
}

/// The hash `fnv1a64` after more bytes.
///
/// Proved:
///
/// ```text
/// result ≡ fnv1a64_from hash bytes.now
/// ```
#[inline]
pub fn hashers_fnv1a64_write(hash: u64, bytes: &[u8]) -> u64 {
    written::<FNV1aHasher64>(hash, bytes)
}

/// The hash `fnv1a64` without the last bytes.
///
/// Proved:
///
/// ```text
/// back: fnv1a64_from result bytes.now ≡ hash
/// undone: (s : ℕ) → s < 2 ^ 64 → fnv1a64_from s bytes.now ≡ hash → result ≡ s
/// ```
#[inline]
pub fn hashers_fnv1a64_unwrite(hash: u64, bytes: &[u8]) -> u64 {
    unwritten::<FNV1aHasher64>(hash, bytes)
}

/// The hash `djb2` after more bytes.
///
/// Proved:
///
/// ```text
/// result ≡ djb2_from (hash % 2 ^ 32) bytes.now
/// ```
#[inline]
pub fn hashers_djb2_write(hash: u64, bytes: &[u8]) -> u64 {
    written::<DJB2Hasher>(hash % 4294967296, bytes)
}

/// The hash `djb2` without the last bytes.
///
/// Proved:
///
/// ```text
/// back: djb2_from result bytes.now ≡ hash % 2 ^ 32
/// undone: (s : ℕ) → s < 2 ^ 32 → djb2_from s bytes.now ≡ hash % 2 ^ 32 → result ≡ s
/// ```
#[inline]
pub fn hashers_djb2_unwrite(hash: u64, bytes: &[u8]) -> u64 {
    unwritten::<DJB2Hasher>(hash % 4294967296, bytes)
}

/// The hash `sdbm` after more bytes.
///
/// Proved:
///
/// ```text
/// result ≡ sdbm_from (hash % 2 ^ 32) bytes.now
/// ```
#[inline]
pub fn hashers_sdbm_write(hash: u64, bytes: &[u8]) -> u64 {
    written::<SDBMHasher>(hash % 4294967296, bytes)
}

/// The hash `sdbm` without the last bytes.
///
/// Proved:
///
/// ```text
/// back: sdbm_from result bytes.now ≡ hash % 2 ^ 32
/// undone: (s : ℕ) → s < 2 ^ 32 → sdbm_from s bytes.now ≡ hash % 2 ^ 32 → result ≡ s
/// ```
#[inline]
pub fn hashers_sdbm_unwrite(hash: u64, bytes: &[u8]) -> u64 {
    unwritten::<SDBMHasher>(hash % 4294967296, bytes)
}

/// The hash `loselose` after more bytes.
///
/// Proved:
///
/// ```text
/// result ≡ loselose_from hash bytes.now
/// ```
#[inline]
pub fn hashers_loselose_write(hash: u64, bytes: &[u8]) -> u64 {
    written::<LoseLoseHasher>(hash, bytes)
}

/// The hash `loselose` without the last bytes.
///
/// Proved:
///
/// ```text
/// back: loselose_from result bytes.now ≡ hash
/// undone: (s : ℕ) → s < 2 ^ 64 → loselose_from s bytes.now ≡ hash → result ≡ s
/// ```
#[inline]
pub fn hashers_loselose_unwrite(hash: u64, bytes: &[u8]) -> u64 {
    unwritten::<LoseLoseHasher>(hash, bytes)
}

/// The hash `bricolage` after more bytes.
///
/// Proved:
///
/// ```text
/// result ≡ bricolage_from hash bytes.now
/// ```
#[inline]
pub fn hashers_bricolage_write(hash: u64, bytes: &[u8]) -> u64 {
    written::<Bricolage>(hash, bytes)
}

/// The hash `bricolage` without the last bytes.
///
/// Proved:
///
/// ```text
/// back: bricolage_from result bytes.now ≡ hash
/// undone: (s : ℕ) → s < 2 ^ 64 → bricolage_from s bytes.now ≡ hash → result ≡ s
/// ```
#[inline]
pub fn hashers_bricolage_unwrite(hash: u64, bytes: &[u8]) -> u64 {
    unwritten::<Bricolage>(hash, bytes)
}

/// The hash `fxhash` after more bytes.
///
/// Proved:
///
/// ```text
/// result ≡ fx64 hash (words64 bytes.now)
/// ```
#[inline]
pub fn hashers_fxhash_write(hash: u64, bytes: &[u8]) -> u64 {
    written::<FxHasher>(hash, bytes)
}

/// The hash `fxhash` without the last bytes.
///
/// Proved:
///
/// ```text
/// back: fx64 result (words64 bytes.now) ≡ hash
/// undone: (s : ℕ) → s < 2 ^ 64 → fx64 s (words64 bytes.now) ≡ hash → result ≡ s
/// ```
#[inline]
pub fn hashers_fxhash_unwrite(hash: u64, bytes: &[u8]) -> u64 {
    unwritten::<FxHasher>(hash, bytes)
}

/// The hash `fxhash32` after more bytes.
///
/// Proved:
///
/// ```text
/// result ≡ fx32 (hash % 2 ^ 32) (words32 bytes.now)
/// ```
#[inline]
pub fn hashers_fxhash32_write(hash: u64, bytes: &[u8]) -> u64 {
    written::<FxHasher32>(hash % 4294967296, bytes)
}

/// The hash `fxhash32` without the last bytes.
///
/// Proved:
///
/// ```text
/// back: fx32 result (words32 bytes.now) ≡ hash % 2 ^ 32
/// undone: (s : ℕ) → s < 2 ^ 32 → fx32 s (words32 bytes.now) ≡ hash % 2 ^ 32 → result ≡ s
/// ```
#[inline]
pub fn hashers_fxhash32_unwrite(hash: u64, bytes: &[u8]) -> u64 {
    unwritten::<FxHasher32>(hash % 4294967296, bytes)
}

/// The hash `fxhash64` after more bytes.
///
/// Proved:
///
/// ```text
/// result ≡ fx64 hash (words64 bytes.now)
/// ```
#[inline]
pub fn hashers_fxhash64_write(hash: u64, bytes: &[u8]) -> u64 {
    written::<FxHasher64>(hash, bytes)
}

/// The hash `fxhash64` without the last bytes.
///
/// Proved:
///
/// ```text
/// back: fx64 result (words64 bytes.now) ≡ hash
/// undone: (s : ℕ) → s < 2 ^ 64 → fx64 s (words64 bytes.now) ≡ hash → result ≡ s
/// ```
#[inline]
pub fn hashers_fxhash64_unwrite(hash: u64, bytes: &[u8]) -> u64 {
    unwritten::<FxHasher64>(hash, bytes)
}

/// The hash `fnv1_32` after more bytes.
///
/// Proved:
///
/// ```text
/// result ≡ fnv1_32_from (hash % 2 ^ 32) bytes.now
/// ```
#[inline]
pub fn hashers_fnv1_32_write(hash: u64, bytes: &[u8]) -> u64 {
    written::<Fnv1Hasher32>(hash % 4294967296, bytes)
}

/// The hash `fnv1_32` without the last bytes.
///
/// Proved:
///
/// ```text
/// back: fnv1_32_from result bytes.now ≡ hash % 2 ^ 32
/// undone: (s : ℕ) → s < 2 ^ 32 → fnv1_32_from s bytes.now ≡ hash % 2 ^ 32 → result ≡ s
/// ```
#[inline]
pub fn hashers_fnv1_32_unwrite(hash: u64, bytes: &[u8]) -> u64 {
    unwritten::<Fnv1Hasher32>(hash % 4294967296, bytes)
}

/// The hash `fnv1_64` after more bytes.
///
/// Proved:
///
/// ```text
/// result ≡ fnv1_64_from hash bytes.now
/// ```
#[inline]
pub fn hashers_fnv1_64_write(hash: u64, bytes: &[u8]) -> u64 {
    written::<Fnv1Hasher64>(hash, bytes)
}

/// The hash `fnv1_64` without the last bytes.
///
/// Proved:
///
/// ```text
/// back: fnv1_64_from result bytes.now ≡ hash
/// undone: (s : ℕ) → s < 2 ^ 64 → fnv1_64_from s bytes.now ≡ hash → result ≡ s
/// ```
#[inline]
pub fn hashers_fnv1_64_unwrite(hash: u64, bytes: &[u8]) -> u64 {
    unwritten::<Fnv1Hasher64>(hash, bytes)
}

/// The hash `djb2_add` after more bytes.
///
/// Proved:
///
/// ```text
/// result ≡ djb2_add_from (hash % 2 ^ 32) bytes.now
/// ```
#[inline]
pub fn hashers_djb2_add_write(hash: u64, bytes: &[u8]) -> u64 {
    written::<Djb2AddHasher>(hash % 4294967296, bytes)
}

/// The hash `djb2_add` without the last bytes.
///
/// Proved:
///
/// ```text
/// back: djb2_add_from result bytes.now ≡ hash % 2 ^ 32
/// undone: (s : ℕ) → s < 2 ^ 32 → djb2_add_from s bytes.now ≡ hash % 2 ^ 32 → result ≡ s
/// ```
#[inline]
pub fn hashers_djb2_add_unwrite(hash: u64, bytes: &[u8]) -> u64 {
    unwritten::<Djb2AddHasher>(hash % 4294967296, bytes)
}

// end of declared

/// The hash of one-at-a-time with more bytes behind.
///
/// Proved:
///
/// ```text
/// follows: (s : ℕ) → s < 2 ^ 64 → oaat_finish s ≡ hash
///     → result ≡ oaat_finish (oaat_state s bytes.now)
/// some: (s : ℕ) × (s < 2 ^ 64) × (oaat_finish s ≡ hash)
///     × (result ≡ oaat_finish (oaat_state s bytes.now))
/// ```
#[inline]
pub fn hashers_oaat_write(hash: u64, bytes: &[u8]) -> u64 {
    written::<OAATHasher>(hash, bytes)
}

/// The state of one-at-a-time after more bytes. A text in many parts costs less by its state than by its hash, of which each write
/// finds the state again. Every number is a state, and 0 the one of no bytes.
///
/// Proved:
///
/// ```text
/// result ≡ oaat_state state bytes.now
/// ```
#[inline]
pub fn hashers_oaat_state_write(state: u64, bytes: &[u8]) -> u64 {
    let mut state = state;
    Plain::<OaatRule>::write(&mut state, bytes);
    state
}

/// The hash of one-at-a-time whose state this is.
///
/// Proved:
///
/// ```text
/// result ≡ oaat_finish state
/// ```
#[inline]
pub fn hashers_oaat_state_finish(state: u64) -> u64 {
    OaatRule::answer(state)
}

/// The hash of one-at-a-time without the last bytes.
///
/// Proved:
///
/// ```text
/// back: (s : ℕ) → s < 2 ^ 64 → oaat_finish s ≡ result
///     → oaat_finish (oaat_state s bytes.now) ≡ hash
/// undone: (s : ℕ) → s < 2 ^ 64 → oaat_finish (oaat_state s bytes.now) ≡ hash
///     → result ≡ oaat_finish s
/// ```
#[inline]
pub fn hashers_oaat_unwrite(hash: u64, bytes: &[u8]) -> u64 {
    unwritten::<OAATHasher>(hash, bytes)
}

/// The hash of lookup3 with one more piece behind.
///
/// Proved:
///
/// ```text
/// result ≡ lookup3_answer (lookup3_from (hash % 2 ^ 32, hash / 2 ^ 32) piece.now)
/// ```
#[inline]
pub fn hashers_lookup3_write(hash: u64, piece: &[u8]) -> u64 {
    let pc = (hash % 4294967296) as u32;
    let pb = (hash / 4294967296) as u32;
    let mut hasher = Lookup3Hasher::new(pc, pb);
    hasher.write(piece);
    hasher.finish()
}

/// The hash of passthrough with more bytes behind.
///
/// Proved:
///
/// ```text
/// result ≡ passthrough_from hash bytes.now
/// ```
#[inline]
pub fn hashers_passthrough_write(hash: u64, bytes: &[u8]) -> u64 {
    passthrough_from(hash, bytes)
}

/// The hash of null: 0, whatever the bytes.
///
/// Proved:
///
/// ```text
/// result ≡ 0
/// ```
#[inline]
pub fn hashers_null_write(_hash: u64, bytes: &[u8]) -> u64 {
    null(bytes)
}

/// The hash of joaat with more bytes behind.
///
/// Proved:
///
/// ```text
/// follows: (s : ℕ) → s < 2 ^ 32 → joaat_answer s ≡ hash % 2 ^ 32
///     → result ≡ joaat_answer (joaat_from s bytes.now)
/// some: (s : ℕ) × (s < 2 ^ 32) × (joaat_answer s ≡ hash % 2 ^ 32)
///     × (result ≡ joaat_answer (joaat_from s bytes.now))
/// ```
#[inline]
pub fn hashers_joaat_write(hash: u64, bytes: &[u8]) -> u64 {
    written::<JoaatHasher>(hash % 4294967296, bytes)
}

/// The hash of joaat without the last bytes.
///
/// Proved:
///
/// ```text
/// back: (s : ℕ) → s < 2 ^ 32 → joaat_answer s ≡ result
///     → joaat_answer (joaat_from s bytes.now) ≡ hash % 2 ^ 32
/// undone: (s : ℕ) → s < 2 ^ 32 → joaat_answer (joaat_from s bytes.now) ≡ hash % 2 ^ 32
///     → result ≡ joaat_answer s
/// ```
#[inline]
pub fn hashers_joaat_unwrite(hash: u64, bytes: &[u8]) -> u64 {
    unwritten::<JoaatHasher>(hash % 4294967296, bytes)
}

/// The hash of crc32 with more bytes behind.
///
/// Proved:
///
/// ```text
/// value: result ≡ crc_answer (crc_from ieee (crc_answer (hash % 2 ^ 32)) bytes.now)
/// follows: (s : ℕ) → s < 2 ^ 32 → crc_answer s ≡ hash % 2 ^ 32
///     → result ≡ crc_answer (crc_from ieee s bytes.now)
/// ```
#[inline]
pub fn hashers_crc32_write(hash: u64, bytes: &[u8]) -> u64 {
    written::<Crc32Hasher>(hash % 4294967296, bytes)
}

/// The hash of crc32 without the last bytes.
///
/// Proved:
///
/// ```text
/// back: (s : ℕ) → s < 2 ^ 32 → crc_answer s ≡ result
///     → crc_answer (crc_from ieee s bytes.now) ≡ hash % 2 ^ 32
/// undone: (s : ℕ) → s < 2 ^ 32 → crc_answer (crc_from ieee s bytes.now) ≡ hash % 2 ^ 32
///     → result ≡ crc_answer s
/// ```
#[inline]
pub fn hashers_crc32_unwrite(hash: u64, bytes: &[u8]) -> u64 {
    unwritten::<Crc32Hasher>(hash % 4294967296, bytes)
}

/// The hash of crc32c with more bytes behind.
///
/// Proved:
///
/// ```text
/// value: result ≡ crc_answer (crc_from castagnoli (crc_answer (hash % 2 ^ 32)) bytes.now)
/// follows: (s : ℕ) → s < 2 ^ 32 → crc_answer s ≡ hash % 2 ^ 32
///     → result ≡ crc_answer (crc_from castagnoli s bytes.now)
/// ```
#[inline]
pub fn hashers_crc32c_write(hash: u64, bytes: &[u8]) -> u64 {
    written::<Crc32cHasher>(hash % 4294967296, bytes)
}

/// The hash of crc32c without the last bytes.
///
/// Proved:
///
/// ```text
/// back: (s : ℕ) → s < 2 ^ 32 → crc_answer s ≡ result
///     → crc_answer (crc_from castagnoli s bytes.now) ≡ hash % 2 ^ 32
/// undone: (s : ℕ) → s < 2 ^ 32 → crc_answer (crc_from castagnoli s bytes.now) ≡ hash % 2 ^ 32
///     → result ≡ crc_answer s
/// ```
#[inline]
pub fn hashers_crc32c_unwrite(hash: u64, bytes: &[u8]) -> u64 {
    unwritten::<Crc32cHasher>(hash % 4294967296, bytes)
}

/// The hash of ELF with more bytes behind. It loses information, and so there is no way back.
///
/// Proved:
///
/// ```text
/// result ≡ elf_from (hash % 2 ^ 28) bytes.now
/// ```
#[inline]
pub fn hashers_elf_write(hash: u64, bytes: &[u8]) -> u64 {
    let mut state = (hash % 268435456) as u32;
    Plain::<ElfRule>::write(&mut state, bytes);
    u64::from(state)
}
