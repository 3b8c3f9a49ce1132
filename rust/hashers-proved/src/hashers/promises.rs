//! The theorems at each concrete type and in the words of the specifications.
//!
//! After any list of writes a hasher answers its definition: of the joined bytes alone, or for fx and lookup3 of the bytes
//! of each write. Any list of writes of the seven byte hashers and of fx, and each mixing round, is undone exactly, and the
//! reverse, from every state. Each sentence is the contract of a function of this module.

// What follows is the proved text of crates/hashers/src/promises.rt without its contracts.
use crate::{hash_blocks, hash_bytes, hash_fx, hash_jenkins, hash_laws, hash_rounds, hash_writes, hash_xxh3, std};

use hash_blocks::murmur3::{Murmur3Hasher32, Murmur3Hasher128};
use hash_blocks::siphash::{SipHasher13, SipHasher24, SipKey};
use hash_blocks::xxhash::{Xxh32Hasher, Xxh64Hasher};
use hash_bytes::fnv::{FNV1aHasher32, FNV1aHasher64};
use hash_bytes::null::{NullHasher, PassThroughHasher};
use hash_bytes::oz::{DJB2Hasher, LoseLoseHasher, SDBMHasher};
use hash_bytes::pigeon::Bricolage;
use hash_fx::{FxHasher, FxHasher32, FxHasher64, FxSplit, WordHasher};
use hash_jenkins::spooky_hash::SpookyHasher;
use hash_jenkins::{Lookup3Hasher, OAATHasher};
use hash_laws::traits::{ByteStep, Piecewise, Streamed, Undo};
use hash_rounds::{
    lookup3_final, lookup3_mix, lookup3_unfinal, lookup3_unmix, short_end, short_mix,
    spooky_end_partial, spooky_mix, spooky_un_end_partial, spooky_unmix, un_short_end,
    un_short_mix,
};
use hash_writes::writes::{
    HasherWrite, answer_of_writes, run_writes, run_writes_streamed, unrun_writes,
};
use hash_xxh3::Xxh3Hasher;
use std::hash::Hasher;
use std::slice;

/// `fnv1a32` of the joined bytes of the writes.
///
/// Proved:
///
/// ```text
/// result ≡ fnv1a32_of (joined_written writes.now)
/// ```
#[inline]
pub fn fnv1a32_of_writes(writes: &[HasherWrite]) -> u64 {
    answer_of_writes::<FNV1aHasher32>(writes)
}

/// `fnv1a64` of the joined bytes of the writes.
///
/// Proved:
///
/// ```text
/// result ≡ fnv1a64_of (joined_written writes.now)
/// ```
#[inline]
pub fn fnv1a64_of_writes(writes: &[HasherWrite]) -> u64 {
    answer_of_writes::<FNV1aHasher64>(writes)
}

/// `djb2` of the joined bytes of the writes.
///
/// Proved:
///
/// ```text
/// result ≡ djb2_of (joined_written writes.now)
/// ```
#[inline]
pub fn djb2_of_writes(writes: &[HasherWrite]) -> u64 {
    answer_of_writes::<DJB2Hasher>(writes)
}

/// `sdbm` of the joined bytes of the writes.
///
/// Proved:
///
/// ```text
/// result ≡ sdbm_from 0 (joined_written writes.now)
/// ```
#[inline]
pub fn sdbm_of_writes(writes: &[HasherWrite]) -> u64 {
    answer_of_writes::<SDBMHasher>(writes)
}

/// `loselose` of the joined bytes of the writes.
///
/// Proved:
///
/// ```text
/// result ≡ loselose_from 0 (joined_written writes.now)
/// ```
#[inline]
pub fn loselose_of_writes(writes: &[HasherWrite]) -> u64 {
    answer_of_writes::<LoseLoseHasher>(writes)
}

/// `bricolage` of the joined bytes of the writes.
///
/// Proved:
///
/// ```text
/// result ≡ bricolage_from 0 (joined_written writes.now)
/// ```
#[inline]
pub fn bricolage_of_writes(writes: &[HasherWrite]) -> u64 {
    answer_of_writes::<Bricolage>(writes)
}

/// `oaat` of the joined bytes of the writes.
///
/// Proved:
///
/// ```text
/// result ≡ oaat_of (joined_written writes.now)
/// ```
#[inline]
pub fn oaat_of_writes(writes: &[HasherWrite]) -> u64 {
    answer_of_writes::<OAATHasher>(writes)
}

/// 0, whatever the writes.
///
/// Proved:
///
/// ```text
/// result ≡ 0
/// ```
#[inline]
pub fn null_of_writes(writes: &[HasherWrite]) -> u64 {
    answer_of_writes::<NullHasher>(writes)
}

/// `passthrough` of the joined bytes of the writes.
///
/// Proved:
///
/// ```text
/// result ≡ passthrough_from 0 (joined_written writes.now)
/// ```
#[inline]
pub fn passthrough_of_writes(writes: &[HasherWrite]) -> u64 {
    answer_of_writes::<PassThroughHasher>(writes)
}

/// `passthrough` goes on from any state: what it answers before the writes and after them.
///
/// Proved:
///
/// ```text
/// state: h.new ≡ passthrough_from h.old (joined_written writes.now)
/// before: result.0 ≡ h.old
/// after: result.1 ≡ h.new
/// ```
#[inline]
pub fn passthrough_goes_on(h: &mut PassThroughHasher, writes: &[HasherWrite]) -> (u64, u64) {
    goes_on::<PassThroughHasher>(h, writes)
}

/// SpookyHash of the joined bytes of the writes, under any seeds.
///
/// Proved:
///
/// ```text
/// result ≡ spooky seed1 seed2 (joined_written writes.now)
/// ```
#[inline]
pub fn spooky_of_writes(seed1: u64, seed2: u64, writes: &[HasherWrite]) -> (u64, u64) {
    let mut hasher = SpookyHasher::new(seed1, seed2);
    run_writes_streamed(&mut hasher, writes);
    hasher.finish128()
}

/// Version 1 of SpookyHash of the joined bytes of the writes, under any seeds.
///
/// Proved:
///
/// ```text
/// result ≡ spooky_v1 seed1 seed2 (joined_written writes.now)
/// ```
#[inline]
pub fn spooky_v1_of_writes(seed1: u64, seed2: u64, writes: &[HasherWrite]) -> (u64, u64) {
    let mut hasher = SpookyHasher::new(seed1, seed2);
    run_writes_streamed(&mut hasher, writes);
    hasher.finish128_v1()
}

/// XXH32 of the joined bytes of the writes, under any seed.
///
/// Proved:
///
/// ```text
/// result ≡ xxh32 seed (joined_written writes.now)
/// ```
#[inline]
pub fn xxh32_of_writes(seed: u32, writes: &[HasherWrite]) -> u32 {
    let mut hasher = Xxh32Hasher::new(seed);
    run_writes_streamed(&mut hasher, writes);
    hasher.hash()
}

/// XXH64 of the joined bytes of the writes, under any seed.
///
/// Proved:
///
/// ```text
/// result ≡ xxh64 seed (joined_written writes.now)
/// ```
#[inline]
pub fn xxh64_of_writes(seed: u64, writes: &[HasherWrite]) -> u64 {
    let mut hasher = Xxh64Hasher::new(seed);
    run_writes_streamed(&mut hasher, writes);
    hasher.hash()
}

/// MurmurHash3_x86_32 of the joined bytes of the writes, under any seed.
///
/// Proved:
///
/// ```text
/// result ≡ murmur3_32 seed (joined_written writes.now)
/// ```
#[inline]
pub fn murmur3_32_of_writes(seed: u32, writes: &[HasherWrite]) -> u32 {
    let mut hasher = Murmur3Hasher32::new(seed);
    run_writes_streamed(&mut hasher, writes);
    hasher.hash()
}

/// MurmurHash3_x64_128 of the joined bytes of the writes, under any seed.
///
/// Proved:
///
/// ```text
/// result ≡ murmur3_128 seed (joined_written writes.now)
/// ```
#[inline]
pub fn murmur3_128_of_writes(seed: u64, writes: &[HasherWrite]) -> (u64, u64) {
    let mut hasher = Murmur3Hasher128::new(seed);
    run_writes_streamed(&mut hasher, writes);
    hasher.hash()
}

/// SipHash-1-3 of the joined bytes of the writes, under any key.
///
/// Proved:
///
/// ```text
/// result ≡ siphash 1 3 key.k0 key.k1 (joined_written writes.now)
/// ```
#[inline]
pub fn siphash13_of_writes(key: SipKey, writes: &[HasherWrite]) -> u64 {
    let mut hasher = SipHasher13::new(key);
    run_writes_streamed(&mut hasher, writes);
    hasher.hash()
}

/// SipHash-2-4 of the joined bytes of the writes, under any key.
///
/// Proved:
///
/// ```text
/// result ≡ siphash 2 4 key.k0 key.k1 (joined_written writes.now)
/// ```
#[inline]
pub fn siphash24_of_writes(key: SipKey, writes: &[HasherWrite]) -> u64 {
    let mut hasher = SipHasher24::new(key);
    run_writes_streamed(&mut hasher, writes);
    hasher.hash()
}

/// XXH3 of 64 bits of the joined bytes of the writes, under any seed.
///
/// Proved:
///
/// ```text
/// result ≡ xxh3_64_of seed (joined_written writes.now)
/// ```
#[inline]
pub fn xxh3_64_of_writes(seed: u64, writes: &[HasherWrite]) -> u64 {
    let mut hasher = Xxh3Hasher::new(seed);
    run_writes_streamed(&mut hasher, writes);
    hasher.finish()
}

/// XXH3 of 128 bits of the joined bytes of the writes, under any seed.
///
/// Proved:
///
/// ```text
/// result ≡ xxh3_128_of seed (joined_written writes.now)
/// ```
#[inline]
pub fn xxh3_128_of_writes(seed: u64, writes: &[HasherWrite]) -> (u64, u64) {
    let mut wide = Xxh3Hasher::new(seed);
    run_writes_streamed(&mut wide, writes);
    wide.finish128()
}

/// `lookup3` of the writes: each of some bytes is one run from the two words before.
///
/// Proved:
///
/// ```text
/// result ≡ lookup3_answer (fold lookup3_from (0, 0) (all_written writes.now))
/// ```
#[inline]
pub fn lookup3_of_writes(writes: &[HasherWrite]) -> u64 {
    let mut hasher = Lookup3Hasher::default();
    run_writes(&mut hasher, writes);
    hasher.finish()
}

/// `fxhash` of all words of all writes, one after the other.
///
/// Proved:
///
/// ```text
/// result ≡ fx64 0 (flat_map words64 (all_written writes.now))
/// ```
#[inline]
pub fn fxhash_of_writes(writes: &[HasherWrite]) -> u64 {
    let mut hasher = FxHasher::default();
    run_writes(&mut hasher, writes);
    hasher.finish()
}

/// `fxhash32` of all words of all writes, one after the other.
///
/// Proved:
///
/// ```text
/// result ≡ fx32 0 (flat_map words32 (all_written writes.now))
/// ```
#[inline]
pub fn fxhash32_of_writes(writes: &[HasherWrite]) -> u64 {
    let mut hasher = FxHasher32::default();
    run_writes(&mut hasher, writes);
    hasher.finish()
}

/// `fxhash64` of all words of all writes, one after the other.
///
/// Proved:
///
/// ```text
/// result ≡ fx64 0 (flat_map words64 (all_written writes.now))
/// ```
#[inline]
pub fn fxhash64_of_writes(writes: &[HasherWrite]) -> u64 {
    let mut hasher = FxHasher64::default();
    run_writes(&mut hasher, writes);
    hasher.finish()
}

/// What a hasher answers before the writes and after them, from any state.
///
/// Proved:
///
/// ```text
/// state: H.state h.new ≡ H.after (H.state h.old) (joined_written writes.now)
/// before: result.0 ≡ H.answer (H.state h.old)
/// after: result.1 ≡ H.answer (H.state h.new)
/// ```
#[inline]
fn goes_on<H: Streamed>(h: &mut H, writes: &[HasherWrite]) -> (u64, u64) {
    let before = h.answer();
    run_writes_streamed(h, writes);
    (before, h.answer())
}

/// What two hashers answered on a way that leads back to where they were.
pub struct WayBack {
    /// What the first answered before its writes.
    pub before: u64,
    /// What it answered after them, before they were undone.
    pub there: u64,
    /// What the second answered after the writes were undone, before they were made.
    pub back: u64,
}

/// Makes the writes on the one hasher and takes them back, and takes them back from the other and makes them. Both are
/// as they were.
///
/// Proved:
///
/// ```text
/// before: result.before ≡ H.answer (H.state a.old)
/// there: result.there ≡ H.answer (fold H.after (H.state a.old) (all_written writes.now))
/// there_and_back: H.state a.new ≡ H.state a.old
/// back: (s : H.State) × H.in_range s
///     × (fold H.after s (all_written writes.now) ≡ H.state b.old) × (result.back ≡ H.answer s)
/// back_and_there: H.state b.new ≡ H.state b.old
/// in_range: H.in_range (H.state a.old)
/// texts: All IsText (all_written writes.now)
/// ```
#[inline]
fn there_and_back<H: Undo>(a: &mut H, b: &mut H, writes: &[HasherWrite]) -> WayBack {
    let before = a.answer();
    run_writes(a, writes);
    let there = a.answer();
    unrun_writes(a, writes);
    unrun_writes(b, writes);
    let back = b.answer();
    run_writes(b, writes);
    WayBack {
        before,
        there,
        back,
    }
}

/// The same of a hasher for which only the joined bytes count.
///
/// Proved:
///
/// ```text
/// before: result.before ≡ H.answer (H.state a.old)
/// there: result.there ≡ H.answer (H.after (H.state a.old) (joined_written writes.now))
/// there_and_back: H.state a.new ≡ H.state a.old
/// back: (s : H.State) × H.in_range s
///     × (H.after s (joined_written writes.now) ≡ H.state b.old) × (result.back ≡ H.answer s)
/// back_and_there: H.state b.new ≡ H.state b.old
/// ```
#[inline]
fn there_and_back_joined<H: ByteStep>(a: &mut H, b: &mut H, writes: &[HasherWrite]) -> WayBack {
    there_and_back::<H>(a, b, writes)
}

/// `fnv1a32`, from any state: the writes, made and undone, or undone and made, leave each hasher as it was.
///
/// Proved:
///
/// ```text
/// before: result.before ≡ a.old
/// there: result.there ≡ fnv1a32_from a.old (joined_written writes.now)
/// there_and_back: a.new ≡ a.old
/// back: fnv1a32_from result.back (joined_written writes.now) ≡ b.old
/// in_range: result.back < 2 ^ 32
/// back_and_there: b.new ≡ b.old
/// ```
#[inline]
pub fn fnv1a32_undone(
    a: &mut FNV1aHasher32,
    b: &mut FNV1aHasher32,
    writes: &[HasherWrite],
) -> WayBack {
    there_and_back_joined::<FNV1aHasher32>(a, b, writes)
}

/// `fnv1a64`, from any state: the writes, made and undone, or undone and made, leave each hasher as it was.
///
/// Proved:
///
/// ```text
/// before: result.before ≡ a.old
/// there: result.there ≡ fnv1a64_from a.old (joined_written writes.now)
/// there_and_back: a.new ≡ a.old
/// back: fnv1a64_from result.back (joined_written writes.now) ≡ b.old
/// in_range: result.back < 2 ^ 64
/// back_and_there: b.new ≡ b.old
/// ```
#[inline]
pub fn fnv1a64_undone(
    a: &mut FNV1aHasher64,
    b: &mut FNV1aHasher64,
    writes: &[HasherWrite],
) -> WayBack {
    there_and_back_joined::<FNV1aHasher64>(a, b, writes)
}

/// `djb2`, from any state: the writes, made and undone, or undone and made, leave each hasher as it was.
///
/// Proved:
///
/// ```text
/// before: result.before ≡ a.old
/// there: result.there ≡ djb2_from a.old (joined_written writes.now)
/// there_and_back: a.new ≡ a.old
/// back: djb2_from result.back (joined_written writes.now) ≡ b.old
/// in_range: result.back < 2 ^ 32
/// back_and_there: b.new ≡ b.old
/// ```
#[inline]
pub fn djb2_undone(a: &mut DJB2Hasher, b: &mut DJB2Hasher, writes: &[HasherWrite]) -> WayBack {
    there_and_back_joined::<DJB2Hasher>(a, b, writes)
}

/// `sdbm`, from any state: the writes, made and undone, or undone and made, leave each hasher as it was.
///
/// Proved:
///
/// ```text
/// before: result.before ≡ a.old.state
/// there: result.there ≡ sdbm_from a.old.state (joined_written writes.now)
/// there_and_back: a.new.state ≡ a.old.state
/// back: sdbm_from result.back (joined_written writes.now) ≡ b.old.state
/// in_range: result.back < 2 ^ 32
/// back_and_there: b.new.state ≡ b.old.state
/// ```
#[inline]
pub fn sdbm_undone(a: &mut SDBMHasher, b: &mut SDBMHasher, writes: &[HasherWrite]) -> WayBack {
    there_and_back_joined::<SDBMHasher>(a, b, writes)
}

/// `loselose`, from any state: the writes, made and undone, or undone and made, leave each hasher as it was.
///
/// Proved:
///
/// ```text
/// before: result.before ≡ a.old.state
/// there: result.there ≡ loselose_from a.old.state (joined_written writes.now)
/// there_and_back: a.new.state ≡ a.old.state
/// back: loselose_from result.back (joined_written writes.now) ≡ b.old.state
/// in_range: result.back < 2 ^ 64
/// back_and_there: b.new.state ≡ b.old.state
/// ```
#[inline]
pub fn loselose_undone(
    a: &mut LoseLoseHasher,
    b: &mut LoseLoseHasher,
    writes: &[HasherWrite],
) -> WayBack {
    there_and_back_joined::<LoseLoseHasher>(a, b, writes)
}

/// `bricolage`, from any state: the writes, made and undone, or undone and made, leave each hasher as it was.
///
/// Proved:
///
/// ```text
/// before: result.before ≡ a.old
/// there: result.there ≡ bricolage_from a.old (joined_written writes.now)
/// there_and_back: a.new ≡ a.old
/// back: bricolage_from result.back (joined_written writes.now) ≡ b.old
/// in_range: result.back < 2 ^ 64
/// back_and_there: b.new ≡ b.old
/// ```
#[inline]
pub fn bricolage_undone(a: &mut Bricolage, b: &mut Bricolage, writes: &[HasherWrite]) -> WayBack {
    there_and_back_joined::<Bricolage>(a, b, writes)
}

/// `oaat`, from any state: the writes, made and undone, or undone and made, leave each hasher as it was.
///
/// Proved:
///
/// ```text
/// before: result.before ≡ oaat_finish a.old
/// there: result.there ≡ oaat_finish (oaat_state a.old (joined_written writes.now))
/// there_and_back: a.new ≡ a.old
/// back: (s : ℕ) × (s < 2 ^ 64)
///     × (oaat_state s (joined_written writes.now) ≡ b.old) × (result.back ≡ oaat_finish s)
/// back_and_there: b.new ≡ b.old
/// ```
#[inline]
pub fn oaat_undone(a: &mut OAATHasher, b: &mut OAATHasher, writes: &[HasherWrite]) -> WayBack {
    there_and_back_joined::<OAATHasher>(a, b, writes)
}

/// `fxhash`, from any state: the writes, made and undone, or undone and made, leave each hasher as it was.
///
/// Proved:
///
/// ```text
/// before: result.before ≡ a.old
/// there: result.there ≡ fx64 a.old (flat_map words64 (all_written writes.now))
/// there_and_back: a.new ≡ a.old
/// back: fx64 result.back (flat_map words64 (all_written writes.now)) ≡ b.old
/// in_range: result.back < 2 ^ 64
/// back_and_there: b.new ≡ b.old
/// ```
#[inline]
pub fn fxhash_undone(a: &mut FxHasher, b: &mut FxHasher, writes: &[HasherWrite]) -> WayBack {
    there_and_back::<FxHasher>(a, b, writes)
}

/// `fxhash32`, from any state: the writes, made and undone, or undone and made, leave each hasher as it was.
///
/// Proved:
///
/// ```text
/// before: result.before ≡ a.old
/// there: result.there ≡ fx32 a.old (flat_map words32 (all_written writes.now))
/// there_and_back: a.new ≡ a.old
/// back: fx32 result.back (flat_map words32 (all_written writes.now)) ≡ b.old
/// in_range: result.back < 2 ^ 32
/// back_and_there: b.new ≡ b.old
/// ```
#[inline]
pub fn fxhash32_undone(a: &mut FxHasher32, b: &mut FxHasher32, writes: &[HasherWrite]) -> WayBack {
    there_and_back::<FxHasher32>(a, b, writes)
}

/// `fxhash64`, from any state: the writes, made and undone, or undone and made, leave each hasher as it was.
///
/// Proved:
///
/// ```text
/// before: result.before ≡ a.old
/// there: result.there ≡ fx64 a.old (flat_map words64 (all_written writes.now))
/// there_and_back: a.new ≡ a.old
/// back: fx64 result.back (flat_map words64 (all_written writes.now)) ≡ b.old
/// in_range: result.back < 2 ^ 64
/// back_and_there: b.new ≡ b.old
/// ```
#[inline]
pub fn fxhash64_undone(a: &mut FxHasher64, b: &mut FxHasher64, writes: &[HasherWrite]) -> WayBack {
    there_and_back::<FxHasher64>(a, b, writes)
}

/// A write that is one word of an fx type, from any state: made and undone by `unwrite_word`, and undone and made.
/// Which writes are one word `fixed_widths_are_words64` and `fixed_widths_are_words32` say.
///
/// The caller has to see to it that:
///
/// ```text
/// W.words (written write.now) ≡ W.number word ∷ []
/// ```
///
/// Proved:
///
/// ```text
/// before: result.before ≡ W.number a.old
/// there: result.there ≡ W.step (W.number a.old) (W.number word)
/// there_and_back: W.number a.new ≡ W.number a.old
/// back: W.step result.back (W.number word) ≡ W.number b.old
/// in_range: result.back < 2 ^ W.bits
/// back_and_there: W.number b.new ≡ W.number b.old
/// ```
#[inline]
pub fn one_word_undone<W: FxSplit, Name>(
    a: &mut WordHasher<W, Name>,
    b: &mut WordHasher<W, Name>,
    write: &HasherWrite,
    word: W,
) -> WayBack {
    let writes = slice::from_ref(write);
    let before = a.answer();
    run_writes(a, writes);
    let there = a.answer();
    a.unwrite_word(word);
    b.unwrite_word(word);
    let back = b.answer();
    run_writes(b, writes);
    WayBack {
        before,
        there,
        back,
    }
}

/// `fxhash`, from any state: a number of 64 bits is one word, which `unwrite_word` undoes, both ways.
///
/// Proved:
///
/// ```text
/// before: result.before ≡ a.old
/// there: result.there ≡ fx64_step a.old word
/// there_and_back: a.new ≡ a.old
/// back: fx64_step result.back word ≡ b.old
/// in_range: result.back < 2 ^ 64
/// back_and_there: b.new ≡ b.old
/// ```
#[inline]
pub fn fxhash_word_undone(a: &mut FxHasher, b: &mut FxHasher, word: u64) -> WayBack {
    one_word_undone(a, b, &HasherWrite::U64(word), word)
}

/// `fxhash32`, from any state: a number of 32 bits is one word, which `unwrite_word` undoes, both ways.
///
/// Proved:
///
/// ```text
/// before: result.before ≡ a.old
/// there: result.there ≡ fx32_step a.old word
/// there_and_back: a.new ≡ a.old
/// back: fx32_step result.back word ≡ b.old
/// in_range: result.back < 2 ^ 32
/// back_and_there: b.new ≡ b.old
/// ```
#[inline]
pub fn fxhash32_word_undone(a: &mut FxHasher32, b: &mut FxHasher32, word: u32) -> WayBack {
    one_word_undone(a, b, &HasherWrite::U32(word), word)
}

/// `fxhash64`, from any state: a number of 64 bits is one word, which `unwrite_word` undoes, both ways.
///
/// Proved:
///
/// ```text
/// before: result.before ≡ a.old
/// there: result.there ≡ fx64_step a.old word
/// there_and_back: a.new ≡ a.old
/// back: fx64_step result.back word ≡ b.old
/// in_range: result.back < 2 ^ 64
/// back_and_there: b.new ≡ b.old
/// ```
#[inline]
pub fn fxhash64_word_undone(a: &mut FxHasher64, b: &mut FxHasher64, word: u64) -> WayBack {
    one_word_undone(a, b, &HasherWrite::U64(word), word)
}

/// `lookup3_mix` and `lookup3_unmix` undo one another, both ways, on every state: the words in between.
///
/// Proved:
///
/// ```text
/// there: result.0 ≡ apply 32 lookup3_mix_steps [] a.old
/// there_and_back: a.new ≡ a.old
/// back: apply 32 lookup3_mix_steps [] result.1 ≡ b.old
/// back_and_there: b.new ≡ b.old
/// ```
#[inline]
pub fn lookup3_mix_undone(a: &mut [u32; 3], b: &mut [u32; 3]) -> ([u32; 3], [u32; 3]) {
    lookup3_mix(a);
    let there = *a;
    lookup3_unmix(a);
    lookup3_unmix(b);
    let back = *b;
    lookup3_mix(b);
    (there, back)
}

/// `lookup3_final` and `lookup3_unfinal` undo one another, both ways, on every state: the words in between.
///
/// Proved:
///
/// ```text
/// there: result.0 ≡ apply 32 lookup3_final_steps [] a.old
/// there_and_back: a.new ≡ a.old
/// back: apply 32 lookup3_final_steps [] result.1 ≡ b.old
/// back_and_there: b.new ≡ b.old
/// ```
#[inline]
pub fn lookup3_final_undone(a: &mut [u32; 3], b: &mut [u32; 3]) -> ([u32; 3], [u32; 3]) {
    lookup3_final(a);
    let there = *a;
    lookup3_unfinal(a);
    lookup3_unfinal(b);
    let back = *b;
    lookup3_final(b);
    (there, back)
}

/// `spooky_mix` and `spooky_unmix` undo one another, both ways, on every state, for the same twelve words of data: the words
/// in between.
///
/// Proved:
///
/// ```text
/// there: result.0 ≡ apply 64 spooky_mix_steps words.now a.old
/// there_and_back: a.new ≡ a.old
/// back: apply 64 spooky_mix_steps words.now result.1 ≡ b.old
/// back_and_there: b.new ≡ b.old
/// ```
#[inline]
pub fn spooky_mix_undone(
    words: &[u64; 12],
    a: &mut [u64; 12],
    b: &mut [u64; 12],
) -> ([u64; 12], [u64; 12]) {
    spooky_mix(words, a);
    let there = *a;
    spooky_unmix(words, a);
    spooky_unmix(words, b);
    let back = *b;
    spooky_mix(words, b);
    (there, back)
}

/// `spooky_end_partial` and `spooky_un_end_partial` undo one another, both ways, on every state: the words in between.
///
/// Proved:
///
/// ```text
/// there: result.0 ≡ apply 64 spooky_end_partial_steps [] a.old
/// there_and_back: a.new ≡ a.old
/// back: apply 64 spooky_end_partial_steps [] result.1 ≡ b.old
/// back_and_there: b.new ≡ b.old
/// ```
#[inline]
pub fn spooky_end_partial_undone(a: &mut [u64; 12], b: &mut [u64; 12]) -> ([u64; 12], [u64; 12]) {
    spooky_end_partial(a);
    let there = *a;
    spooky_un_end_partial(a);
    spooky_un_end_partial(b);
    let back = *b;
    spooky_end_partial(b);
    (there, back)
}

/// `short_mix` and `un_short_mix` undo one another, both ways, on every state: the words in between.
///
/// Proved:
///
/// ```text
/// there: result.0 ≡ apply 64 short_mix_steps [] a.old
/// there_and_back: a.new ≡ a.old
/// back: apply 64 short_mix_steps [] result.1 ≡ b.old
/// back_and_there: b.new ≡ b.old
/// ```
#[inline]
pub fn short_mix_undone(a: &mut [u64; 4], b: &mut [u64; 4]) -> ([u64; 4], [u64; 4]) {
    short_mix(a);
    let there = *a;
    un_short_mix(a);
    un_short_mix(b);
    let back = *b;
    short_mix(b);
    (there, back)
}

/// `short_end` and `un_short_end` undo one another, both ways, on every state: the words in between.
///
/// Proved:
///
/// ```text
/// there: result.0 ≡ apply 64 short_end_steps [] a.old
/// there_and_back: a.new ≡ a.old
/// back: apply 64 short_end_steps [] result.1 ≡ b.old
/// back_and_there: b.new ≡ b.old
/// ```
#[inline]
pub fn short_end_undone(a: &mut [u64; 4], b: &mut [u64; 4]) -> ([u64; 4], [u64; 4]) {
    short_end(a);
    let there = *a;
    un_short_end(a);
    un_short_end(b);
    let back = *b;
    short_end(b);
    (there, back)
}
