//! Three hash functions of Ozan Yigit's page of hash functions for strings: djb2, sdbm and lose lose.

// What follows is the proved text of crates/hash_bytes/src/oz.rt without its contracts.
// Clauses name Hasher.
#![allow(unused_imports)]
use crate::{hash_laws, hash_rounds, std};

pub use hash_laws::rules::constants::UNPRODUCT_33;
use hash_laws::rules::{
    ByteHasher, ByteRule, Plain, PlainRule, PlainUndo, StepRule, UndoRule, hash_by_plain,
    hash_by_rule,
};
use hash_rounds::{Turns, lose8, sdbm4};
use std::hash::Hasher;
use std::simd::prelude::*;

/// What undoes a product by 65599.
const UNPRODUCT_65599: u32 = 2390421439;

/// The rule of Dan Bernstein's hash in its form with an exclusive or.
pub struct Djb2Rule;

impl PlainRule for Djb2Rule {
    type Word = u32;

    const ALONE: bool = false;

    #[inline]
    fn start() -> u32 {
        5381
    }

    #[inline(always)]
    fn step(word: u32, byte: u8) -> u32 {
        (word << 5).wrapping_add(word) ^ u32::from(byte)
    }

    #[inline(always)]
    fn answer(word: u32) -> u64 {
        u64::from(word)
    }
}

impl PlainUndo for Djb2Rule {
    #[inline(always)]
    fn unstep(word: u32, byte: u8) -> u32 {
        (word ^ u32::from(byte)).wrapping_mul(UNPRODUCT_33)
    }

    #[inline]
    fn unanswer(hash: u64) -> Option<u32> {
        u32::try_from(hash).ok()
    }
}

/// djb2, Dan Bernstein's hash in its form with an exclusive or (Oz' page of hash functions, www.cse.yorku.ca/~oz/hash.html).
///
/// From 5381, a byte `b` takes the state `h` to `(33 * h) ^ b`, at 32 bits; `finish` returns `h`, widened. The split does not matter, and
/// each write can be undone. Texts that differ in the low five bits of at most six adjacent bytes never collide.
///
/// Contracts see the hasher as its state, a number below 2^32: `write` gives `h.new ≡ djb2_from h.old bytes.now`, and `finish`
/// answers `h.now`. Of `a` the hash is 177604.
pub type DJB2Hasher = ByteHasher<Plain<Djb2Rule>>;

/// djb2 of the bytes, from 5381.
///
/// Proved:
///
/// ```text
/// value: result ≡ djb2_of bytes.now
/// below: result < 2 ^ 32
/// ```
#[inline]
pub fn djb2(bytes: &[u8]) -> u64 {
    hash_by_plain::<Djb2Rule>(bytes)
}

/// One byte of sdbm on.
///
/// Proved:
///
/// ```text
/// result ≡ (65599 * state + byte) % 2 ^ 32
/// ```
#[inline(always)]
fn sdbm_step(state: u32, byte: u8) -> u32 {
    state.wrapping_mul(65599).wrapping_add(u32::from(byte))
}

/// One byte of sdbm back.
///
/// Proved:
///
/// ```text
/// (65599 * result + byte) % 2 ^ 32 ≡ state
/// ```
#[inline(always)]
fn sdbm_unstep(state: u32, byte: u8) -> u32 {
    state
        .wrapping_sub(u32::from(byte))
        .wrapping_mul(UNPRODUCT_65599)
}

/// What the hasher of sdbm keeps: its state, and the turns that its writes have taken, of which nothing is kept at run
/// time.
pub struct SdbmState {
    state: u32,
    turns: Turns,
}

/// The rule of sdbm.
pub struct SdbmRule;

impl StepRule for SdbmRule {
    type State = SdbmState;

    #[inline]
    fn start() -> SdbmState {
        SdbmState {
            state: 0,
            turns: Turns::new(),
        }
    }

    #[inline(always)]
    fn fork(state: &SdbmState) -> SdbmState {
        SdbmState {
            state: state.state,
            turns: state.turns.fork(),
        }
    }

    #[inline(always)]
    fn step(state: &mut SdbmState, byte: u8) {
        state.state = sdbm_step(state.state, byte);
    }
}

impl ByteRule for SdbmRule {
    /// Takes the bytes in, four in each turn of `sdbm4` and the last up to three alone. A single byte has no loop.
    ///
    /// Proved:
    ///
    /// ```text
    /// value: state.new ≡ sdbm_write state.old bytes.now
    /// state: state.new.state ≡ sdbm_from state.old.state bytes.now
    /// turns: state.new.turns ≡ state.old.turns + length bytes.now / 4
    /// ```
    #[inline(always)]
    fn write(state: &mut SdbmState, bytes: &[u8]) {
        if let [byte] = bytes {
            state.state = sdbm_step(state.state, *byte);
            return;
        }
        let (fours, rest) = bytes.as_chunks::<4>();
        for four in fours {
            state.state = sdbm4(state.state, four, &mut state.turns);
        }
        for byte in rest {
            state.state = sdbm_step(state.state, *byte);
        }
    }

    #[inline(always)]
    fn answer(state: &SdbmState) -> u64 {
        u64::from(state.state)
    }
}

impl UndoRule for SdbmRule {
    #[inline(always)]
    fn unstep(state: &mut SdbmState, byte: u8) {
        state.state = sdbm_unstep(state.state, byte);
    }

    #[inline]
    fn unanswer(hash: u64) -> Option<SdbmState> {
        let state = u32::try_from(hash).ok()?;
        Some(SdbmState {
            state,
            turns: Turns::new(),
        })
    }
}

/// The hash of the sdbm database library (Oz' page of hash functions, www.cse.yorku.ca/~oz/hash.html).
///
/// From 0, a byte `b` takes the state `h` to `65599 * h + b`, at 32 bits; `finish` returns `h`, widened. So the hash is the sum of
/// the bytes as digits in base 65599. The split does not matter, and each write can be undone. Texts that differ in at most three
/// adjacent bytes never collide.
///
/// Contracts see the hasher as its `state`, a number below 2^32, and the `turns` that its writes have taken, of which nothing
/// is kept at run time: `write` gives `h.new.state ≡ sdbm_from h.old.state bytes.now`, in a turn for each four bytes, and `finish`
/// answers `h.now.state`. Of `ab` the hash is 6363201.
pub type SDBMHasher = ByteHasher<SdbmRule>;

/// sdbm of the bytes: their sum as digits in base 65599, modulo 2^32.
///
/// Proved:
///
/// ```text
/// value: result ≡ sdbm_from 0 bytes.now
/// below: result < 2 ^ 32
/// ```
#[inline]
pub fn sdbm(bytes: &[u8]) -> u64 {
    hash_by_rule::<SdbmRule>(bytes)
}

/// sdbm of a joined text from the hashes of its two parts and the second one's length in bytes, in a time that grows with
/// the number of that length's digits. Of each hash the low 32 bits count.
///
/// Proved:
///
/// ```text
/// value: result ≡ (hash1 * 65599 ^ length2 + hash2) % 2 ^ 32
/// joined: (x y : List ℕ) → length y ≡ length2 → hash1 ≡ sdbm_from 0 x → hash2 ≡ sdbm_from 0 y
///     → result ≡ sdbm_from 0 (x ++ y)
/// ```
#[inline]
pub fn sdbm_combine(hash1: u64, hash2: u64, length2: u64) -> u64 {
    // 65599 to the power 2^32 is 1 modulo 2^32, so of the exponent 32 bits are enough.
    let power = 65599u32.wrapping_pow((length2 % 4294967296) as u32);
    let first = (hash1 % 4294967296) as u32;
    let second = (hash2 % 4294967296) as u32;
    u64::from(first.wrapping_mul(power).wrapping_add(second))
}

/// One byte of lose lose on.
///
/// Proved:
///
/// ```text
/// result ≡ (state + byte) % 2 ^ 64
/// ```
#[inline(always)]
fn loselose_step(state: u64, byte: u8) -> u64 {
    state.wrapping_add(u64::from(byte))
}

/// One byte of lose lose back.
///
/// Proved:
///
/// ```text
/// (result + byte) % 2 ^ 64 ≡ state
/// ```
#[inline(always)]
fn loselose_unstep(state: u64, byte: u8) -> u64 {
    state.wrapping_sub(u64::from(byte))
}

/// The bytes of lose lose in, one step for each.
///
/// Proved:
///
/// ```text
/// result ≡ loselose_from state bytes.now
/// ```
#[inline(always)]
fn loselose_bytes_in(state: u64, bytes: &[u8]) -> u64 {
    let mut h = state;
    for byte in bytes {
        h = loselose_step(h, *byte);
    }
    h
}

/// The sum of eight bytes, in one turn of `lose8`. The lanes begin at 0 and are summed at once: the processor has one step
/// for both.
///
/// Proved:
///
/// ```text
/// value: result ≡ loselose_from 0 eight.now
/// turn: turns.new ≡ turns.old + 1
/// ```
#[inline(always)]
fn sum_of_eight(eight: &[u8; 8], turns: &mut Turns) -> u64 {
    let mut lanes = u64x8::splat(0);
    lose8(&mut lanes, eight, turns);
    lanes.reduce_sum()
}

/// What the hasher of lose lose keeps: its state, and the turns that its writes have taken, of which nothing is kept at
/// run time.
pub struct LoseLoseState {
    state: u64,
    turns: Turns,
}

/// The rule of lose lose.
pub struct LoseLoseRule;

impl StepRule for LoseLoseRule {
    type State = LoseLoseState;

    #[inline]
    fn start() -> LoseLoseState {
        LoseLoseState {
            state: 0,
            turns: Turns::new(),
        }
    }

    #[inline(always)]
    fn fork(state: &LoseLoseState) -> LoseLoseState {
        LoseLoseState {
            state: state.state,
            turns: state.turns.fork(),
        }
    }

    #[inline(always)]
    fn step(state: &mut LoseLoseState, byte: u8) {
        state.state = loselose_step(state.state, byte);
    }
}

impl ByteRule for LoseLoseRule {
    /// Adds eight bytes in each turn of `lose8`, and the up to seven last ones one by one. Fewer than eight have a way of
    /// their own, with nothing else on it.
    ///
    /// Proved:
    ///
    /// ```text
    /// value: state.new ≡ loselose_write state.old bytes.now
    /// state: state.new.state ≡ loselose_from state.old.state bytes.now
    /// turns: state.new.turns ≡ state.old.turns + length bytes.now / 8
    /// ```
    #[inline(always)]
    fn write(state: &mut LoseLoseState, bytes: &[u8]) {
        if bytes.len() < 8 {
            state.state = loselose_bytes_in(state.state, bytes);
            return;
        }
        let (eights, few) = bytes.as_chunks::<8>();
        let mut sum = state.state;
        for eight in eights {
            sum = sum.wrapping_add(sum_of_eight(eight, &mut state.turns));
        }
        state.state = loselose_bytes_in(sum, few);
    }

    #[inline(always)]
    fn answer(state: &LoseLoseState) -> u64 {
        state.state
    }
}

impl UndoRule for LoseLoseRule {
    #[inline(always)]
    fn unstep(state: &mut LoseLoseState, byte: u8) {
        state.state = loselose_unstep(state.state, byte);
    }

    #[inline]
    fn unanswer(hash: u64) -> Option<LoseLoseState> {
        Some(LoseLoseState {
            state: hash,
            turns: Turns::new(),
        })
    }
}

/// lose lose, the hash of the first edition of Kernighan and Ritchie's book, here at 64 bits (Oz' page of hash functions,
/// www.cse.yorku.ca/~oz/hash.html).
///
/// From 0, a byte `b` takes the state `h` to `h + b`, modulo 2^64; `finish` returns `h`. So the hash is the sum of the bytes, in
/// whatever order they come. The split does not matter, and each write can be undone.
///
/// Contracts see the hasher as its `state`, a number below 2^64, and the `turns` that its writes have taken, of which nothing
/// is kept at run time: `write` gives `h.new.state ≡ loselose_from h.old.state bytes.now`, in a turn for each eight bytes, and
/// `finish` returns `h.now.state`. Of `ab` the hash is 195.
pub type LoseLoseHasher = ByteHasher<LoseLoseRule>;

/// The sum of the bytes, modulo 2^64.
///
/// Proved:
///
/// ```text
/// result ≡ loselose_from 0 bytes.now
/// ```
#[inline]
pub fn loselose(bytes: &[u8]) -> u64 {
    hash_by_rule::<LoseLoseRule>(bytes)
}

/// lose lose of a joined text from the hashes of its two parts. The second one's length does not matter: the parameter
/// stands there so that all three calls of the kind are called alike.
///
/// Proved:
///
/// ```text
/// value: result ≡ (hash1 + hash2) % 2 ^ 64
/// joined: (x y : List ℕ) → hash1 ≡ loselose_from 0 x → hash2 ≡ loselose_from 0 y
///     → result ≡ loselose_from 0 (x ++ y)
/// ```
#[inline]
pub fn loselose_combine(hash1: u64, hash2: u64, _length2: u64) -> u64 {
    hash1.wrapping_add(hash2)
}
