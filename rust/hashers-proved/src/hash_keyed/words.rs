//! Words of seven bytes, one and four at a time.

// What follows is the proved text of crates/hash_keyed/src/words.rt without its contracts.
// Proofs name the loops.
#![allow(unused_labels)]
use crate::hashers;

use crate::hash_keyed::modular::{first_step, folded, once, product, step};
use hashers::rounds::le64;

/// The number that seven bytes are.
///
/// Proved:
///
/// ```text
/// value: result ≡ le b.now
/// small: result < 2 ^ 56
/// ```
#[inline(always)]
fn seven(b: &[u8; 7]) -> u64 {
    u64::from_le_bytes([b[0], b[1], b[2], b[3], b[4], b[5], b[6], 0])
}

/// The number that fewer than seven bytes are.
///
/// The caller has to see to it that:
///
/// ```text
/// length bytes.now < 7
/// ```
///
/// Proved:
///
/// ```text
/// value: result ≡ le bytes.now
/// small: result < 2 ^ (8 * length bytes.now)
/// ```
#[inline(always)]
pub(crate) fn few(bytes: &[u8]) -> u64 {
    match bytes {
        [] => 0,
        [a] => u64::from(*a),
        [a, b] => u64::from_le_bytes([*a, *b, 0, 0, 0, 0, 0, 0]),
        [a, b, c] => u64::from_le_bytes([*a, *b, *c, 0, 0, 0, 0, 0]),
        [a, b, c, d] => u64::from_le_bytes([*a, *b, *c, *d, 0, 0, 0, 0]),
        [a, b, c, d, e] => u64::from_le_bytes([*a, *b, *c, *d, *e, 0, 0, 0]),
        [a, b, c, d, e, f, ..] => u64::from_le_bytes([*a, *b, *c, *d, *e, *f, 0, 0]),
    }
}

/// A number behind so many bytes of a word: the word that both begin, and what of the number stands behind it.
///
/// The caller has to see to it that:
///
/// ```text
/// word_in: word < 2 ^ (8 * count)
/// count_in: count < 7
/// ```
///
/// Proved:
///
/// ```text
/// whole: result.0 + result.1 * 2 ^ 56 ≡ word + number * 2 ^ (8 * count)
/// small: result.0 < 2 ^ 56
/// ```
#[inline(always)]
pub(crate) fn joined(word: u64, count: u32, number: u64) -> (u64, u64) {
    let bits = 8 * count;
    (
        (word + (number << bits)) % 72057594037927936,
        number >> (56 - bits),
    )
}

/// The second, third, fourth and eighth power of a key.
///
/// The caller has to see to it that:
///
/// ```text
/// key < prime61
/// ```
///
/// Proved:
///
/// ```text
/// ArePowers key result.0 result.1 result.2 result.3
/// ```
#[inline(always)]
fn powers(key: u64) -> (u64, u64, u64, u64) {
    let second = folded(product(key, key));
    let third = folded(product(second, key));
    let fourth = folded(product(second, second));
    (second, third, fourth, folded(product(fourth, fourth)))
}

/// The number that eight bytes of a block are, by one load.
///
/// The caller has to see to it that:
///
/// ```text
/// at ≤ 20
/// ```
///
/// Proved:
///
/// ```text
/// result ≡ le (take 8 (drop at block.now))
/// ```
#[inline(always)]
fn eight(block: &[u8; 28], at: usize) -> u64 {
    le64(block[at..].first_chunk::<8>().unwrap())
}

/// The four words of twenty-eight bytes.
///
/// Proved:
///
/// ```text
/// first: (result.0 ≡ le (take 7 block.now)) × (result.0 < 2 ^ 56)
/// second: (result.1 ≡ le (take 7 (drop 7 block.now))) × (result.1 < 2 ^ 56)
/// third: (result.2 ≡ le (take 7 (drop 14 block.now))) × (result.2 < 2 ^ 56)
/// fourth: (result.3 ≡ le (take 7 (drop 21 block.now))) × (result.3 < 2 ^ 56)
/// ```
#[inline(always)]
fn four(block: &[u8; 28]) -> (u64, u64, u64, u64) {
    (
        eight(block, 0) % 72057594037927936,
        eight(block, 7) % 72057594037927936,
        eight(block, 14) % 72057594037927936,
        eight(block, 20) / 256,
    )
}

/// The sum of the four words of twenty-eight bytes, each by its power of the key.
///
/// The caller has to see to it that:
///
/// ```text
/// ArePowers key powers.0 powers.1 powers.2 powers.3
/// ```
///
/// Proved:
///
/// ```text
/// same: result % prime61 ≡ block_sum key powers.0 powers.1 block.now % prime61
/// small: result < 2 ^ 62
/// ```
#[inline(always)]
fn four_words(key: u64, powers: (u64, u64, u64, u64), block: &[u8; 28]) -> u64 {
    let (second, third, _, _) = powers;
    let (a, b, c, d) = four(block);
    once(product(a, third) + product(b, second) + product(c, key) + u128::from(d))
}

/// Twenty-eight bytes in.
///
/// The caller has to see to it that:
///
/// ```text
/// powers: ArePowers key powers.0 powers.1 powers.2 powers.3
/// state_in: state < 2 ^ 61 + 8
/// ```
///
/// Proved:
///
/// ```text
/// there: (more : List ℕ) → after (full_words key state) (block.now ++ more)
///     ≡ after (full_words key result) more
/// small: result < 2 ^ 61 + 8
/// ```
#[inline(always)]
fn four_in(key: u64, powers: (u64, u64, u64, u64), state: u64, block: &[u8; 28]) -> u64 {
    folded(product(state, powers.2) + u128::from(four_words(key, powers, block)))
}

/// Fifty-six bytes in. The product that waits for the state is one of eight.
///
/// The caller has to see to it that:
///
/// ```text
/// powers: ArePowers key powers.0 powers.1 powers.2 powers.3
/// state_in: state < 2 ^ 61 + 8
/// ```
///
/// Proved:
///
/// ```text
/// there: (more : List ℕ) → after (full_words key state) (block.now ++ more)
///     ≡ after (full_words key result) more
/// small: result < 2 ^ 61 + 8
/// ```
#[inline(always)]
fn eight_in(key: u64, powers: (u64, u64, u64, u64), state: u64, block: &[u8; 56]) -> u64 {
    let (halves, _) = block.as_chunks::<28>();
    let first = four_words(key, powers, &halves[0]);
    let second = four_words(key, powers, &halves[1]);
    folded(product(state, powers.3) + (product(first, powers.2) + u128::from(second)))
}

/// The number that the first seven of eight bytes are.
///
/// Proved:
///
/// ```text
/// value: result ≡ le (take 7 block.now)
/// small: result < 2 ^ 56
/// ```
#[inline(always)]
fn seven_of(block: &[u8; 8]) -> u64 {
    le64(block) % 72057594037927936
}

/// The full words of the bytes in, one by one, and the fewer than seven bytes behind them.
///
/// The caller has to see to it that:
///
/// ```text
/// key_in: key < prime61
/// state_in: start < 2 ^ 62
/// ```
///
/// Proved:
///
/// ```text
/// there: after (full_words key start) bytes.now ≡ after (full_words key result.0) result.1.now
/// small: result.0 < 2 ^ 62
/// in_range: start < 2 ^ 61 + 8 → result.0 < 2 ^ 61 + 8
/// few: length result.1.now < 7
/// ```
#[inline(always)]
fn by_words(key: u64, start: u64, bytes: &[u8]) -> (u64, &[u8]) {
    let mut state = start;
    let mut rest = bytes;
    while let Some((block, _)) = rest.split_first_chunk::<8>() {
        state = step(key, state, seven_of(block));
        rest = rest.split_at(7).1;
    }
    match rest.split_first_chunk::<7>() {
        Some((word, more)) => (step(key, state, seven(word)), more),
        None => (state, rest),
    }
}

/// The full words of a text in, and the fewer than seven bytes behind them.
///
/// The caller has to see to it that:
///
/// ```text
/// key_in: key < prime61
/// ```
///
/// Proved:
///
/// ```text
/// there: after (full_words key 1) text.now ≡ after (full_words key result.0) result.1.now
/// small: result.0 < 2 ^ 62
/// few: length result.1.now < 7
/// ```
#[inline(always)]
pub(crate) fn text_words(key: u64, text: &[u8]) -> (u64, &[u8]) {
    match text.split_first_chunk::<8>() {
        Some((block, _)) if text.len() < 28 => {
            by_words(key, first_step(key, seven_of(block)), text.split_at(7).1)
        }
        _ => full_words(key, 1, text),
    }
}

/// All full words of the bytes in, and the fewer than seven bytes behind them.
///
/// The caller has to see to it that:
///
/// ```text
/// key_in: key < prime61
/// state_in: start < 2 ^ 61 + 8
/// ```
///
/// Proved:
///
/// ```text
/// there: after (full_words key start) bytes.now ≡ after (full_words key result.0) result.1.now
/// small: result.0 < 2 ^ 61 + 8
/// few: length result.1.now < 7
/// ```
#[inline(always)]
pub(crate) fn full_words(key: u64, start: u64, bytes: &[u8]) -> (u64, &[u8]) {
    let mut state = start;
    let mut rest = bytes;
    if rest.len() >= 28 {
        let powers = powers(key);
        'eights: while let Some((block, more)) = rest.split_first_chunk::<56>() {
            state = eight_in(key, powers, state, block);
            rest = more;
        }
        'fours: while let Some((block, more)) = rest.split_first_chunk::<28>() {
            state = four_in(key, powers, state, block);
            rest = more;
        }
    }
    by_words(key, state, rest)
}
