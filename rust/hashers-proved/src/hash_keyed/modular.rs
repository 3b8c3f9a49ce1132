//! Numbers modulo the prime 2^61 - 1.

// What follows is the proved text of crates/hash_keyed/src/modular.rt without its contracts.

/// The prime 2^61 - 1.
pub(crate) const PRIME: u64 = 2305843009213693951;

/// The product of two numbers.
///
/// Proved:
///
/// ```text
/// result ≡ a * b
/// ```
#[inline(always)]
pub(crate) fn product(a: u64, b: u64) -> u128 {
    u128::from(a) * u128::from(b)
}

/// A number that is equal modulo the prime: the high bits are added to the low 61.
///
/// The caller has to see to it that:
///
/// ```text
/// x < 2 ^ 122
/// ```
///
/// Proved:
///
/// ```text
/// same: result % prime61 ≡ x % prime61
/// small: result < 2 ^ 62
/// ```
#[inline(always)]
pub(crate) fn once(x: u128) -> u64 {
    (x % 2305843009213693952) as u64 + (x / 2305843009213693952) as u64
}

/// A number that is equal modulo the prime and is little more than it: the high bits are added to the low 61, twice.
///
/// The caller has to see to it that:
///
/// ```text
/// x < 2 ^ 124
/// ```
///
/// Proved:
///
/// ```text
/// same: result % prime61 ≡ x % prime61
/// small: result < 2 ^ 61 + 8
/// ```
#[inline(always)]
pub(crate) fn folded(x: u128) -> u64 {
    let once = (x % 2305843009213693952) as u64 + (x / 2305843009213693952) as u64;
    once % 2305843009213693952 + once / 2305843009213693952
}

/// The remainder of a number that is little more than the prime.
///
/// The caller has to see to it that:
///
/// ```text
/// x < 2 ^ 61 + 8
/// ```
///
/// Proved:
///
/// ```text
/// result ≡ x % prime61
/// ```
#[inline(always)]
pub(crate) fn reduced(x: u64) -> u64 {
    if x >= PRIME { x - PRIME } else { x }
}

/// The remainder of any number.
///
/// Proved:
///
/// ```text
/// result ≡ x % prime61
/// ```
#[inline(always)]
pub(crate) fn remainder(x: u64) -> u64 {
    reduced(x % 2305843009213693952 + x / 2305843009213693952)
}

/// One word more.
///
/// The caller has to see to it that:
///
/// ```text
/// key_in: key < prime61
/// state_in: state < 2 ^ 62
/// word_in: word < 2 ^ 57
/// ```
///
/// Proved:
///
/// ```text
/// same: result % prime61 ≡ poly_step prime61 key state word
/// small: result < 2 ^ 61 + 8
/// ```
#[inline(always)]
pub(crate) fn step(key: u64, state: u64, word: u64) -> u64 {
    folded(product(state, key) + u128::from(word))
}

/// The first word: one step from the state 1, with no product.
///
/// The caller has to see to it that:
///
/// ```text
/// key_in: key < prime61
/// word_in: word < 2 ^ 57
/// ```
///
/// Proved:
///
/// ```text
/// same: result % prime61 ≡ poly_step prime61 key 1 word
/// small: result < 2 ^ 62
/// ```
#[inline(always)]
pub(crate) fn first_step(key: u64, word: u64) -> u64 {
    key + word
}

/// A byte at its place in a word.
///
/// The caller has to see to it that:
///
/// ```text
/// byte_in: byte < 256
/// count_in: count < 7
/// ```
///
/// Proved:
///
/// ```text
/// result ≡ byte * 2 ^ (8 * count)
/// ```
#[inline(always)]
pub(crate) fn placed(byte: u64, count: u32) -> u64 {
    byte << (8 * count)
}

/// A value as a word of 64 bits: the low three bits once more as the highest.
///
/// The caller has to see to it that:
///
/// ```text
/// value < prime61
/// ```
///
/// Proved:
///
/// ```text
/// result ≡ as_word value
/// ```
#[inline(always)]
pub(crate) fn word_of(value: u64) -> u64 {
    value + value % 8 * 2305843009213693952
}

/// The answer where the last word is in: once more by the key, and the low three bits once more as the highest.
///
/// The caller has to see to it that:
///
/// ```text
/// key_in: key < prime61
/// state_in: state < 2 ^ 62
/// ```
///
/// Proved:
///
/// ```text
/// result ≡ as_word ((state * key) % prime61)
/// ```
#[inline(always)]
fn finished(key: u64, state: u64) -> u64 {
    word_of(reduced(folded(product(state, key))))
}

/// The answer behind full words: the last word in, which is so many bytes and a byte 1 behind them, and finished.
///
/// The caller has to see to it that:
///
/// ```text
/// key_in: key < prime61
/// state_in: state < 2 ^ 62
/// word_in: word < 2 ^ (8 * count)
/// count_in: count < 7
/// ```
///
/// Proved:
///
/// ```text
/// result ≡ as_word (poly_end
///     (record { key = key; state = state % prime61; word = word; count = count }))
/// ```
#[inline(always)]
pub(crate) fn ended(key: u64, state: u64, word: u64, count: u32) -> u64 {
    finished(key, step(key, state, word + placed(1, count)))
}

/// The same of fewer than seven bytes alone.
///
/// The caller has to see to it that:
///
/// ```text
/// key_in: key < prime61
/// word_in: word < 2 ^ (8 * count)
/// count_in: count < 7
/// ```
///
/// Proved:
///
/// ```text
/// result ≡ as_word (poly_end (record { key = key; state = 1 % prime61; word = word; count = count }))
/// ```
#[inline(always)]
pub(crate) fn ended_at_once(key: u64, word: u64, count: u32) -> u64 {
    finished(key, first_step(key, word + placed(1, count)))
}
