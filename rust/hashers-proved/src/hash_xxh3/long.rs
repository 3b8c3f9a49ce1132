//! XXH3 of more than 240 bytes.

// What follows is the proved text of crates/hash_xxh3/src/long.rt without its contracts.
use crate::hash_words;

use crate::hash_xxh3::middle::length_word;
use crate::hash_xxh3::secret::{default_secret, put_secret};
use crate::hash_xxh3::words::{avalanche, folded_product, word_at};
use hash_words::xorshift;

/// The bytes of a stripe.
pub(crate) const STRIPE: usize = 64;

/// The words, and the number of the next stripe in its block of sixteen.
#[derive(Clone, Copy)]
pub struct Lanes {
    /// The words.
    pub words: [u64; 8],
    /// The number of the next stripe in its block.
    pub stripe: usize,
}

/// Lanes of these words, at a stripe of a block.
///
/// Proved:
///
/// ```text
/// words: result.words ≡ words
/// stripe: result.stripe ≡ stripe % 16
/// in_range: IsLanes result
/// ```
#[inline(always)]
pub(crate) fn lanes_at(words: [u64; 8], stripe: u64) -> Lanes {
    Lanes {
        words,
        stripe: (stripe % 16) as usize,
    }
}

/// The eight words before the first stripe.
pub(crate) const START: Lanes = Lanes {
    words: [
        0xc2b2ae3d,
        0x9e3779b185ebca87,
        0xc2b2ae3d27d4eb4f,
        0x165667b19e3779f9,
        0x85ebca77c2b2ae63,
        0x85ebca77,
        0x27d4eb2f165667c5,
        0x9e3779b1,
    ],
    stripe: 0,
};

// The product of a word's two halves.
/// Proved:
///
/// ```text
/// result ≡ halves_product x
/// ```
#[inline(always)]
fn halves_product(x: u64) -> u64 {
    (x % 4294967296) * (x / 4294967296)
}

/// The caller has to see to it that:
///
/// ```text
/// secret: at ≤ 128
/// own: i < 8
/// neighbour: j < 8
/// ```
///
/// Proved:
///
/// ```text
/// result ≡ lane words.now stripe.now secret.now at i j
/// ```
#[inline(always)]
fn lane(
    words: &[u64; 8],
    stripe: &[u8; 64],
    secret: &[u8; 192],
    at: usize,
    i: usize,
    j: usize,
) -> u64 {
    let product = halves_product(word_at(stripe, 8 * i) ^ word_at(secret, at + 8 * i));
    words[i]
        .wrapping_add(word_at(stripe, 8 * j))
        .wrapping_add(product)
}

// The words after a stripe, under the 64 bytes of the secret from `at` on.
/// The caller has to see to it that:
///
/// ```text
/// at ≤ 128
/// ```
///
/// Proved:
///
/// ```text
/// result ≡ accumulate words.now stripe.now secret.now at
/// ```
#[inline(always)]
fn accumulate(words: &[u64; 8], stripe: &[u8; 64], secret: &[u8; 192], at: usize) -> [u64; 8] {
    [
        lane(words, stripe, secret, at, 0, 1),
        lane(words, stripe, secret, at, 1, 0),
        lane(words, stripe, secret, at, 2, 3),
        lane(words, stripe, secret, at, 3, 2),
        lane(words, stripe, secret, at, 4, 5),
        lane(words, stripe, secret, at, 5, 4),
        lane(words, stripe, secret, at, 6, 7),
        lane(words, stripe, secret, at, 7, 6),
    ]
}

// A word at the end of a block.
/// Proved:
///
/// ```text
/// result ≡ scrambled key word
/// ```
#[inline(always)]
fn scrambled(key: u64, word: u64) -> u64 {
    (xorshift(word, 47) ^ key).wrapping_mul(0x9e3779b1)
}

/// Proved:
///
/// ```text
/// result ≡ scramble words.now secret.now
/// ```
#[inline(always)]
fn scramble(words: &[u64; 8], secret: &[u8; 192]) -> [u64; 8] {
    [
        scrambled(word_at(secret, 128), words[0]),
        scrambled(word_at(secret, 136), words[1]),
        scrambled(word_at(secret, 144), words[2]),
        scrambled(word_at(secret, 152), words[3]),
        scrambled(word_at(secret, 160), words[4]),
        scrambled(word_at(secret, 168), words[5]),
        scrambled(word_at(secret, 176), words[6]),
        scrambled(word_at(secret, 184), words[7]),
    ]
}

/// One stripe more.
///
/// The caller has to see to it that:
///
/// ```text
/// lanes.stripe < 16
/// ```
///
/// Proved:
///
/// ```text
/// value: result ≡ stripe_in secret.now lanes stripe.now
/// in_block: result.stripe < 16
/// ```
#[inline(always)]
pub(crate) fn stripe_in(secret: &[u8; 192], lanes: Lanes, stripe: &[u8; 64]) -> Lanes {
    // it is below 16; the remainder says so to a compiler that would test the bounds
    let words = accumulate(&lanes.words, stripe, secret, 8 * (lanes.stripe % 16));
    if lanes.stripe < 15 {
        Lanes {
            words,
            stripe: lanes.stripe + 1,
        }
    } else {
        Lanes {
            words: scramble(&words, secret),
            stripe: 0,
        }
    }
}

/// All stripes of a text that is whole stripes.
///
/// The caller has to see to it that:
///
/// ```text
/// start.stripe < 16
/// ```
///
/// Proved:
///
/// ```text
/// value: result ≡ stripes_in secret.now start (length text.now / 64) text.now
/// in_block: result.stripe < 16
/// ```
#[inline(always)]
pub(crate) fn stripes_in(secret: &[u8; 192], start: Lanes, text: &[u8]) -> Lanes {
    let (stripes, _) = text.as_chunks::<64>();
    let mut lanes = start;
    for stripe in stripes {
        lanes = stripe_in(secret, lanes, stripe);
    }
    lanes
}

// Two stripes more, of which the first is not the last of its block.
/// The caller has to see to it that:
///
/// ```text
/// block: lanes.stripe < 16
/// even: lanes.stripe % 2 ≡ 0
/// ```
///
/// Proved:
///
/// ```text
/// value: result ≡ stripe_in secret.now (stripe_in secret.now lanes first.now) second.now
/// in_block: result.stripe < 16
/// even: result.stripe % 2 ≡ 0
/// ```
#[inline(always)]
fn two_in(secret: &[u8; 192], lanes: Lanes, first: &[u8; 64], second: &[u8; 64]) -> Lanes {
    // it is below 16; the remainder says so to a compiler that would test the bounds
    let at = 8 * (lanes.stripe % 16);
    let middle = accumulate(&lanes.words, first, secret, at);
    let words = accumulate(&middle, second, secret, at + 8);
    if lanes.stripe < 14 {
        Lanes {
            words,
            stripe: lanes.stripe + 2,
        }
    } else {
        Lanes {
            words: scramble(&words, secret),
            stripe: 0,
        }
    }
}

// All stripes of a text that is whole stripes, from the start, two a turn.
/// Proved:
///
/// ```text
/// result ≡ stripes_in secret.now start_lanes (length text.now / 64) text.now
/// ```
#[inline(always)]
fn stripes_by_two(secret: &[u8; 192], text: &[u8]) -> Lanes {
    let (pairs, last) = text.as_chunks::<128>();
    let mut lanes = START;
    for pair in pairs {
        let (stripes, _) = pair.as_chunks::<64>();
        lanes = two_in(secret, lanes, &stripes[0], &stripes[1]);
    }
    stripes_in(secret, lanes, last)
}

// Two words folded into one, under 16 bytes of the secret's 64 from `at` on.
/// The caller has to see to it that:
///
/// ```text
/// secret: at ≤ 128
/// pair: i < 4
/// ```
///
/// Proved:
///
/// ```text
/// result ≡ merge_pair words.now secret.now at i
/// ```
#[inline(always)]
fn merge_pair(words: &[u64; 8], secret: &[u8; 192], at: usize, i: usize) -> u64 {
    folded_product(
        words[2 * i] ^ word_at(secret, at + 16 * i),
        words[2 * i + 1] ^ word_at(secret, at + 16 * i + 8),
    )
}

/// The eight words folded into one, under 64 bytes of the secret from `at` on.
///
/// The caller has to see to it that:
///
/// ```text
/// at ≤ 128
/// ```
///
/// Proved:
///
/// ```text
/// result ≡ merge words.now secret.now at start
/// ```
#[inline(always)]
pub(crate) fn merge(words: &[u64; 8], secret: &[u8; 192], at: usize, start: u64) -> u64 {
    avalanche(
        start
            .wrapping_add(merge_pair(words, secret, at, 0))
            .wrapping_add(merge_pair(words, secret, at, 1))
            .wrapping_add(merge_pair(words, secret, at, 2))
            .wrapping_add(merge_pair(words, secret, at, 3)),
    )
}

/// The words at the end of a text: its last 64 bytes are a stripe once more.
///
/// The caller has to see to it that:
///
/// ```text
/// 64 ≤ length text.now
/// ```
///
/// Proved:
///
/// ```text
/// result ≡ last_words secret.now words.now text.now
/// ```
#[inline(always)]
pub(crate) fn last_words(secret: &[u8; 192], words: &[u64; 8], text: &[u8]) -> [u64; 8] {
    accumulate(words, text.last_chunk::<64>().unwrap(), secret, 121)
}

/// The words that a text of more than 240 bytes ends in, under a secret. It is a function by itself, so that the words stay in vectors.
///
/// The caller has to see to it that:
///
/// ```text
/// 241 ≤ length text.now
/// ```
///
/// Proved:
///
/// ```text
/// result ≡ end_words secret.now text.now
/// ```
#[inline(never)]
pub(crate) fn end_words(secret: &[u8; 192], text: &[u8]) -> [u64; 8] {
    let lanes = stripes_by_two(secret, &text[..(text.len() - 1) / STRIPE * STRIPE]);
    last_words(secret, &lanes.words, text)
}

/// The hash of a text of so many bytes that ends in these words.
///
/// Proved:
///
/// ```text
/// result ≡ end_long secret.now words.now len
/// ```
#[inline(always)]
pub(crate) fn end_long(secret: &[u8; 192], words: &[u64; 8], len: u64) -> u64 {
    merge(words, secret, 11, length_word(len))
}

/// The words that a text of more than 240 bytes ends in, from those after the first stripe of what is kept of it.
///
/// The caller has to see to it that:
///
/// ```text
/// block: lanes.now.stripe < 16
/// some: 65 ≤ length kept.now
/// ```
///
/// Proved:
///
/// ```text
/// result ≡ kept_words secret.now lanes.now kept.now
/// ```
#[inline(always)]
pub(crate) fn kept_words(secret: &[u8; 192], lanes: &Lanes, kept: &[u8]) -> [u64; 8] {
    let whole = (kept.len() - 65) / STRIPE * STRIPE;
    let (_, behind) = kept.split_at(STRIPE);
    let (stripes, _) = behind.split_at(whole);
    let next = stripes_in(secret, *lanes, stripes);
    let (_, end) = kept.split_at(whole);
    last_words(secret, &next.words, end)
}

/// The hash of so many bytes by the words after the first stripe of what is kept of the text.
///
/// The caller has to see to it that:
///
/// ```text
/// block: lanes.now.stripe < 16
/// some: 65 ≤ length kept.now
/// ```
///
/// Proved:
///
/// ```text
/// result ≡ end_long secret.now (kept_words secret.now lanes.now kept.now) len
/// ```
#[inline(always)]
pub(crate) fn end_kept(secret: &[u8; 192], lanes: &Lanes, kept: &[u8], len: u64) -> u64 {
    end_long(secret, &kept_words(secret, lanes, kept), len)
}

// XXH3 of more than 240 bytes under a secret.
/// The caller has to see to it that:
///
/// ```text
/// 241 ≤ length text.now
/// ```
///
/// Proved:
///
/// ```text
/// result ≡ long_under secret.now text.now
/// ```
#[inline(always)]
fn long_under(secret: &[u8; 192], text: &[u8]) -> u64 {
    end_long(secret, &end_words(secret, text), text.len() as u64)
}

// The same under the secret of a seed.
/// The caller has to see to it that:
///
/// ```text
/// 241 ≤ length text.now
/// ```
///
/// Proved:
///
/// ```text
/// result ≡ of_long seed text.now
/// ```
#[inline(never)]
fn seeded(seed: u64, text: &[u8]) -> u64 {
    let mut secret = [0; 192];
    put_secret(&mut secret, seed);
    long_under(&secret, text)
}

/// XXH3 of more than 240 bytes.
///
/// The caller has to see to it that:
///
/// ```text
/// 241 ≤ length text.now
/// ```
///
/// Proved:
///
/// ```text
/// result ≡ of_long seed text.now
/// ```
#[inline(never)]
pub(crate) fn of_long(seed: u64, text: &[u8]) -> u64 {
    if seed == 0 {
        long_under(default_secret(), text)
    } else {
        seeded(seed, text)
    }
}
