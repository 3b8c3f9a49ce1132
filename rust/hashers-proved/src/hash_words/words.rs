//! Words of 32 and 64 bits: rotations, little-endian reads, halves and shifts.

// What follows is the proved text of crates/hash_words/src/words.rt without its contracts.

/// The word of 32 bits turned to the left by `k` bits: what leaves at the top comes in at the bottom.
/// `k` is from 1 to 31. A turn by `32 - k` takes it back.
///
/// The caller has to see to it that:
///
/// ```text
/// some: 0 < k
/// within: k < 32
/// ```
///
/// Proved:
///
/// ```text
/// value: result ≡ rotl 32 x k
/// undone: rotl 32 result (32 - k) ≡ x
/// ```
#[inline(always)]
pub fn rotl32(x: u32, k: u32) -> u32 {
    u32::rotate_left(x, k)
}

/// The word of 64 bits turned to the left by `k` bits: what leaves at the top comes in at the bottom.
/// `k` is from 1 to 63. A turn by `64 - k` takes it back.
///
/// The caller has to see to it that:
///
/// ```text
/// some: 0 < k
/// within: k < 64
/// ```
///
/// Proved:
///
/// ```text
/// value: result ≡ rotl 64 x k
/// undone: rotl 64 result (64 - k) ≡ x
/// ```
#[inline(always)]
pub fn rotl64(x: u64, k: u32) -> u64 {
    u64::rotate_left(x, k)
}

/// The word of 32 bits turned to the left by `K` bits, as [`rotl32`] turns it. `K` is from 1 to 31. To turn a product by a count
/// that it learns only after inlining, LLVM multiplies twice; by a constant, once.
///
/// The caller has to see to it that:
///
/// ```text
/// some: 0 < K
/// within: K < 32
/// ```
///
/// Proved:
///
/// ```text
/// result ≡ rotl 32 x K
/// ```
#[inline]
pub fn rotl32_by<const K: u32>(x: u32) -> u32 {
    const { assert!(0 < K) };
    rotl32(x, K)
}

/// The word of 64 bits turned to the left by `K` bits, as [`rotl64`] turns it. `K` is from 1 to 63. To turn a product by a count
/// that it learns only after inlining, LLVM multiplies twice; by a constant, once.
///
/// The caller has to see to it that:
///
/// ```text
/// some: 0 < K
/// within: K < 64
/// ```
///
/// Proved:
///
/// ```text
/// result ≡ rotl 64 x K
/// ```
#[inline]
pub fn rotl64_by<const K: u32>(x: u64) -> u64 {
    const { assert!(0 < K) };
    rotl64(x, K)
}

/// The little-endian value of at most four bytes, the first byte being the lowest. No bytes give 0.
///
/// The caller has to see to it that:
///
/// ```text
/// length bytes.now ≤ 4
/// ```
///
/// Proved:
///
/// ```text
/// result ≡ le bytes.now
/// ```
#[inline(always)]
pub fn le32(bytes: &[u8]) -> u32 {
    match bytes {
        [] => 0,
        [a] => u32::from(*a),
        [a, b] => u32::from(*a) + u32::from(*b) * 256,
        [a, b, c] => u32::from(*a) + u32::from(*b) * 256 + u32::from(*c) * 65536,
        [a, b, c, d, ..] => u32::from_le_bytes([*a, *b, *c, *d]),
    }
}

/// The little-endian value of eight bytes, as one load.
///
/// Proved:
///
/// ```text
/// result ≡ le bytes.now
/// ```
#[inline(always)]
pub fn le64(bytes: &[u8; 8]) -> u64 {
    u64::from_le_bytes(*bytes)
}

/// Two little-endian words of eight bytes each, read as one number: rustc makes vectors of words that are read alone, and takes them
/// apart again where each is multiplied.
///
/// Proved:
///
/// ```text
/// first: result.0 ≡ le (take 8 bytes.now)
/// second: result.1 ≡ le (drop 8 bytes.now)
/// ```
#[inline(always)]
pub fn le_two(bytes: &[u8; 16]) -> (u64, u64) {
    let both = u128::from_le_bytes(*bytes);
    (
        (both % 18446744073709551616) as u64,
        (both / 18446744073709551616) as u64,
    )
}

/// The little-endian value of four bytes, as one load.
///
/// Proved:
///
/// ```text
/// result ≡ le bytes.now
/// ```
#[inline(always)]
pub fn le_four(bytes: &[u8; 4]) -> u32 {
    u32::from_le_bytes(*bytes)
}

/// The word of 64 bits with its two halves of 32 bits exchanged. Done twice, it gives the word back.
///
/// Proved:
///
/// ```text
/// value: result ≡ swap_halves x
/// undone: swap_halves result ≡ x
/// ```
#[inline(always)]
pub fn swap_halves(x: u64) -> u64 {
    rotl64(x, 32)
}

/// The word of 64 bits xored with itself shifted to the right by `k` bits. `k` is from 1 to 63.
///
/// The caller has to see to it that:
///
/// ```text
/// some: 0 < k
/// within: k < 64
/// ```
///
/// Proved:
///
/// ```text
/// result ≡ xorshift x k
/// ```
#[inline(always)]
pub fn xorshift(x: u64, k: u32) -> u64 {
    x ^ (x >> k)
}

/// The one word of 64 bits of which `xorshift` by `k` makes `x`. `k` is from 1 to 63.
///
/// A shift is folded on at twice the distance each time, until nothing is left to shift.
///
/// The caller has to see to it that:
///
/// ```text
/// some: 0 < k
/// within: k < 64
/// ```
///
/// Proved:
///
/// ```text
/// solves: xorshift result k ≡ x
/// alone: (y : ℕ) → y < 2 ^ 64 → xorshift y k ≡ x → y ≡ result
/// ```
#[inline]
pub fn unxorshift(x: u64, k: u32) -> u64 {
    let mut y = x;
    let mut shift = k;
    while shift < 64 {
        y ^= y >> shift;
        shift *= 2;
    }
    y
}

/// The bytes as `N` little-endian words of eight bytes each. There are `8 * N` bytes.
///
/// The caller has to see to it that:
///
/// ```text
/// length bytes.now ≡ 8 * N
/// ```
///
/// Proved:
///
/// ```text
/// result ≡ le_words bytes.now
/// ```
#[inline(always)]
pub fn le_words<const N: usize>(bytes: &[u8]) -> [u64; N] {
    let (pieces, _) = bytes.as_chunks::<8>();
    let mut words = [0; N];
    for i in 0..N {
        words[i] = le64(&pieces[i]);
    }
    words
}
