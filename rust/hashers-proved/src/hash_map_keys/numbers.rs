//! The hash of a number by multiplying and shifting, at a multiplier and an addend.

// What follows is the proved text of crates/hash_map_keys/src/numbers.rt without its contracts.

/// The high half of the 128 bits of `multiplier * number + addend`.
///
/// Proved:
///
/// ```text
/// result ≡ number_hash multiplier addend number
/// ```
#[inline(always)]
pub fn number_hash(multiplier: u128, addend: u128, number: u64) -> u64 {
    (multiplier
        .wrapping_mul(u128::from(number))
        .wrapping_add(addend)
        >> 64) as u64
}

/// The same of a number of two words of 64 bits, each times a multiplier of its own: the high half of the 128 bits of
/// `multiplier * low + multiplier2 * high + addend`. Of a number below 2^64 it is [`number_hash`].
///
/// Proved:
///
/// ```text
/// result ≡ pair_hash multiplier multiplier2 addend number
/// ```
#[inline(always)]
pub fn pair_hash(multiplier: u128, multiplier2: u128, addend: u128, number: u128) -> u64 {
    number_hash(
        multiplier,
        multiplier2.wrapping_mul(number >> 64).wrapping_add(addend),
        (number % (1 << 64)) as u64,
    )
}
