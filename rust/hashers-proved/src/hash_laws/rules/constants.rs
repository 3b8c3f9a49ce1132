//! Starts and multipliers of more than one rule, and what undoes the products by them.

// What follows is the proved text of crates/hash_laws/src/rules/constants.rt without its contracts.

/// The start of FNV at 32 bits, which its authors call the offset basis.
pub const BASIS_32: u32 = 2166136261;

/// The prime of FNV at 32 bits: 2^24 + 2^8 + 0x93.
pub const PRIME_32: u32 = 16777619;

/// What undoes the product by `PRIME_32`.
pub const UNPRIME_32: u32 = 899433627;

/// The start of FNV at 64 bits.
pub const BASIS_64: u64 = 14695981039346656037;

/// The prime of FNV at 64 bits: 2^40 + 2^8 + 0xb3.
pub const PRIME_64: u64 = 1099511628211;

/// What undoes the product by `PRIME_64`.
pub const UNPRIME_64: u64 = 0xce965057aff6957b;

/// What undoes a product by 33.
pub const UNPRODUCT_33: u32 = 1041204193;
