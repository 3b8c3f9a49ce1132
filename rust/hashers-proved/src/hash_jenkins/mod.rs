//! Bob Jenkins' hash functions: one-at-a-time, lookup3 and SpookyHash. None of them is cryptographic.

// What follows is the proved text of crates/hash_jenkins/src/lib.rt without its contracts.

mod lookup;
mod one_at_a_time;
pub mod spooky_hash;
mod spooky_long;
pub mod spooky_parts;
pub mod spooky_short;
mod spooky_v1;
mod zeros;

pub use lookup::{Lookup3Hasher, lookup3};
pub use one_at_a_time::{OAATHasher, OaatRule, oaat};
pub use zeros::apart_by_zeros;
