//! The gear hash, which takes a shift and two sums a byte, and in which the last 64 bytes alone are left.

// What follows is the proved text of crates/hash_cuts/src/gear.rt without its contracts.
// Clauses name the seeds.
#![allow(dead_code)]
use crate::hashers;

use hashers::jenkins::spooky_hash::SpookyHasher;
use hashers::laws::Piecewise;

/// The numbers of the bytes under two seeds. Contracts see the seeds.
pub struct Gear {
    seed1: u64,
    seed2: u64,
    numbers: [u64; 256],
}

/// The number of a byte: its SpookyHash under the seeds.
///
/// Proved:
///
/// ```text
/// result ≡ gear seed1 seed2 byte
/// ```
#[inline]
fn number_of(seed1: u64, seed2: u64, byte: u8) -> u64 {
    let mut hasher = SpookyHasher::new(seed1, seed2);
    hasher.feed(&[byte]);
    hasher.finish128().0
}

/// The numbers of all bytes.
///
/// Proved:
///
/// ```text
/// AreNumbers seed1 seed2 result
/// ```
#[inline]
fn numbers_of(seed1: u64, seed2: u64) -> [u64; 256] {
    let mut numbers = [0; 256];
    for byte in 0..256 {
        numbers[byte] = number_of(seed1, seed2, byte as u8);
    }
    numbers
}

impl Gear {
    /// The numbers under these seeds.
    ///
    /// Proved:
    ///
    /// ```text
    /// result ≡ (seed1, seed2)
    /// ```
    #[inline]
    pub fn new(seed1: u64, seed2: u64) -> Gear {
        let numbers = numbers_of(seed1, seed2);
        Gear {
            seed1,
            seed2,
            numbers,
        }
    }

    /// The hash with one byte more.
    ///
    /// Proved:
    ///
    /// ```text
    /// result ≡ gear_step (gear self.now.0 self.now.1) hash byte
    /// ```
    #[inline(always)]
    pub fn step(&self, hash: u64, byte: u8) -> u64 {
        hash.wrapping_mul(2)
            .wrapping_add(self.numbers[usize::from(byte)])
    }

    /// The hashes with one byte more, with two, three and four. The last three add the hash of the bytes alone, so that the next four
    /// bytes wait for a shift and two sums, and not for four steps.
    ///
    /// Proved:
    ///
    /// ```text
    /// one: result.0 ≡ gear_step (gear self.now.0 self.now.1) hash (slice_index bytes.now 0)
    /// two: result.1 ≡ gear_step (gear self.now.0 self.now.1) result.0 (slice_index bytes.now 1)
    /// three: result.2 ≡ gear_step (gear self.now.0 self.now.1) result.1 (slice_index bytes.now 2)
    /// four: result.3 ≡ gear_step (gear self.now.0 self.now.1) result.2 (slice_index bytes.now 3)
    /// ```
    #[inline(always)]
    pub fn four_steps(&self, hash: u64, bytes: &[u8; 4]) -> (u64, u64, u64, u64) {
        let one = self.step(0, bytes[0]);
        let two = self.step(one, bytes[1]);
        let three = self.step(two, bytes[2]);
        let four = self.step(three, bytes[3]);
        (
            self.step(hash, bytes[0]),
            hash.wrapping_mul(4).wrapping_add(two),
            hash.wrapping_mul(8).wrapping_add(three),
            hash.wrapping_mul(16).wrapping_add(four),
        )
    }

    /// The hash of a text.
    ///
    /// Proved:
    ///
    /// ```text
    /// result ≡ gear_of (gear self.now.0 self.now.1) text.now
    /// ```
    #[inline]
    pub fn hash(&self, text: &[u8]) -> u64 {
        let mut hash = 0;
        for byte in text {
            hash = self.step(hash, *byte);
        }
        hash
    }
}
