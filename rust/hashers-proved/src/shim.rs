//! What the proved text takes of Rattle's std, over Rust's. It is written by hand, and trusted: each item here is taken to do what Rattle's
//! std says of the one of its name. Besides it Rust's compiler and std are trusted, and what this crate has by hand in `lib.rs` and
//! `extras.rs`, which call proved functions alone.
//!
//! - Here: a few vectors, snapshots, and `prove!`; and with the feature `std`, the macros that take an allocator or the runtime in front,
//!   and Rattle's std by its paths.
//! - `memory`: vectors, texts and a set, whose calls answer `Err` where there is no memory: they ask by `try_reserve`.
//! - `io`: buffers before a reader and a writer, whose memory may be refused likewise.
//! - `host`: what a program has of the system: its arguments, streams and files, the clock, random bytes.
//!
//! What Rust's std asks for by itself ends the program where it is refused: the arguments, a path, an error with a text of its own.
#[cfg(feature = "std")]
pub mod host;
#[cfg(feature = "std")]
pub mod io;
#[cfg(feature = "std")]
pub mod memory;

#[cfg(feature = "std")]
pub use crate::{shim_eprint as eprint, shim_eprintln as eprintln, shim_format as format, shim_vec as vec};
#[cfg(feature = "std")]
pub use {host::HostRuntime, memory::{String, Vec}};

/// A condition that Rattle has proved: tested in a debug build.
macro_rules! prove {
    ($($condition:tt)*) => {
        debug_assert!($($condition)*)
    };
}

/// Vectors, as `std::simd` of nightly Rust has them: operators wrap, lane by lane.
pub mod simd {
    pub mod prelude {
        pub use super::{u32x4, u64x8, u8x16, u8x4, u8x8};
    }

    /// So many lanes.
    #[derive(Clone, Copy)]
    pub struct Simd<T, const N: usize>([T; N]);

    #[allow(non_camel_case_types)]
    pub type u8x4 = Simd<u8, 4>;
    #[allow(non_camel_case_types)]
    pub type u8x8 = Simd<u8, 8>;
    #[allow(non_camel_case_types)]
    pub type u8x16 = Simd<u8, 16>;
    #[allow(non_camel_case_types)]
    pub type u32x4 = Simd<u32, 4>;
    #[allow(non_camel_case_types)]
    pub type u64x8 = Simd<u64, 8>;

    impl<T: Copy, const N: usize> Simd<T, N> {
        #[inline(always)]
        pub fn from_array(lanes: [T; N]) -> Self {
            Simd(lanes)
        }

        #[inline(always)]
        pub fn to_array(self) -> [T; N] {
            self.0
        }

        #[inline(always)]
        pub fn splat(lane: T) -> Self {
            Simd([lane; N])
        }
    }

    impl<const N: usize> Simd<u8, N> {
        /// Each lane, widened.
        #[inline(always)]
        pub fn cast<U: From<u8>>(self) -> Simd<U, N> {
            Simd(self.0.map(U::from))
        }
    }

    impl Simd<u8, 16> {
        /// The first sixteen. It panics where there are fewer.
        #[inline(always)]
        pub fn from_slice(bytes: &[u8]) -> Self {
            Simd(*bytes.first_chunk().expect("sixteen bytes"))
        }

        /// Which lanes are equal.
        #[inline(always)]
        pub fn simd_eq(self, other: Self) -> Equal {
            Equal(self.0, other.0)
        }
    }

    /// Of each of sixteen lanes whether it is the other's.
    #[derive(Clone, Copy)]
    pub struct Equal([u8; 16], [u8; 16]);

    impl Equal {
        /// A bit for each lane, that of the first the lowest.
        #[inline(always)]
        pub fn to_bitmask(self) -> u64 {
            if cfg!(target_arch = "x86_64") {
                self.by_lanes()
            } else {
                self.by_words()
            }
        }

        /// Each four lanes are joined by themselves: rustc makes one instruction of x86-64 of it so.
        #[inline(always)]
        pub fn by_lanes(self) -> u64 {
            let fours: [u64; 4] =
                core::array::from_fn(|i| (0..4).fold(0, |bits, j| bits | u64::from(self.0[4 * i + j] == self.1[4 * i + j]) << j));
            (0..4).fold(0, |bits, i| bits | fours[i] << (4 * i))
        }

        /// For where there is no such instruction.
        #[inline(always)]
        pub fn by_words(self) -> u64 {
            let apart = u128::from_le_bytes(self.0) ^ u128::from_le_bytes(self.1);
            zeros(apart as u64) | zeros((apart >> 64) as u64) << 8
        }
    }

    /// A bit for each byte that is 0, that of the lowest the lowest.
    #[inline(always)]
    fn zeros(word: u64) -> u64 {
        const LOW: u64 = 0x7f7f_7f7f_7f7f_7f7f;
        // the highest bit of each byte that is 0, and a product that puts these side by side
        let highest = !((word & LOW) + LOW | word | LOW);
        (highest >> 7).wrapping_mul(0x0102_0408_1020_4080) >> 56
    }

    /// The products of the lanes. They are made when their sum is asked for.
    #[derive(Clone, Copy)]
    pub struct Products([u32; 4], [u32; 4]);

    impl core::ops::Mul for Simd<u32, 4> {
        type Output = Products;

        #[inline(always)]
        fn mul(self, other: Self) -> Products {
            Products(self.0, other.0)
        }
    }

    impl Products {
        /// Their sum, which wraps. Of bytes it is the high half of two products of words, each of which has two of these there: the low
        /// halves don't reach it. rustc sees where it is so, and leaves the other way out.
        #[inline(always)]
        pub fn reduce_sum(self) -> u32 {
            const LOW: u64 = 0xff_0000_00ff;
            let Products(lanes, [by0, by1, by2, by3]) = self;
            if lanes.iter().fold(0, |all, lane| all | lane) < 256 && by2 | by3 < 1 << 23 {
                let bytes = u64::from(u32::from_le_bytes(lanes.map(|lane| lane as u8)));
                let spread = bytes | bytes << 16;
                let even = (spread & LOW).wrapping_mul(u64::from(by0) << 32 | u64::from(by2));
                let odd = (spread >> 8 & LOW).wrapping_mul(u64::from(by1) << 32 | u64::from(by3));
                return (even.wrapping_add(odd) >> 32) as u32;
            }
            (0..4).fold(0, |sum: u32, i| sum.wrapping_add(lanes[i].wrapping_mul(self.1[i])))
        }
    }

    impl Simd<u64, 8> {
        /// The sum of the lanes, which wraps. Of bytes it is made in one word, with 16 bits for each two of them: rustc sees where they are
        /// bytes, and leaves the other way out. Shifts are faster than a product, since rustc makes vectors of them.
        #[inline(always)]
        pub fn reduce_sum(self) -> u64 {
            const LOW: u64 = 0x00ff_00ff_00ff_00ff;
            if self.0.iter().fold(0, |all, lane| all | lane) < 256 {
                let bytes = u64::from_le_bytes(self.0.map(|lane| lane as u8));
                let pairs = (bytes & LOW) + (bytes >> 8 & LOW);
                let fours = pairs + (pairs >> 32);
                return (fours + (fours >> 16)) & 0xffff;
            }
            self.0.iter().fold(0, |sum, lane| sum.wrapping_add(*lane))
        }
    }

    impl core::ops::AddAssign for Simd<u64, 8> {
        #[inline(always)]
        fn add_assign(&mut self, other: Self) {
            for (lane, more) in self.0.iter_mut().zip(other.0) {
                *lane = lane.wrapping_add(more);
            }
        }
    }
}

/// A value that contracts alone see: nothing of it is kept.
pub mod snapshot {
    use core::marker::PhantomData;

    pub struct Snapshot<T>(PhantomData<T>);

    impl<T> Clone for Snapshot<T> {
        #[inline(always)]
        fn clone(&self) -> Self {
            *self
        }
    }

    impl<T> Copy for Snapshot<T> {}

    impl<T> Snapshot<T> {
        #[inline(always)]
        pub fn of(_value: &T) -> Snapshot<T> {
            Snapshot(PhantomData)
        }
    }
}

/// `format!` with the allocator in front: `format!(in alloc; "{number}")?`.
#[cfg(feature = "std")]
#[doc(hidden)]
#[macro_export]
macro_rules! shim_format {
    (in $alloc:expr; $($words:tt)*) => {
        $crate::shim::memory::formatted($alloc, ::core::format_args!($($words)*))
    };
}

/// `vec!` with the allocator in front: `vec![in alloc; 0u8; 16]?`, `vec![in alloc; first, last]?`.
#[cfg(feature = "std")]
#[doc(hidden)]
#[macro_export]
macro_rules! shim_vec {
    (in $alloc:expr; $value:expr; $count:expr) => {
        $crate::shim::Vec::filled($alloc, $value, $count)
    };
    (in $alloc:expr; $($item:expr),+) => {
        $crate::shim::Vec::from_array($alloc, [$($item),+])
    };
}

/// `eprint!` with the runtime in front.
#[cfg(feature = "std")]
#[doc(hidden)]
#[macro_export]
macro_rules! shim_eprint {
    ($rt:expr; $($words:tt)*) => {
        $rt.eprint_words(::core::format_args!($($words)*))
    };
}

/// `eprintln!` with the runtime in front.
#[cfg(feature = "std")]
#[doc(hidden)]
#[macro_export]
macro_rules! shim_eprintln {
    ($rt:expr; $($words:tt)*) => {
        $rt.eprint_words(::core::format_args!("{}\n", ::core::format_args!($($words)*)))
    };
}

/// Rattle's std by its paths: Rust's, and in its place what is here.
#[cfg(feature = "std")]
pub mod std {
    pub use super::host::{env, fs, random, time};
    pub use super::io;
    pub use super::simd;
    pub use real_std::{cmp, convert, error, fmt, hash, iter, marker, mem, ops, option, process, result, slice, str};

    pub mod alloc {
        pub use super::super::memory::{AllocError, AllocFailed, Global};
    }

    pub mod collections {
        pub use super::super::memory::BTreeSet;
    }

    pub mod num {
        pub use real_std::num::*;

        #[inline]
        pub fn nearest_u64_to_f64(number: u64) -> f64 {
            number as f64
        }

        #[inline]
        pub fn nearest_usize_to_f64(number: usize) -> f64 {
            number as f64
        }

        #[inline]
        pub fn saturating_f64_to_u64(number: f64) -> u64 {
            number as u64
        }
    }
}

#[cfg(test)]
mod tests {
    use super::simd::prelude::*;

    #[test]
    fn sums_of_lanes_wrap() {
        for lanes in [[0; 8], [255; 8], [1, 2, 3, 4, 5, 6, 7, 255], [256, 1, 1, 1, 1, 1, 1, 1], [u64::MAX, 2, 0, 0, 1 << 40, 0, 300, 5]] {
            let sum = lanes.iter().fold(0, |sum: u64, lane| sum.wrapping_add(*lane));
            assert_eq!(u64x8::from_array(lanes).reduce_sum(), sum);
        }
        for (lanes, by, sum) in [
            ([u32::MAX, 2, 3, 4], [3; 4], 24),
            ([255; 4], [u32::MAX, u32::MAX, (1 << 23) - 1, (1 << 23) - 1], 4278189060),
            ([255, 1, 2, 3], [1 << 31, 5, 1 << 31, 7], 2147483674),
        ] {
            let plain = (0..4).fold(0, |sum: u32, i| sum.wrapping_add(u32::wrapping_mul(lanes[i], by[i])));
            assert_eq!([(u32x4::from_array(lanes) * u32x4::from_array(by)).reduce_sum(), plain], [sum; 2]);
        }
        let mut sums = u64x8::splat(u64::MAX);
        sums += u8x8::from_array([1, 2, 3, 4, 5, 6, 7, 8]).cast::<u64>();
        assert_eq!(sums.reduce_sum(), 28);
        for (byte, bits) in [(0u8, 0x8001), (10, 0b0110), (255, 1 << 14), (128, 1 << 7), (7, 0)] {
            let bytes = [0, 10, 10, 11, 1, 9, 127, 128, 129, 8, 138, 2, 254, 3, 255, 0, 10];
            let found = u8x16::from_slice(&bytes).simd_eq(u8x16::splat(byte));
            assert_eq!([found.to_bitmask(), found.by_lanes(), found.by_words()], [bits; 3]);
        }
        assert_eq!((u8x4::from_array([1, 2, 3, 255]).cast::<u32>() * u32x4::splat(1)).reduce_sum(), 261);
    }
}
