//! libhashers for C, by cargo alone: the exports of the proved text over the crate hashers-proved. Each module is a Rattle source without
//! its contracts, but for `hash_c::exports`, which rust/erase writes from them, and which alone reads and writes by pointers. `c/hashers.h`
//! declares the calls.
#![no_std]
#![deny(unsafe_code, unsafe_op_in_unsafe_fn)]
// In the proved text, whose language has no such lints.
#![allow(clippy::manual_is_multiple_of, clippy::manual_map, clippy::manual_memcpy, clippy::needless_range_loop, clippy::precedence)]

/// A condition that Rattle has proved: tested in a debug build.
macro_rules! prove {
    ($($condition:tt)*) => {
        debug_assert!($($condition)*)
    };
}

// The sources name `std`: core's items.
use core as std;

// It imports Hasher for `write`, which is a method too.
#[allow(unused_imports)]
mod hash_c;

/// Nothing that is proved panics; what Rust adds, as a test of an index, would end here.
#[panic_handler]
#[allow(unsafe_code)]
fn panic(_: &core::panic::PanicInfo) -> ! {
    extern "C" {
        fn abort() -> !;
    }
    // SAFETY: abort takes nothing, and does not return.
    unsafe { abort() }
}
