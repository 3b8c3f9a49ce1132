//! The original crate behind C calls, for `times.c`: each takes a text as the calls of `hashers.h` do, NULL for no bytes too.
use std::hash::Hasher;
use std::ptr::NonNull;
use std::slice::from_raw_parts;

include!(env!("HASHER_NAMES"));

#[inline(always)]
unsafe fn hash_of<H: Default + Hasher>(text: *const u8, n: usize) -> u64 {
    let text = if text.is_null() { NonNull::dangling().as_ptr() } else { text };
    let mut hasher = H::default();
    hasher.write(from_raw_parts(text, n));
    hasher.finish()
}

macro_rules! calls {
    ($($name:ident $($hasher:ident)::+ $alike_from:literal)*) => {$(
        pub mod $name {
            #[export_name = concat!("original_", stringify!($name))]
            pub unsafe extern "C" fn whole(text: *const u8, n: usize) -> u64 {
                super::hash_of::<hashers::$($hasher)::+>(text, n)
            }
        }
    )*};
}

with_names!(calls);
