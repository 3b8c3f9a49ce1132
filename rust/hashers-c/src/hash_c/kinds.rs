//! Hashes by their numbers, for callers that choose at run time: the number of a name, the name of a number, and the hash of a text.

// What follows is the proved text of crates/hash_c/src/kinds.rt without its contracts.
use crate::std;
use hashers_proved::{hash_kinds, hash_names, hashers};

use hash_kinds::table::{KINDS, Kind, by_kind};
use hash_names::task::HashTask;
use hashers::laws::{Piecewise, Streamed, hash_of};
use std::marker::PhantomData;

/// The place of the first of that name; as many as there are where none has it.
///
/// Proved:
///
/// ```text
/// first: slice_get kinds.now result ≡ find (λ kind. bytes_eq (named kind) name.now) kinds.now
/// within: result ≤ length kinds.now
/// ```
#[inline]
fn first_place(kinds: &[Kind], name: &[u8]) -> usize {
    for (place, kind) in kinds.iter().enumerate() {
        if kind.row().name.as_bytes() == name {
            return place;
        }
    }
    kinds.len()
}

/// The hash of that number.
///
/// Proved:
///
/// ```text
/// result ≡ kind_at number
/// ```
#[inline]
pub(crate) fn kind_at(number: u32) -> Option<Kind> {
    match KINDS.get(number as usize) {
        Some(kind) => Some(*kind),
        None => None,
    }
}

/// The number of the hash of that name; where no hash has the name, a number that no hash has.
///
/// Proved:
///
/// ```text
/// kind_at result ≡ kind_named name.now
/// ```
#[inline]
pub fn hashers_kind(name: &[u8]) -> u32 {
    first_place(&KINDS, name) as u32
}

/// The name of the hash of that number.
///
/// Proved:
///
/// ```text
/// result.now ≡ name_at kind
/// ```
#[inline]
fn name_of(kind: u32) -> &'static [u8] {
    match kind_at(kind) {
        Some(kind) => kind.row().name.as_bytes(),
        None => b"",
    }
}

/// Writes the name of the hash of that number, as far as there is room, and answers how many bytes it has; 0 where no hash has the
/// number.
///
/// Proved:
///
/// ```text
/// count: result ≡ length (name_at kind)
/// written: name.new ≡ laid_over (name_at kind) name.old
/// ```
#[inline]
pub fn hashers_name(kind: u32, name: &mut [u8]) -> usize {
    let told = name_of(kind);
    for i in 0..told.len().min(name.len()) {
        name[i] = told[i];
    }
    told.len()
}

/// To hash a text in one call.
struct HashText<'a> {
    text: PhantomData<&'a u8>,
}

impl<'a> HashTask for HashText<'a> {
    type Told = &'a [u8];

    type Input = ();

    type Outcome = u64;

    #[inline(always)]
    fn by_text<H: Streamed>(text: &'a [u8], _nothing: &mut ()) -> u64 {
        hash_of::<H>(text)
    }

    #[inline(always)]
    fn by_pieces<H: Piecewise>(text: &'a [u8], _nothing: &mut ()) -> u64 {
        hash_of::<H>(text)
    }
}

/// The hash of the text by the hash of that number; 0 where no hash has the number.
///
/// Proved:
///
/// ```text
/// result ≡ hash_at kind text.now
/// ```
#[inline]
pub fn hashers_hash(kind: u32, text: &[u8]) -> u64 {
    match kind_at(kind) {
        Some(kind) => by_kind::<HashText<'_>>(kind, text, &mut ()),
        None => 0,
    }
}
