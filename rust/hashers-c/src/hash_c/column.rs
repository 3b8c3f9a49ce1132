//! The hashes of many texts in one call, as one body for every hash: of texts between offsets of 32 or of 64 bits, and of lines.

// What follows is the proved text of crates/hash_c/src/column.rt without its contracts.
use crate::std;
use hashers_proved::{hash_kinds, hash_names, hashers};

use crate::hash_c::kinds::kind_at;
use hash_kinds::table::{Kind, by_kind};
use hash_names::task::HashTask;
use hashers::laws::{Piecewise, Streamed, hash_of};
use std::marker::PhantomData;

/// A place in a text.
pub trait Offset {
    /// The place as a number.
    ///
    /// Proved:
    ///
    /// ```text
    /// result ≡ number self.now
    /// ```
    fn number(&self) -> u64;
}

impl Offset for u32 {
    #[inline(always)]
    fn number(&self) -> u64 {
        u64::from(*self)
    }
}

impl Offset for u64 {
    #[inline(always)]
    fn number(&self) -> u64 {
        *self
    }
}

/// The place of that number.
///
/// The caller has to see to it that:
///
/// ```text
/// i < length offsets.now
/// ```
///
/// Proved:
///
/// ```text
/// result ≡ slice_index (map O.number offsets.now) i
/// ```
#[inline(always)]
fn place<O: Offset>(offsets: &[O], i: usize) -> u64 {
    offsets[i].number()
}

/// Whether none of so many steps from place to place falls. The loop looks at all of them, and so has no branch at each.
///
/// The caller has to see to it that:
///
/// ```text
/// length offsets.now ≡ count + 1
/// ```
///
/// Proved:
///
/// ```text
/// IsTrue result ↔ NoneFalls count (map O.number offsets.now)
/// ```
#[inline(always)]
fn none_falls<O: Offset>(offsets: &[O], count: usize) -> bool {
    let mut falls = 0;
    let mut from = place(offsets, 0);
    for i in 0..count {
        let to = place(offsets, i + 1);
        falls += usize::from(to < from);
        from = to;
    }
    falls == 0
}

/// Whether the offsets are those of so many texts in so many bytes. Where none falls, the last is the highest. It is a call of its
/// own, so that it stands once in the library, and not once for each hash.
///
/// Proved:
///
/// ```text
/// IsTrue result ↔ AreOffsets size count (map O.number offsets.now)
/// ```
#[inline(never)]
fn are_offsets<O: Offset>(offsets: &[O], size: usize, count: usize) -> bool {
    if count == usize::MAX || offsets.len() != count + 1 {
        return false;
    }
    place(offsets, count) <= size as u64 && none_falls(offsets, count)
}

/// Writes the hash of each text, and answers that the offsets are those of texts; else nothing is written. It is a call of its own,
/// so that each hash's loop has the registers for itself.
///
/// Proved:
///
/// ```text
/// IsColumn H.hash_of bytes.now (map O.number offsets.now) hashes.old hashes.new result
/// ```
#[inline(never)]
fn column<H: Piecewise, O: Offset>(bytes: &[u8], offsets: &[O], hashes: &mut [u64]) -> bool {
    if !are_offsets(offsets, bytes.len(), hashes.len()) {
        return false;
    }
    for i in 0..hashes.len() {
        let from = place(offsets, i) as usize;
        let to = place(offsets, i + 1) as usize;
        hashes[i] = hash_of::<H>(&bytes[from..to]);
    }
    true
}

/// Where hashes are written.
struct Room<'b> {
    hashes: &'b mut [u64],
}

/// To write the hashes of a column of texts.
struct InColumn<'a, 'b, O> {
    texts: PhantomData<&'a O>,
    hashes: PhantomData<&'b u64>,
}

impl<'a, 'b, O: Offset> HashTask for InColumn<'a, 'b, O> {
    type Told = (&'a [u8], &'a [O]);

    type Input = Room<'b>;

    type Outcome = bool;

    #[inline]
    fn by_text<H: Streamed>(texts: (&'a [u8], &'a [O]), room: &mut Room<'b>) -> bool {
        column::<H, O>(texts.0, texts.1, room.hashes)
    }

    #[inline]
    fn by_pieces<H: Piecewise>(texts: (&'a [u8], &'a [O]), room: &mut Room<'b>) -> bool {
        column::<H, O>(texts.0, texts.1, room.hashes)
    }
}

/// Writes the hash of each text by that hash.
///
/// Proved:
///
/// ```text
/// same: room.new.hashes.ghost_name ≡ room.old.hashes.ghost_name
/// done: IsColumn (hash_of kind) texts.entry.0.now (map O.number texts.entry.1.now)
///     room.old.hashes.now room.new.hashes.now result
/// ```
#[inline]
fn in_column<'a, 'b, O: Offset>(kind: Kind, texts: (&'a [u8], &'a [O]), room: &mut Room<'b>) -> bool {
    by_kind::<InColumn<'a, 'b, O>>(kind, texts, room)
}

/// Writes the hash of each text by the hash of that number, and answers that there is one and the offsets are those of texts; else
/// nothing is written.
///
/// Proved:
///
/// ```text
/// IsColumnBy kind bytes.now (map O.number offsets.now) hashes.old hashes.new result
/// ```
#[inline]
pub(crate) fn column_by<'a, O: Offset>(
    kind: u32,
    bytes: &'a [u8],
    offsets: &'a [O],
    hashes: &mut [u64],
) -> bool {
    match kind_at(kind) {
        Some(kind) => {
            let mut room = Room { hashes };
            in_column::<O>(kind, (bytes, offsets), &mut room)
        }
        None => false,
    }
}

/// The first line, and what is behind its newline.
///
/// The caller has to see to it that:
///
/// ```text
/// 0 < length bytes.now
/// ```
///
/// Proved:
///
/// ```text
/// first: line_texts 10 bytes.now ≡ result.0.now ∷ line_texts 10 result.1.now
/// shorter: length result.1.now < length bytes.now
/// ```
#[inline]
fn first_line(bytes: &[u8]) -> (&[u8], &[u8]) {
    match bytes.iter().position(|byte| *byte == b'\n') {
        Some(n) => (&bytes[..n], &bytes[n + 1..]),
        None => (bytes, &[]),
    }
}

/// Writes the hash of each line, as far as there is room, and answers how many lines there are.
///
/// Proved:
///
/// ```text
/// count: result ≡ length (line_texts 10 bytes.now)
/// written: hashes.new ≡ laid_over (map H.hash_of (line_texts 10 bytes.now)) hashes.old
/// ```
#[inline]
fn hash_lines<H: Piecewise>(bytes: &[u8], hashes: &mut [u64]) -> usize {
    let mut count = 0;
    let mut rest = bytes;
    while !rest.is_empty() {
        let (line, later) = first_line(rest);
        if count < hashes.len() {
            hashes[count] = hash_of::<H>(line);
        }
        count += 1;
        rest = later;
    }
    count
}

/// To write the hashes of lines.
struct InLines<'a, 'b> {
    text: PhantomData<&'a u8>,
    hashes: PhantomData<&'b u64>,
}

impl<'a, 'b> HashTask for InLines<'a, 'b> {
    type Told = &'a [u8];

    type Input = Room<'b>;

    type Outcome = usize;

    #[inline]
    fn by_text<H: Streamed>(text: &'a [u8], room: &mut Room<'b>) -> usize {
        hash_lines::<H>(text, room.hashes)
    }

    #[inline]
    fn by_pieces<H: Piecewise>(text: &'a [u8], room: &mut Room<'b>) -> usize {
        hash_lines::<H>(text, room.hashes)
    }
}

/// Writes the hash of each line by that hash.
///
/// Proved:
///
/// ```text
/// same: room.new.hashes.ghost_name ≡ room.old.hashes.ghost_name
/// count: result ≡ length (line_texts 10 text.now)
/// written: room.new.hashes.now
///     ≡ laid_over (map (hash_of kind) (line_texts 10 text.now)) room.old.hashes.now
/// ```
#[inline]
fn in_lines<'a, 'b>(kind: Kind, text: &'a [u8], room: &mut Room<'b>) -> usize {
    by_kind::<InLines<'a, 'b>>(kind, text, room)
}

/// Writes the hash of each line by the hash of that number, as far as there is room, and answers how many lines there are; 0 where
/// no hash has the number, and nothing is written.
///
/// Proved:
///
/// ```text
/// known: IsSome (kind_at kind) → (result ≡ length (line_texts 10 bytes.now))
///     × (hashes.new ≡ laid_over (map (hash_at kind) (line_texts 10 bytes.now)) hashes.old)
/// unknown: kind_at kind ≡ None → (result ≡ 0) × (hashes.new ≡ hashes.old)
/// ```
#[inline]
pub(crate) fn lines_by(kind: u32, bytes: &[u8], hashes: &mut [u64]) -> usize {
    match kind_at(kind) {
        Some(kind) => {
            let mut room = Room { hashes };
            in_lines(kind, bytes, &mut room)
        }
        None => 0,
    }
}
