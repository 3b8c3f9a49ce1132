//! Lines that tell the hash of a file, as they are read.

// What follows is the proved text of crates/hash_lines/src/parse.rt without its contracts.
// Clauses name MOST_DIGITS.
#![allow(unused_imports)]
use crate::streams;
use crate::shim::{Vec, std};

use crate::hash_lines::escape::unescaped;
use crate::hash_lines::sums::Sum;
use std::alloc::{AllocError, Global};
use streams::hex::{MOST_DIGITS, hex_number};

/// What a line tells.
pub struct HashLine {
    /// Which hash.
    pub kind: Sum,
    /// Of which file.
    pub name: Vec<u8>,
    /// What it is.
    pub number: u128,
}

/// What stands behind the front in the bytes; `None` exactly where they do not begin with it.
///
/// Proved:
///
/// ```text
/// MatchOption result ((rest : List ℕ) → front.now ++ rest ≢ bytes.now)
///     (λ rest. front.now ++ rest.now ≡ bytes.now)
/// ```
#[inline]
pub fn behind<'a>(bytes: &'a [u8], front: &[u8]) -> Option<&'a [u8]> {
    if bytes.len() < front.len() {
        return None;
    }
    let (begin, rest) = bytes.split_at(front.len());
    if begin == front { Some(rest) } else { None }
}

/// The first so many bytes, and what stands behind them; `None` exactly where there are fewer.
///
/// Proved:
///
/// ```text
/// MatchOption result (length bytes.now < count)
///     (λ parts. (parts.0.now ++ parts.1.now ≡ bytes.now) × (length parts.0.now ≡ count))
/// ```
#[inline]
fn split_first(bytes: &[u8], count: usize) -> Option<(&[u8], &[u8])> {
    if bytes.len() < count {
        return None;
    }
    Some(bytes.split_at(count))
}

/// What stands in front of the last so many bytes, and these; `None` exactly where there are fewer.
///
/// Proved:
///
/// ```text
/// MatchOption result (length bytes.now < count)
///     (λ parts. (parts.0.now ++ parts.1.now ≡ bytes.now) × (length parts.1.now ≡ count))
/// ```
#[inline]
pub(crate) fn split_last(bytes: &[u8], count: usize) -> Option<(&[u8], &[u8])> {
    if bytes.len() < count {
        return None;
    }
    Some(bytes.split_at(bytes.len() - count))
}

/// The number of so many digits.
///
/// The caller has to see to it that:
///
/// ```text
/// count ≤ MOST_DIGITS
/// ```
///
/// Proved:
///
/// ```text
/// MatchOption result ((number : ℕ) → ¬ (ShowsNumber count number digits.now))
///     (λ number. ShowsNumber count number digits.now)
/// ```
#[inline]
fn number_of(count: usize, digits: &[u8]) -> Option<u128> {
    if digits.len() != count {
        return None;
    }
    hex_number(digits)
}

/// What stands behind the tag and ` (`.
///
/// Proved:
///
/// ```text
/// MatchOption result ((rest : List ℕ) → tag.now ++ (codes " (" ++ rest) ≢ body.now)
///     (λ rest. tag.now ++ (codes " (" ++ rest.now) ≡ body.now)
/// ```
#[inline]
fn behind_tag<'a>(tag: &[u8], body: &'a [u8]) -> Option<&'a [u8]> {
    behind(behind(body, tag)?, b" (")
}

/// What stands in front of `) = `, and so many digits behind it.
///
/// Proved:
///
/// ```text
/// MatchOption result ((shown digits : List ℕ) → length digits ≡ count
///     → shown ++ (codes ") = " ++ digits) ≢ rest.now)
///     (λ parts. (length parts.1.now ≡ count) × (parts.0.now ++ (codes ") = " ++ parts.1.now) ≡ rest.now))
/// ```
#[inline]
fn around_mark(rest: &[u8], count: usize) -> Option<(&[u8], &[u8])> {
    let (front, digits) = split_last(rest, count)?;
    let (shown, mark) = split_last(front, 4)?;
    if mark == b") = ".as_slice() {
        Some((shown, digits))
    } else {
        None
    }
}

/// What stands behind two spaces, or a space and a star.
///
/// Proved:
///
/// ```text
/// MatchOption result ((shown : List ℕ) → ¬ ((codes "  " ++ shown ≡ rest.now)
///     ⊎ (codes " *" ++ shown ≡ rest.now)))
///     (λ shown. (codes "  " ++ shown.now ≡ rest.now) ⊎ (codes " *" ++ shown.now ≡ rest.now))
/// ```
#[inline]
fn behind_spaces(rest: &[u8]) -> Option<&[u8]> {
    if let Some(shown) = behind(rest, b"  ") {
        return Some(shown);
    }
    behind(rest, b" *")
}

/// The name as it is shown, and the number of so many digits, in a tagged line without its mark.
///
/// The caller has to see to it that:
///
/// ```text
/// count ≤ MOST_DIGITS
/// ```
///
/// Proved:
///
/// ```text
/// MatchOption result ((shown : List ℕ) (number : ℕ)
///     → ¬ (ShowsTagged tag.now count shown number body.now))
///     (λ parts. ShowsTagged tag.now count parts.0.now parts.1 body.now)
/// ```
#[inline]
fn tagged_parts<'a>(tag: &[u8], count: usize, body: &'a [u8]) -> Option<(&'a [u8], u128)> {
    let (shown, digits) = around_mark(behind_tag(tag, body)?, count)?;
    Some((shown, number_of(count, digits)?))
}

/// The name as it is shown, and the number of so many digits, in an untagged line without its mark.
///
/// The caller has to see to it that:
///
/// ```text
/// count ≤ MOST_DIGITS
/// ```
///
/// Proved:
///
/// ```text
/// MatchOption result ((shown : List ℕ) (number : ℕ) → ¬ (ShowsUntagged count shown number body.now))
///     (λ parts. ShowsUntagged count parts.0.now parts.1 body.now)
/// ```
#[inline]
fn untagged_parts(count: usize, body: &[u8]) -> Option<(&[u8], u128)> {
    let (digits, rest) = split_first(body, count)?;
    let shown = behind_spaces(rest)?;
    Some((shown, number_of(count, digits)?))
}

/// The name that is shown so, with escapes or without. It has some byte.
///
/// Proved:
///
/// ```text
/// IfOk result (λ found. MatchOption found ((name : List ℕ) → ¬ (IsShown escapes name shown.now))
///     (λ name. IsShown escapes name.items shown.now))
/// ```
#[inline]
fn name_of(alloc: Global, escapes: bool, shown: &[u8]) -> Result<Option<Vec<u8>>, AllocError> {
    if shown.is_empty() {
        return Ok(None);
    }
    if escapes {
        unescaped(alloc, shown)
    } else {
        Ok(Some(Vec::from_slice(alloc, shown)?))
    }
}

/// What these parts of a line tell.
///
/// Proved:
///
/// ```text
/// IfOk result (FindsShown kind number escapes shown.now)
/// ```
#[inline]
fn entry_of(
    alloc: Global,
    kind: Sum,
    escapes: bool,
    shown: &[u8],
    number: u128,
) -> Result<Option<HashLine>, AllocError> {
    match name_of(alloc, escapes, shown)? {
        Some(name) => Ok(Some(HashLine { kind, name, number })),
        None => Ok(None),
    }
}

/// What a tagged line of this kind tells, without its mark.
///
/// Proved:
///
/// ```text
/// IfOk result (Finds (TellsOf kind TellsTagged escapes) body.now)
/// ```
#[inline]
fn tagged_entry(
    alloc: Global,
    kind: Sum,
    escapes: bool,
    body: &[u8],
) -> Result<Option<HashLine>, AllocError> {
    match tagged_parts(kind.name().as_bytes(), kind.width().digits(), body) {
        Some((shown, number)) => entry_of(alloc, kind, escapes, shown, number),
        None => Ok(None),
    }
}

/// What an untagged line of this kind tells, without its mark.
///
/// Proved:
///
/// ```text
/// IfOk result (Finds (TellsOf kind TellsUntagged escapes) body.now)
/// ```
#[inline]
fn untagged_entry(
    alloc: Global,
    kind: Sum,
    escapes: bool,
    body: &[u8],
) -> Result<Option<HashLine>, AllocError> {
    match untagged_parts(kind.width().digits(), body) {
        Some((shown, number)) => entry_of(alloc, kind, escapes, shown, number),
        None => Ok(None),
    }
}

/// What a line tells, without its mark.
///
/// Proved:
///
/// ```text
/// IfOk result (Finds (TellsBody kinds.now kind escapes) body.now)
/// ```
#[inline]
fn body_entry(
    alloc: Global,
    kinds: &[Sum],
    kind: Sum,
    escapes: bool,
    body: &[u8],
) -> Result<Option<HashLine>, AllocError> {
    for tagged in kinds {
        if let Some(entry) = tagged_entry(alloc, *tagged, escapes, body)? {
            return Ok(Some(entry));
        }
    }
    untagged_entry(alloc, kind, escapes, body)
}

/// What a line tells that begins with a backslash.
///
/// Proved:
///
/// ```text
/// IfOk result (Finds (TellsEscaped kinds.now kind) line.now)
/// ```
#[inline]
fn escaped_entry(
    alloc: Global,
    kinds: &[Sum],
    kind: Sum,
    line: &[u8],
) -> Result<Option<HashLine>, AllocError> {
    match behind(line, b"\\") {
        Some(body) => body_entry(alloc, kinds, kind, true, body),
        None => Ok(None),
    }
}

/// What a line tells, without its end: of which file the hash of one of these kinds is which number. In a line that is not tagged
/// it is the one kind. `None` exactly where it is no such line. The digits may be of either case, and a line that is not tagged
/// may have a star for its second space, as sha256sum writes it. A line that begins with a backslash has escapes. A line without a
/// name is no such line.
///
/// Proved:
///
/// ```text
/// IfOk result (Finds (Tells kinds.now kind) line.now)
/// ```
#[inline]
pub fn parse_line(
    alloc: Global,
    kinds: &[Sum],
    kind: Sum,
    line: &[u8],
) -> Result<Option<HashLine>, AllocError> {
    match escaped_entry(alloc, kinds, kind, line)? {
        Some(entry) => Ok(Some(entry)),
        None => body_entry(alloc, kinds, kind, false, line),
    }
}
