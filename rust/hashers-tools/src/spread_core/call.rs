//! What the program is asked for, and how it ends.

// What follows is the proved text of crates/spread_core/src/call.rt without its contracts.
use crate::cli;
use hashers_proved::{hash_kinds, hash_names};
use hashers_proved::shim::{Vec, std};

use crate::spread_core::failure::NoTable;
use crate::spread_core::keys::Layout;
use cli::call::{Call, Opt, flag, taking};
use cli::numbers::number_of;
use cli::outcome;
use cli::outcome::Words;
use hash_kinds::table::{KINDS, Kind};
use hash_names::table::Ported;
use std::alloc::{AllocError, Global};
use std::num::NonZeroUsize;

/// How the table is to be made.
#[derive(Clone, Copy)]
pub struct Settings {
    /// The number of buckets, in place of those by the number of keys.
    pub buckets: Option<NonZeroUsize>,
    /// How the keys lie in the input.
    pub layout: Layout,
    /// Whether times are measured.
    pub times: bool,
}

/// What only this program finds wrong with a call.
#[derive(Clone, Copy, Debug)]
pub enum Misuse {
    /// It gives a number of buckets or bytes that is none from 1 on.
    NoNumber,
    /// It says that keys have a fixed width, and that zero bytes end them.
    TwoLayouts,
    /// It names what is no hash, as the file of the keys.
    NoHash,
}

/// What is wrong with a call.
pub type Wrong = outcome::Wrong<Misuse>;

/// What came of a call.
pub type Outcome = outcome::Outcome<Misuse, NoTable>;

impl Words for Misuse {
    #[inline]
    fn words(&self) -> &'static str {
        match self {
            Misuse::NoNumber => "invalid number",
            Misuse::TwoLayouts => "-z does not go with -w",
            Misuse::NoHash => "keys come from standard input, and there is no hash",
        }
    }
}

/// The options, as the help shows them.
///
/// Proved:
///
/// ```text
/// choices result ≡ options
/// ```
#[inline]
pub fn options() -> [Opt; 8] {
    [
        taking(
            Some(b'b'),
            "buckets",
            "BUCKETS",
            "this many buckets instead",
        ),
        taking(
            Some(b'w'),
            "width",
            "BYTES",
            "keys of this many bytes, with nothing between them",
        ),
        flag(
            Some(b'z'),
            "zero-terminated",
            "keys end with a zero byte, not with a newline",
        ),
        flag(None, "no-times", "measure no times and recommend nothing"),
        taking(
            None,
            "plot",
            "FILE.svg",
            "draw the table too; - is standard output, after it",
        ),
        flag(None, "list", "print the names of the hashes and exit"),
        flag(None, "help", "print this help and exit"),
        flag(None, "version", "print the version and exit"),
    ]
}

/// What the words behind the program's own name say.
///
/// Proved:
///
/// ```text
/// IfOk result (λ call. sayings call.said.items ≡ call_of options (texts words.now))
/// ```
#[inline]
pub fn call_of<'a>(alloc: Global, words: &'a [Vec<u8>]) -> Result<Call<'a>, AllocError> {
    cli::call::call_of(alloc, &options(), words)
}

/// The number from 1 on that a word writes.
///
/// Proved:
///
/// ```text
/// option_map non_zero_usize_get result ≡ positive word.now
/// ```
#[inline]
fn positive(word: &[u8]) -> Option<NonZeroUsize> {
    match number_of(word) {
        Some(number) => NonZeroUsize::new(number),
        None => None,
    }
}

/// The number that a call gives by this option, if it gives one; `None` if what it gives is no number from 1 on.
///
/// Proved:
///
/// ```text
/// option_map (option_map non_zero_usize_get) result
///     ≡ given_number name.now (sayings call.now.said.items)
/// ```
#[inline]
fn given_number(call: &Call<'_>, name: &[u8]) -> Option<Option<NonZeroUsize>> {
    match call.value(name) {
        None => Some(None),
        Some(word) => match positive(word) {
            Some(number) => Some(Some(number)),
            None => None,
        },
    }
}

/// The first value that has to be a number from 1 on, and is none.
#[inline]
pub fn no_number<'a>(call: &Call<'a>) -> Option<&'a [u8]> {
    for name in [b"buckets".as_slice(), b"width".as_slice()] {
        let word = call.value(name).unwrap_or(b"1");
        if positive(word).is_none() {
            return Some(word);
        }
    }
    None
}

/// How the keys lie in the input: with a fixed width, or with an end, which is a newline if nothing is said. `None` if both are said.
///
/// Proved:
///
/// ```text
/// option_map laid result ≡ layout_of zeros (option_map non_zero_usize_get width)
/// ```
#[inline]
fn layout_of(zeros: bool, width: Option<NonZeroUsize>) -> Option<Layout> {
    match (zeros, width) {
        (true, Some(_)) => None,
        (true, None) => Some(Layout::Lines(0)),
        (false, Some(width)) => Some(Layout::Fixed(width)),
        (false, None) => Some(Layout::Lines(b'\n')),
    }
}

/// The table that the call wants.
///
/// Proved:
///
/// ```text
/// ok: IfOk result (λ settings. settings_of (sayings call.now.said.items) ≡ Ok (wanted settings))
/// err: IfErr result (λ wrong. settings_of (sayings call.now.said.items) ≡ Err wrong)
/// ```
#[inline]
pub fn settings_of(call: &Call<'_>) -> Result<Settings, Wrong> {
    let (Some(buckets), Some(width)) = (
        given_number(call, b"buckets"),
        given_number(call, b"width"),
    ) else {
        return Err(Wrong::Own(Misuse::NoNumber));
    };
    let Some(layout) = layout_of(call.gives(b"zero-terminated"), width) else {
        return Err(Wrong::Own(Misuse::TwoLayouts));
    };
    Ok(Settings {
        buckets,
        layout,
        times: !call.gives(b"no-times"),
    })
}

/// Whether a hash has the name, in letters of either case.
///
/// Proved:
///
/// ```text
/// result ≡ is_called name.now kind
/// ```
#[inline]
fn is_called(kind: Kind, name: &[u8]) -> bool {
    kind.row().name.as_bytes().eq_ignore_ascii_case(name)
}

/// The first of these hashes that has the name, in letters of either case.
///
/// Proved:
///
/// ```text
/// result ≡ find (is_called name.now) kinds.now
/// ```
#[inline]
fn first_called(kinds: &[Kind], name: &[u8]) -> Option<Kind> {
    for kind in kinds {
        if is_called(*kind, name) {
            return Some(*kind);
        }
    }
    None
}

/// The hash of that name, in letters of either case.
///
/// Proved:
///
/// ```text
/// result ≡ kind_called name.now
/// ```
#[inline]
fn kind_called(name: &[u8]) -> Option<Kind> {
    first_called(&KINDS, name)
}

/// The first of the names that no hash has.
///
/// Proved:
///
/// ```text
/// option_map (λ word. word.now) result
///     ≡ find (λ name. is_none (kind_called name)) (map (λ name. name.now) names.now)
/// ```
#[inline]
fn first_unknown<'a>(names: &[&'a [u8]]) -> Option<&'a [u8]> {
    for name in names {
        if kind_called(name).is_none() {
            return Some(*name);
        }
    }
    None
}

/// The first operand that no hash has as its name.
///
/// Proved:
///
/// ```text
/// IfOk result (λ word. option_map (λ w. w.now) word ≡ unknown_name (sayings call.now.said.items))
/// ```
#[inline]
pub fn unknown_name<'a>(alloc: Global, call: &Call<'a>) -> Result<Option<&'a [u8]>, AllocError> {
    let names = call.operands(alloc)?;
    Ok(first_unknown(&names))
}

/// The hashes that stand in the table where none is named. The others spread as another does, not at all, or are for files.
const USUAL: [Kind; 16] = [
    Kind::Ported(Ported::Fnv1a32),
    Kind::Ported(Ported::Fnv1a64),
    Kind::Ported(Ported::Djb2),
    Kind::Ported(Ported::Sdbm),
    Kind::Ported(Ported::LoseLose),
    Kind::Ported(Ported::Bricolage),
    Kind::Ported(Ported::Oaat),
    Kind::Ported(Ported::Lookup3),
    Kind::Ported(Ported::Spooky),
    Kind::Ported(Ported::PassThrough),
    Kind::Ported(Ported::FxHash),
    Kind::Ported(Ported::FxHash32),
    Kind::Xxh64,
    Kind::Murmur3At32,
    Kind::SipHash13,
    Kind::Xxh3,
];

/// The hashes of these names, in their order; an unknown name has none.
///
/// Proved:
///
/// ```text
/// IfOk result (λ kinds. kinds.items ≡ filter_map kind_called (map (λ name. name.now) names.now))
/// ```
#[inline]
fn kinds_named(alloc: Global, names: &[&[u8]]) -> Result<Vec<Kind>, AllocError> {
    let mut kinds = Vec::new(alloc);
    for name in names {
        if let Some(kind) = kind_called(name) {
            kinds.push(kind)?;
        }
    }
    Ok(kinds)
}

/// The hashes that the operands name, in their order; the usual ones where there is none. An unknown name has none.
///
/// Proved:
///
/// ```text
/// IfOk result (λ kinds. kinds.items ≡ kinds_of (sayings call.now.said.items))
/// ```
#[inline]
pub fn kinds_of(alloc: Global, call: &Call<'_>) -> Result<Vec<Kind>, AllocError> {
    let names = call.operands(alloc)?;
    if names.is_empty() {
        return match Vec::from_array(alloc, USUAL) {
            Ok(kinds) => Ok(kinds),
            Err(_) => Err(AllocError),
        };
    }
    kinds_named(alloc, &names)
}
