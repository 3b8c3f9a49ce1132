//! Lines that tell the hash of a file, as they are written: `NAME (file) = hexadecimal`, and `hexadecimal  file`.

// What follows is the proved text of crates/hash_lines/src/line.rt without its contracts.
// Clauses name MOST_DIGITS.
#![allow(unused_imports)]
use crate::streams;
use crate::shim::{Vec, std};

use crate::hash_lines::escape::{needs_escape, push_escaped};
use crate::hash_lines::sums::Sum;
use std::alloc::AllocError;
use streams::hex::{MOST_DIGITS, push_hex};

/// How many hexadecimal digits the numbers of a hash have.
#[derive(Clone, Copy)]
pub enum Width {
    /// Eight.
    Eight,
    /// Sixteen.
    Sixteen,
    /// Thirty-two.
    ThirtyTwo,
}

impl Width {
    /// As a number.
    ///
    /// Proved:
    ///
    /// ```text
    /// value: result ≡ digits_of self
    /// most: result ≤ MOST_DIGITS
    /// ```
    #[inline]
    pub fn digits(self) -> usize {
        match self {
            Width::Eight => 8,
            Width::Sixteen => 16,
            Width::ThirtyTwo => 32,
        }
    }
}

/// How a line is written.
#[derive(Clone, Copy)]
pub enum Form {
    /// `NAME (file) = hexadecimal`.
    Tagged,
    /// `hexadecimal  file`.
    Untagged,
}

/// Writes a name behind a text, with escapes where that is asked for.
///
/// Proved:
///
/// ```text
/// OnOk result (text.new.items ≡ text.old.items ++ name_shown escapes name.now)
/// ```
#[inline]
pub fn push_name(text: &mut Vec<u8>, escapes: bool, name: &[u8]) -> Result<(), AllocError> {
    if escapes {
        push_escaped(text, name)
    } else {
        text.extend_from_slice(name)
    }
}

/// Writes the line of a file's hash behind a text, without its end. A line whose name needs escapes begins with a backslash, and
/// the name is escaped, unless the line is to have none.
///
/// Proved:
///
/// ```text
/// OnOk result (text.new.items ≡ text.old.items ++ line_of form escapes kind name.now number)
/// ```
#[inline]
pub fn push_line(
    text: &mut Vec<u8>,
    form: Form,
    escapes: bool,
    kind: Sum,
    name: &[u8],
    number: u128,
) -> Result<(), AllocError> {
    let escapes = escapes && needs_escape(name);
    if escapes {
        text.push(b'\\')?;
    }
    match form {
        Form::Tagged => {
            text.extend_from_slice(kind.name().as_bytes())?;
            text.extend_from_slice(b" (")?;
            push_name(text, escapes, name)?;
            text.extend_from_slice(b") = ")?;
            push_hex(text, kind.width().digits(), number)
        }
        Form::Untagged => {
            push_hex(text, kind.width().digits(), number)?;
            text.extend_from_slice(b"  ")?;
            push_name(text, escapes, name)
        }
    }
}
