//! Names in a line, where the bytes that end or open a line are escaped, as GNU's cksum does: a newline is `\n`, a carriage return
//! `\r` and a backslash `\\`.

// What follows is the proved text of crates/hash_lines/src/escape.rt without its contracts.
use crate::shim::{Vec, std};

use std::alloc::{AllocError, Global};

/// The byte that begins an escape.
const BACKSLASH: u8 = b'\\';

/// The letter behind the backslash of a byte that is escaped.
///
/// Proved:
///
/// ```text
/// result ≡ letter byte
/// ```
#[inline]
fn letter(byte: u8) -> Option<u8> {
    match byte {
        b'\n' => Some(b'n'),
        b'\r' => Some(b'r'),
        BACKSLASH => Some(BACKSLASH),
        _ => None,
    }
}

/// The byte that has this letter behind its backslash.
///
/// Proved:
///
/// ```text
/// result ≡ original letter
/// ```
#[inline]
fn original(letter: u8) -> Option<u8> {
    match letter {
        b'n' => Some(b'\n'),
        b'r' => Some(b'\r'),
        BACKSLASH => Some(BACKSLASH),
        _ => None,
    }
}

/// Whether a name has a byte that is escaped.
///
/// Proved:
///
/// ```text
/// result ≡ needs_escape name.now
/// ```
#[inline]
pub fn needs_escape(name: &[u8]) -> bool {
    name.iter().any(|byte| letter(*byte).is_some())
}

/// Writes a byte of a name behind a text, escaped.
///
/// Proved:
///
/// ```text
/// OnOk result (text.new.items ≡ text.old.items ++ escaped_byte byte)
/// ```
#[inline]
fn push_byte(text: &mut Vec<u8>, byte: u8) -> Result<(), AllocError> {
    if let Some(letter) = letter(byte) {
        text.push(BACKSLASH)?;
        text.push(letter)?;
    } else {
        text.push(byte)?;
    }
    Ok(())
}

/// Writes a name behind a text, escaped.
///
/// Proved:
///
/// ```text
/// OnOk result (text.new.items ≡ text.old.items ++ escape name.now)
/// ```
#[inline]
pub fn push_escaped(text: &mut Vec<u8>, name: &[u8]) -> Result<(), AllocError> {
    for byte in name {
        push_byte(text, *byte)?;
    }
    Ok(())
}

/// The byte that a shown name begins with, and what is shown behind it; `None` exactly where no escaped name begins so.
///
/// Proved:
///
/// ```text
/// MatchOption result ((byte : ℕ) (more : List ℕ) → escaped_byte byte ++ more ≢ shown.now)
///     (λ first. (escaped_byte first.0 ++ first.1.now ≡ shown.now) × (length first.1.now < length shown.now))
/// ```
#[inline]
fn first_byte(shown: &[u8]) -> Option<(u8, &[u8])> {
    match shown {
        [] => None,
        [BACKSLASH, letter, more @ ..] => match original(*letter) {
            Some(byte) => Some((byte, more)),
            None => None,
        },
        [byte, more @ ..] => {
            if letter(*byte).is_some() {
                None
            } else {
                Some((*byte, more))
            }
        }
    }
}

/// The name that is escaped so; `None` exactly where there is none.
///
/// Proved:
///
/// ```text
/// IfOk result (λ found. MatchOption found
///     ((name : List ℕ) → escape name ≢ shown.now) (λ name. escape name.items ≡ shown.now))
/// ```
#[inline]
pub fn unescaped(alloc: Global, shown: &[u8]) -> Result<Option<Vec<u8>>, AllocError> {
    let mut name = Vec::new(alloc);
    let mut rest = shown;
    while !rest.is_empty() {
        let Some((byte, more)) = first_byte(rest) else {
            return Ok(None);
        };
        name.push(byte)?;
        rest = more;
    }
    Ok(Some(name))
}
