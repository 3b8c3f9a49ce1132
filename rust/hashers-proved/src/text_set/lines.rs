//! Lines of a text, and what ends them: newline, or another byte.

// What follows is the proved text of crates/text_set/src/lines.rt without its contracts.
use crate::shim::{Vec, std};

use std::io;
use std::io::BufRead;
use std::simd::prelude::*;

/// Whether a line has its end.
///
/// Proved:
///
/// ```text
/// result ≡ ends_with_byte eol line.now
/// ```
#[inline]
pub fn has_end(line: &[u8], eol: u8) -> bool {
    match line {
        [.., last] => *last == eol,
        [] => false,
    }
}

/// A line without its end, if it has one.
///
/// Proved:
///
/// ```text
/// result.now ≡ strip_last eol line.now
/// ```
#[inline]
pub fn without_end(line: &[u8], eol: u8) -> &[u8] {
    match line {
        [text @ .., last] if *last == eol => text,
        _ => line,
    }
}

/// How many of the 16 bytes from a place on come before the first that ends a line among them.
///
/// The caller has to see to it that:
///
/// ```text
/// at + 16 ≤ length bytes.now
/// ```
///
/// Proved:
///
/// ```text
/// result ≡ prefix_len (λ byte. not (byte == eol)) (chunk at 16 bytes.now)
/// ```
#[inline]
fn before_end(bytes: &[u8], at: usize, eol: u8) -> usize {
    let ends = u8x16::from_slice(&bytes[at..])
        .simd_eq(u8x16::splat(eol))
        .to_bitmask();
    if ends == 0 {
        16
    } else {
        ends.trailing_zeros() as usize
    }
}

/// Where the first line ends.
///
/// Proved:
///
/// ```text
/// IsLineEnd eol bytes.now result
/// ```
#[inline]
pub fn line_end(bytes: &[u8], eol: u8) -> Option<usize> {
    let mut at = 0;
    while bytes.len() - at >= 16 {
        let before = before_end(bytes, at, eol);
        if before < 16 {
            return Some(at + before);
        }
        at += 16;
    }
    for i in at..bytes.len() {
        if bytes[i] == eol {
            return Some(i);
        }
    }
    None
}

/// Reads the next line into the buffer, with its end if it has one, and returns whether there is one.
///
/// Proved:
///
/// ```text
/// some: IfOk result (λ some. some ≡ true
///     → ReadsNext eol (R.remaining r.old) (R.remaining r.new) line.new.items)
/// none: IfOk result (λ some. some ≡ false → ReadsNothing (R.remaining r.old) (R.remaining r.new))
/// ```
#[inline]
pub fn next_line<R: BufRead>(r: &mut R, eol: u8, line: &mut Vec<u8>) -> io::Result<bool> {
    line.clear();
    let count = r.read_until(eol, line)?;
    Ok(count > 0)
}
