//! Why a call of the system failed, in words.

// What follows is the proved text of crates/cli/src/reason.rt without its contracts.
use hashers_proved::shim::{String, format, std};

use std::alloc::{AllocError, Global};
use std::io::Error;

/// The words in front of the first ` (os error `, or all of them.
///
/// Proved:
///
/// ```text
/// IsInFront (codes " (os error ") words.now result.now
/// ```
#[inline]
pub fn without_number(words: &str) -> &str {
    match words.split_once(" (os error ") {
        Some((front, _)) => front,
        None => words,
    }
}

/// What the error says of itself, without the number that the system gives it.
#[inline]
pub fn reason(alloc: Global, error: &Error) -> Result<String, AllocError> {
    let words = format!(in alloc; "{error}")?;
    String::from_str(alloc, without_number(words.as_str()))
}
