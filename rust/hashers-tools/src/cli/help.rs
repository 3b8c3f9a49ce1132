//! What a program says of its options.

// What follows is the proved text of crates/cli/src/help.rt without its contracts.
use hashers_proved::shim::{String, std};

use crate::cli::call::{Call, Opt};
use std::alloc::{AllocError, Global};

/// An option's letter, its name, and what its value is called.
///
/// Proved:
///
/// ```text
/// IfOk result (λ text. string_bytes text ≡ label opt.now)
/// ```
#[inline]
fn label(alloc: Global, opt: &Opt) -> Result<String, AllocError> {
    let mut text = String::new(alloc);
    match opt.letter {
        Some(letter) => {
            text.push_str("  -")?;
            text.push(char::from(letter))?;
            text.push_str(", --")?;
        }
        None => text.push_str("      --")?,
    }
    text.push_str(opt.name)?;
    if !opt.value.is_empty() {
        text.push(' ')?;
        text.push_str(opt.value)?;
    }
    Ok(text)
}

/// The column in which all options say what they do.
///
/// Proved:
///
/// ```text
/// IfOk result (λ at. at ≡ column options.now)
/// ```
#[inline]
fn column(alloc: Global, options: &[Opt]) -> Result<usize, AllocError> {
    let mut column = 0usize;
    for opt in options {
        column = column.max(label(alloc, opt)?.len() + 2);
    }
    Ok(column)
}

/// Puts so many spaces behind a text.
///
/// Proved:
///
/// ```text
/// OnOk result (string_bytes text.new ≡ string_bytes text.old ++ replicate count 32)
/// ```
#[inline]
pub fn push_spaces(text: &mut String, count: usize) -> Result<(), AllocError> {
    for _ in 0..count {
        text.push(' ')?;
    }
    Ok(())
}

/// Puts an option behind a text, and what it does, each line from the column on.
///
/// Proved:
///
/// ```text
/// OnOk result (string_bytes text.new ≡ string_bytes text.old ++ shown column opt.now)
/// ```
#[inline]
fn push_option(alloc: Global, text: &mut String, opt: &Opt, column: usize) -> Result<(), AllocError> {
    let label = label(alloc, opt)?;
    text.push_str(&label)?;
    let mut at = label.len();
    for line in opt.words.split('\n') {
        push_spaces(text, column.saturating_sub(at))?;
        text.push_str(line)?;
        text.push('\n')?;
        at = 0;
    }
    Ok(())
}

/// The help of a program: what stands in front of its options, each of them with what it does, and what stands behind. It is made
/// where the call asks for it, and is empty else.
///
/// Proved:
///
/// ```text
/// IfOk result (λ text. string_bytes text ≡ (if given (codes "help") (sayings call.now.said.items)
///     then help front.now options.now behind.now else []))
/// ```
#[inline]
pub fn help_for(
    alloc: Global,
    call: &Call<'_>,
    front: &str,
    options: &[Opt],
    behind: &str,
) -> Result<String, AllocError> {
    if !call.gives(b"help") {
        return Ok(String::new(alloc));
    }
    let column = column(alloc, options)?;
    let mut text = String::from_str(alloc, front)?;
    for opt in options {
        push_option(alloc, &mut text, opt, column)?;
    }
    text.push_str(behind)?;
    Ok(text)
}
