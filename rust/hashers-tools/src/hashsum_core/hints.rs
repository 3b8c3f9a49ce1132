//! Which hash lines without a tag may be of, where a check names none.

// What follows is the proved text of crates/hashsum_core/src/hints.rt without its contracts.

use crate::hashsum_core::check::{LineCheck, Verdict};

/// What came of the lines without a tag, so far.
#[derive(Clone, Copy)]
pub(crate) struct Untagged {
    /// Whether one of 16 digits is improper.
    pub(crate) short: bool,
    /// Whether a file has the hash of one of 32 digits.
    pub(crate) same: bool,
    /// Whether a file has another hash than one of 32 digits.
    pub(crate) different: bool,
}

/// No lines.
pub(crate) const NO_LINES: Untagged = Untagged {
    short: false,
    same: false,
    different: false,
};

/// What lines without a tag look like, that did not pass.
#[derive(Clone, Copy)]
pub enum Hint {
    /// They have 16 digits, as those of XXH64.
    Short,
    /// They have 32 digits, as those of MD5 and of XXH3 with 128 bits, and no file has the hash of one.
    Long,
}

/// How many hexadecimal digits stand in front of the first blank of a line; 0 where something else does, or there is no blank.
///
/// Proved:
///
/// ```text
/// result ≡ digits_in_front line.now
/// ```
#[inline]
fn digits_in_front(line: &[u8]) -> usize {
    for at in 0..line.len() {
        if line[at].is_ascii_whitespace() {
            return at;
        }
        if !line[at].is_ascii_hexdigit() {
            return 0;
        }
    }
    0
}

/// The same with a line more, without its end.
///
/// Proved:
///
/// ```text
/// result ≡ with_line lines line.now came.now
/// ```
#[inline]
pub(crate) fn with_line(lines: Untagged, line: &[u8], came: &LineCheck) -> Untagged {
    let digits = digits_in_front(line);
    match came {
        LineCheck::Improper if digits == 16 => Untagged {
            short: true,
            ..lines
        },
        LineCheck::Checked(_, Verdict::Same) if digits == 32 => Untagged {
            same: true,
            ..lines
        },
        LineCheck::Checked(_, Verdict::Different) if digits == 32 => Untagged {
            different: true,
            ..lines
        },
        _ => lines,
    }
}

/// What such lines look like, unless a hash is asked for.
///
/// Proved:
///
/// ```text
/// result ≡ hint_of only lines
/// ```
#[inline]
pub(crate) fn hint_of(only: bool, lines: Untagged) -> Option<Hint> {
    if only {
        return None;
    }
    if lines.short {
        return Some(Hint::Short);
    }
    if lines.different && !lines.same {
        return Some(Hint::Long);
    }
    None
}
