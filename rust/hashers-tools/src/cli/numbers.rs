//! Numbers that words write.

// What follows is the proved text of crates/cli/src/numbers.rt without its contracts.

/// Whether all bytes are decimal digits.
///
/// Proved:
///
/// ```text
/// result ≡ all_ascii_digits text.now
/// ```
#[inline]
fn are_digits(text: &[u8]) -> bool {
    for byte in text {
        if !byte.is_ascii_digit() {
            return false;
        }
    }
    true
}

/// The number that decimal digits write, if that is below 2^64.
///
/// Proved:
///
/// ```text
/// result ≡ number_of digits.now
/// ```
#[inline]
pub fn number_of(digits: &[u8]) -> Option<usize> {
    if !are_digits(digits) {
        return None;
    }
    match str::from_utf8(digits) {
        Ok(text) => match text.parse::<usize>() {
            Ok(number) => Some(number),
            Err(_) => None,
        },
        Err(_) => None,
    }
}
