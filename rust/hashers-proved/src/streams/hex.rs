//! Numbers in hexadecimal digits.

// What follows is the proved text of crates/streams/src/hex.rt without its contracts.
use crate::shim::{Vec, std};

use std::alloc::AllocError;

/// The most digits of a number.
pub const MOST_DIGITS: usize = 32;

/// The digit of a value.
///
/// The caller has to see to it that:
///
/// ```text
/// value < 16
/// ```
///
/// Proved:
///
/// ```text
/// result ≡ digit value
/// ```
#[inline]
fn digit(value: u8) -> u8 {
    if value < 10 {
        b'0' + value
    } else {
        b'a' + (value - 10)
    }
}

/// The value of a digit, of either case.
///
/// Proved:
///
/// ```text
/// value: result ≡ digit_value byte
/// small: IfSome result (λ value. value < 16)
/// ```
#[inline]
pub fn digit_value(byte: u8) -> Option<u8> {
    match byte {
        b'0'..=b'9' => Some(byte - b'0'),
        b'a'..=b'f' => Some(byte - b'a' + 10),
        b'A'..=b'F' => Some(byte - b'A' + 10),
        _ => None,
    }
}

/// So many digits of a number, made at the end of the array.
///
/// The caller has to see to it that:
///
/// ```text
/// digits ≤ MOST_DIGITS
/// ```
///
/// Proved:
///
/// ```text
/// result.now ≡ hex digits number
/// ```
#[inline]
pub fn put_hex(digits: usize, number: u128, places: &mut [u8; MOST_DIGITS]) -> &[u8] {
    let first = MOST_DIGITS - digits;
    let mut at = MOST_DIGITS;
    let mut rest = number;
    while at > first {
        at -= 1;
        places[at] = digit((rest % 16) as u8);
        rest /= 16;
    }
    &places[at..]
}

/// Writes the last so many hexadecimal digits of a number behind a text, in lower case, the high digit first. Leading zeros are
/// written.
///
/// The caller has to see to it that:
///
/// ```text
/// digits ≤ MOST_DIGITS
/// ```
///
/// Proved:
///
/// ```text
/// OnOk result (text.new.items ≡ text.old.items ++ hex digits number)
/// ```
#[inline]
pub fn push_hex(text: &mut Vec<u8>, digits: usize, number: u128) -> Result<(), AllocError> {
    let mut places = [0u8; MOST_DIGITS];
    text.extend_from_slice(put_hex(digits, number, &mut places))
}

/// The number of these hexadecimal digits, of either case; `None` exactly where one of the bytes is none.
///
/// The caller has to see to it that:
///
/// ```text
/// length digits.now ≤ MOST_DIGITS
/// ```
///
/// Proved:
///
/// ```text
/// value: result ≡ hex_value digits.now
/// small: IfSome result (λ number. number < 16 ^ length digits.now)
/// ```
#[inline]
pub fn hex_number(digits: &[u8]) -> Option<u128> {
    let mut number = 0u128;
    for byte in digits {
        number = number * 16 + u128::from(digit_value(*byte)?);
    }
    Some(number)
}
