//! What ends a run before its output is whole.

// What follows is the proved text of crates/cuts_core/src/failure.rt without its contracts.
use crate::cli;
use hashers_proved::streams;

use cli::outcome::Words;
use streams::failure;

/// The chunks have more than 2^64 - 1 bytes.
#[derive(Debug)]
pub struct TooMany;

/// Why a run ended before its output was whole.
pub type Failure = failure::Failure<TooMany>;

impl Words for TooMany {
    #[inline]
    fn words(&self) -> &'static str {
        "too many bytes"
    }
}
