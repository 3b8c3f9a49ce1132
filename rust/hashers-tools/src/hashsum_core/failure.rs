//! What ends a run before its output is whole.

// What follows is the proved text of crates/hashsum_core/src/failure.rt without its contracts.
use hashers_proved::streams;

use streams::failure;
use streams::failure::Nothing;

/// Why a run ended before its output was whole.
pub type Failure = failure::Failure<Nothing>;
