//! What ends a run before its output is whole.

// What follows is the proved text of crates/dedup_core/src/failure.rt without its contracts.
use crate::cli;
use hashers_proved::{streams, text_set};
use hashers_proved::shim::std;

use cli::outcome::Words;
use std::hash::BuildHasher;
use streams::failure;
use text_set::{Full, Guess, Seen, Texts};

/// More than can be taken.
#[derive(Debug)]
pub enum TooMany {
    /// There were 2^32 - 1 texts.
    Texts,
}

/// Why a run ended before its output was whole.
pub type Failure = failure::Failure<TooMany>;

impl Words for TooMany {
    #[inline]
    fn words(&self) -> &'static str {
        match self {
            TooMany::Texts => "too many different lines",
        }
    }
}

/// Takes a text into a set, by a guess for it. After a fault the set is as it was.
///
/// The caller has to see to it that:
///
/// ```text
/// guess.tag ≡ tag_under S.Hasher.write S.Hasher.finish (S.build_hasher texts.old.hasher) text.now
/// ```
///
/// Proved:
///
/// ```text
/// Sees IsFullOnly texts.old texts.new text.now result
/// ```
#[inline(always)]
pub fn see<S: BuildHasher>(
    texts: &mut Texts<S>,
    text: &[u8],
    guess: Guess,
) -> Result<Seen, Failure> {
    match texts.see_at(text, guess) {
        Ok(seen) => Ok(seen),
        Err(Full::NoMemory) => Err(Failure::NoMemory),
        Err(Full::TooManyTexts) => Err(Failure::Own(TooMany::Texts)),
    }
}
