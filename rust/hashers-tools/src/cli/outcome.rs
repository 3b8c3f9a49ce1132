//! How a program ends: its status, and what it says of a failure.

// What follows is the proved text of crates/cli/src/outcome.rt without its contracts.
use hashers_proved::streams;
use hashers_proved::shim::std;

use crate::cli::call::Misgiven;
use std::io::{Error, ErrorKind};
use streams::failure::{Failure, Nothing};

/// Something that failed, in words.
pub trait Words {
    /// The words.
    ///
    /// Proved:
    ///
    /// ```text
    /// result.now ≡ words self.now
    /// ```
    fn words(&self) -> &'static str;

    /// The error of the system behind it, if there is one.
    #[inline]
    fn error(&self) -> Option<&Error> {
        None
    }
}

impl Words for Nothing {
    #[inline]
    fn words(&self) -> &'static str {
        ""
    }
}

/// What is wrong with a call. `Own` has what only this program finds wrong.
#[derive(Debug)]
pub enum Wrong<Own> {
    /// Something is wrong with an option.
    Option(Misgiven),
    /// It gives a name that no hash has.
    UnknownName,
    /// What only this program finds wrong.
    Own(Own),
}

/// What came of a call. `Misuse` has what only this program finds wrong with a call, and `Own` its own faults.
#[derive(Debug)]
pub enum Outcome<Misuse, Own> {
    /// All went well.
    Done,
    /// The call was wrong. Nothing was read or written.
    Usage(Wrong<Misuse>),
    /// Something failed, which the run was to tell when it did.
    Reported,
    /// The output is not whole: what was written is a beginning of it.
    Failed(Failure<Own>),
}

/// What came of writing a text.
///
/// Proved:
///
/// ```text
/// result ≡ of_telling told
/// ```
#[inline]
pub fn of_telling<Misuse, Own>(told: Result<(), Failure<Own>>) -> Outcome<Misuse, Own> {
    match told {
        Ok(()) => Outcome::Done,
        Err(fault) => Outcome::Failed(fault),
    }
}

/// What came of a run over files, which went well unless one of them failed.
///
/// Proved:
///
/// ```text
/// result ≡ of_run well
/// ```
#[inline]
pub fn of_run<Misuse, Own>(well: Result<bool, Failure<Own>>) -> Outcome<Misuse, Own> {
    match well {
        Ok(true) => Outcome::Done,
        Ok(false) => Outcome::Reported,
        Err(fault) => Outcome::Failed(fault),
    }
}

/// What is wrong with an option, in front of the word that gives it.
///
/// Proved:
///
/// ```text
/// result.now ≡ misgiven_words misgiven
/// ```
#[inline]
fn misgiven_words(misgiven: Misgiven) -> &'static str {
    match misgiven {
        Misgiven::NoSuchName => "unrecognized option",
        Misgiven::NoSuchLetter => "invalid option --",
        Misgiven::NoValue | Misgiven::HasValue => "option",
    }
}

/// What is said of a failure behind the word that is wrong.
///
/// Proved:
///
/// ```text
/// result.now ≡ behind_of outcome.now
/// ```
#[inline]
pub fn behind_of<Misuse, Own>(outcome: &Outcome<Misuse, Own>) -> &'static str {
    match outcome {
        Outcome::Usage(Wrong::Option(Misgiven::NoValue)) => " requires an argument",
        Outcome::Usage(Wrong::Option(Misgiven::HasValue)) => " doesn't allow an argument",
        _ => "",
    }
}

/// What failed, in words; nothing where all went well, or where the run was to tell it.
///
/// Proved:
///
/// ```text
/// result.now ≡ failure_of Misuse.words Own.words outcome.now
/// ```
#[inline]
pub fn failure_of<Misuse: Words, Own: Words>(outcome: &Outcome<Misuse, Own>) -> &'static str {
    match outcome {
        Outcome::Done | Outcome::Reported => "",
        Outcome::Usage(Wrong::Option(misgiven)) => misgiven_words(*misgiven),
        Outcome::Usage(Wrong::UnknownName) => "unknown hash",
        Outcome::Usage(Wrong::Own(misuse)) => misuse.words(),
        Outcome::Failed(Failure::Unread(_)) => "-",
        Outcome::Failed(Failure::Unwritten(_)) => "write error",
        Outcome::Failed(Failure::NoMemory) => "out of memory",
        Outcome::Failed(Failure::Own(own)) => own.words(),
    }
}

/// The status of a failed write: 141 where nobody reads any more, as a shell tells of a program that such a write ended, and else 1.
///
/// Proved:
///
/// ```text
/// result ≡ write_status kind
/// ```
#[inline]
fn write_status(kind: ErrorKind) -> u8 {
    match kind {
        ErrorKind::BrokenPipe => 141,
        _ => 1,
    }
}

/// The status that the program ends with: 0 where all went well, 2 where the call was wrong, 141 where nobody reads its
/// output any more, and 1 where it failed otherwise.
///
/// Proved:
///
/// ```text
/// result ≡ status_of outcome.now
/// ```
#[inline]
pub fn status_of<Misuse, Own>(outcome: &Outcome<Misuse, Own>) -> u8 {
    match outcome {
        Outcome::Done => 0,
        Outcome::Usage(_) => 2,
        Outcome::Failed(Failure::Unwritten(Some(error))) => write_status(error.kind()),
        _ => 1,
    }
}
