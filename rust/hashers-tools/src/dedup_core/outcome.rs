//! What the program `dedup` is asked for, and how it ends.

// What follows is the proved text of crates/dedup_core/src/outcome.rt without its contracts.
use crate::cli;
use hashers_proved::streams;
use hashers_proved::shim::{Vec, std};

use crate::dedup_core::failure::{Failure, TooMany};
use crate::dedup_core::once::dedup;
use crate::dedup_core::run::Ended;
use crate::dedup_core::tally::{Which, tally};
use cli::call::{Call, Opt, flag};
use cli::frame::{About, Request, request_of, text_of};
use cli::inputs::Complaints;
use cli::outcome;
use cli::outcome::{Wrong, of_telling};
use std::alloc::{AllocError, Global};
use std::hash::BuildHasher;
use std::io::{BufWriter, Read, Write};
use streams::failure::Nothing;
use streams::tries::write_out;

/// What is to be written of the lines.
#[derive(Clone, Copy)]
pub enum Task {
    /// Each line once, of lines that end with this byte.
    Once(u8),
    /// The lines that were counted, of lines that end with this byte.
    Tallied(Which, u8),
}

/// What came of a call.
pub type Outcome = outcome::Outcome<Nothing, TooMany>;

/// The options, as the help shows them.
///
/// Proved:
///
/// ```text
/// choices result ≡ options
/// ```
#[inline]
pub fn options() -> [Opt; 6] {
    [
        flag(
            Some(b'c'),
            "count",
            "at the end, write each line after its count",
        ),
        flag(
            Some(b'd'),
            "repeated",
            "at the end, write the lines that came more than once",
        ),
        flag(
            Some(b'u'),
            "unique",
            "at the end, write the lines that came once",
        ),
        flag(
            Some(b'z'),
            "zero-terminated",
            "lines end with a zero byte, not with a newline",
        ),
        flag(None, "help", "print this help and exit"),
        flag(None, "version", "print the version and exit"),
    ]
}

/// What the words after the program's own name say.
///
/// Proved:
///
/// ```text
/// IfOk result (λ call. sayings call.said.items ≡ call_of options (texts words.now))
/// ```
#[inline]
pub fn call_of<'a>(alloc: Global, words: &'a [Vec<u8>]) -> Result<Call<'a>, AllocError> {
    cli::call::call_of(alloc, &options(), words)
}

/// What a call wants written of the lines.
///
/// Proved:
///
/// ```text
/// result ≡ work_of (sayings call.now.said.items)
/// ```
#[inline]
fn work_of(call: &Call<'_>) -> Task {
    let which = Which {
        counts: call.gives(b"count"),
        repeated: call.gives(b"repeated"),
        unique: call.gives(b"unique"),
    };
    let eol = if call.gives(b"zero-terminated") {
        0
    } else {
        b'\n'
    };
    if which.counts || which.repeated || which.unique {
        Task::Tallied(which, eol)
    } else {
        Task::Once(eol)
    }
}

/// What came of a run.
///
/// Proved:
///
/// ```text
/// result ≡ of_run ended
/// ```
#[inline]
fn of_run(ended: Result<Ended, Failure>) -> Outcome {
    match ended {
        Ok(Ended::Whole) => Outcome::Done,
        Ok(Ended::InputFailed) => Outcome::Reported,
        Err(fault) => Outcome::Failed(fault),
    }
}

/// Does what the call asks for, over the lines of the inputs. If the call is wrong, nothing is read or written. If all was done or
/// reported, nothing is held back.
///
/// Proved:
///
/// ```text
/// exits: Exits (sayings call.now.said.items)
///     about.entry.help.now about.entry.version.now about.entry.list.now
///     (run_of R.remaining inputs.old inputs.new (writer_contents W.contents) w.old w.new) result
/// flushed: IsFlushed (writer_buffer w.new) result
/// ```
#[inline]
pub fn outcome_of<S: BuildHasher, R: Read, C: Complaints, W: Write>(
    alloc: Global,
    hasher: S,
    call: &Call<'_>,
    about: About<'_>,
    inputs: &mut [R],
    complaints: &mut C,
    w: &mut BufWriter<W>,
) -> Outcome {
    match request_of(call) {
        Request::Misgiven(misgiven) => Outcome::Usage(Wrong::Option(misgiven)),
        Request::Text(text) => of_telling(write_out(w, text_of(&about, text))),
        Request::Work => match work_of(call) {
            Task::Once(eol) => of_run(dedup(alloc, hasher, eol, inputs, complaints, w)),
            Task::Tallied(which, eol) => {
                of_run(tally(alloc, hasher, which, eol, inputs, complaints, w))
            }
        },
    }
}
