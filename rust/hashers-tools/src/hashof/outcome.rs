//! How the program ends.

// What follows is the proved text of crates/hashof/src/outcome.rt without its contracts.
use hashers_proved::shim::std;

use crate::hashof::run::{LIMIT, RunFault, run_limited};
use std::env::Args;
use std::io;
use std::io::{ErrorKind, Read, Write};

/// What came of a run of the program.
pub enum Outcome {
    /// The hash was told.
    Done,
    /// There was not exactly one argument, or one was no text.
    Usage,
    /// There was no memory for the arguments.
    NoMemory,
    /// No hash was told.
    Failed(RunFault),
}

/// Does what the arguments ask for, as the system gives them, the program's own name first: tells the hash of the one
/// name that they are, if the input is less than `limit` bytes. Where they are wrong, or there was no memory for them,
/// nothing is read or written.
///
/// Proved:
///
/// ```text
/// Exits args (run_of limit R.remaining r.old r.new W.contents w.old w.new) result
/// ```
#[inline]
pub fn outcome_limited<R: Read, W: Write>(
    args: io::Result<Args>,
    limit: u64,
    r: &mut R,
    w: &mut W,
) -> Outcome {
    match args {
        Ok(mut args) => {
            let _program = args.next();
            match (args.next(), args.next()) {
                (Some(name), None) => match run_limited(name.as_str(), limit, r, w) {
                    Ok(()) => Outcome::Done,
                    Err(fault) => Outcome::Failed(fault),
                },
                _ => Outcome::Usage,
            }
        }
        Err(error) => match error.kind() {
            ErrorKind::OutOfMemory => Outcome::NoMemory,
            _ => Outcome::Usage,
        },
    }
}

/// What the program does: `outcome_limited` of an input of less than 2^40 bytes.
///
/// Proved:
///
/// ```text
/// Exits args (run_of LIMIT R.remaining r.old r.new W.contents w.old w.new) result
/// ```
#[inline]
pub fn outcome_of<R: Read, W: Write>(args: io::Result<Args>, r: &mut R, w: &mut W) -> Outcome {
    outcome_limited(args, LIMIT, r, w)
}

/// What the program writes on standard error, with its newline; nothing where the hash was told.
///
/// Proved:
///
/// ```text
/// result.now ≡ complaint_of outcome.now
/// ```
#[inline]
pub fn outcome_line(outcome: &Outcome) -> &'static str {
    match outcome {
        Outcome::Done => "",
        Outcome::Usage => "usage: hashof NAME\n",
        Outcome::NoMemory => "hashof: out of memory\n",
        Outcome::Failed(RunFault::UnknownName) => "hashof: unknown name\n",
        Outcome::Failed(RunFault::ReadFault(_)) => "hashof: read fault\n",
        Outcome::Failed(RunFault::TooLong) => "hashof: input too long\n",
        Outcome::Failed(RunFault::WriteFault(_)) => "hashof: write fault\n",
    }
}

/// The status that the program ends with: 0 if the hash was told, 2 if the call was wrong, and 1 if it failed. A pipe
/// that nobody reads is a failed write.
///
/// Proved:
///
/// ```text
/// result ≡ status_of outcome.now
/// ```
#[inline]
pub fn outcome_status(outcome: &Outcome) -> u8 {
    match outcome {
        Outcome::Done => 0,
        Outcome::Usage | Outcome::Failed(RunFault::UnknownName) => 2,
        _ => 1,
    }
}
