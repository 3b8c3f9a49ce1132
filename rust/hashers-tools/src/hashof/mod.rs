//! `hashof NAME` prints the hash of that name of its standard input, as a line.

// What follows is the proved text of crates/hashof/src/main.rt without its contracts.
use hashers_proved::shim::{HostRuntime, std};

mod line;
mod outcome;
mod run;

use outcome::{outcome_line, outcome_of, outcome_status};
use std::env;
use std::process::ExitCode;

/// Does what the program does, and returns its status.
///
/// Proved:
///
/// ```text
/// IsStatus (exit_status result)
/// ```
#[inline]
fn run_program(rt: &HostRuntime) -> ExitCode {
    let outcome = outcome_of(env::args(rt), &mut rt.stdin(), &mut rt.stdout());
    let _ = rt.eprint(outcome_line(&outcome));
    ExitCode::from(outcome_status(&outcome))
}

#[inline]
pub fn main(rt: HostRuntime) -> ExitCode {
    run_program(&rt)
}
