//! The files of a call, by their names, and who is told of each that fails.

// What follows is the proved text of crates/cli/src/folder.rt without its contracts.
use hashers_proved::shim::{HostRuntime, Vec, std};

use crate::cli::call::Call;
use crate::cli::opened::{Opened, STANDARD, open, tell_failure};
use std::alloc::{AllocError, Global};
use std::fs::File;
use std::io;
use std::io::{Error, Read, Stdin};

/// The files of a call: its operands, or standard input.
///
/// Proved:
///
/// ```text
/// IfOk result (λ files. map (λ file. file.now) files.items
///     ≡ files_or (operands (sayings call.now.said.items)))
/// ```
#[inline]
pub fn files<'a>(alloc: Global, call: &Call<'a>) -> Result<Vec<&'a [u8]>, AllocError> {
    let mut files = call.operands(alloc)?;
    if files.is_empty() {
        files.push(STANDARD)?;
    }
    Ok(files)
}

/// The files that a run reads, by their names, and who is told of each that fails.
pub trait Folder<R: Read> {
    /// Opens the file of that name.
    ///
    /// Proved:
    ///
    /// ```text
    /// opens: opens self.now name.now (opened R.remaining result)
    /// holds: IfOk result (λ file. IfSome (holds self.now name.now)
    ///     (λ bytes. R.remaining file ≡ Some bytes))
    /// ```
    fn open(&self, name: &[u8]) -> io::Result<R>;

    /// The file of that name failed with this error. No contract says that this is called.
    fn failed(&self, name: &[u8], error: &Error);
}

/// The files of the disk; `-` is standard input. What fails is told on standard error. That a name leads to its file is in no contract.
pub struct Disk<'r> {
    rt: &'r HostRuntime,
    program: &'r str,
}

impl<'r> Disk<'r> {
    /// For the program of that name.
    #[inline]
    pub fn new(rt: &'r HostRuntime, program: &'r str) -> Disk<'r> {
        Disk { rt, program }
    }
}

impl Folder<Opened<Stdin, File>> for Disk<'_> {
    #[inline]
    fn open(&self, name: &[u8]) -> io::Result<Opened<Stdin, File>> {
        open(self.rt, name)
    }

    #[inline]
    fn failed(&self, name: &[u8], error: &Error) {
        tell_failure(self.rt, self.program, name, error);
    }
}
