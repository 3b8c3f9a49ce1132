//! The chunks of a file.

// What follows is the proved text of crates/cuts_core/src/cut.rt without its contracts.
use crate::cli;
use hashers_proved::hash_cuts;
use hashers_proved::shim::{Vec, std};

use crate::cuts_core::failure::Failure;
use cli::folder::Folder;
use hash_cuts::{Cuts, Sink, Unfinished, cut_reader_by};
use std::io::{Error, ErrorKind, Read};

/// Gives a sink the chunks of the file of that name, by a buffer that may serve many files, and returns whether it was read to its end. Of
/// a file that fails the sink has the chunks that end within the bytes read before.
///
/// Proved:
///
/// ```text
/// EndsFile S.taken cuts.now (F.opens folder.now name.now) sink.old sink.new result
/// ```
#[inline]
pub fn cut_file<R: Read, F: Folder<R>, S: Sink<Error = Failure>>(
    buffer: &mut Vec<u8>,
    cuts: &Cuts,
    folder: &F,
    name: &[u8],
    sink: &mut S,
) -> Result<bool, Failure> {
    let mut file = match folder.open(name) {
        Ok(file) => file,
        Err(error) => {
            folder.failed(name, &error);
            return Ok(false);
        }
    };
    match cut_reader_by(buffer, cuts, &mut file, u64::MAX, sink) {
        Ok(taken) => {
            if !taken.ended {
                folder.failed(name, &Error::new(ErrorKind::FileTooLarge, "file too large"));
            }
            Ok(taken.ended)
        }
        Err(Unfinished::Unread(fault)) => {
            folder.failed(name, &fault.error);
            Ok(false)
        }
        Err(Unfinished::Refused(fault)) => Err(fault),
        Err(Unfinished::NoMemory) => Err(Failure::NoMemory),
    }
}
