//! The inputs of a call, in their order, each opened by its first read; and who is told of one that fails.

// What follows is the proved text of crates/cli/src/inputs.rt without its contracts.
use hashers_proved::shim::{Vec, std};

use crate::cli::folder::Folder;
use std::alloc::{AllocError, Global};
use std::io::{Error, Read};
use std::marker::PhantomData;
use std::{io, mem};

/// Who is told of each input that fails.
pub trait Complaints {
    /// The input at that place failed with this error. No contract says that this is called.
    fn failed(&mut self, place: usize, error: &Error);
}

/// What is read of an input.
pub(crate) enum Source<R: Read> {
    /// It is not opened yet.
    Unopened,
    /// It is open.
    Open(R),
    /// It has ended.
    Ended,
}

/// The file of a name. It is opened by its first read, and closed at its end.
pub struct Input<'a, R: Read, F: Folder<R>> {
    folder: &'a F,
    name: &'a [u8],
    source: Source<R>,
}

impl<R: Read, F: Folder<R>> Read for Input<'_, R, F> {
    #[inline]
    fn read(&mut self, buf: &mut [u8]) -> io::Result<usize> {
        let mut file = match mem::replace(&mut self.source, Source::Ended) {
            Source::Ended => return Ok(0),
            Source::Open(file) => file,
            Source::Unopened => match self.folder.open(self.name) {
                Ok(file) => file,
                Err(error) => {
                    self.source = Source::Unopened;
                    return Err(error);
                }
            },
        };
        let read = file.read(buf);
        let has_ended = matches!(&read, Ok(0)) && !buf.is_empty();
        if !has_ended {
            self.source = Source::Open(file);
        }
        read
    }
}

/// The inputs of these names.
///
/// Proved:
///
/// ```text
/// IfOk result (λ inputs. map (left_in F.holds R.remaining) inputs.items
///     ≡ map (λ name. F.holds folder.now name.now) names.now)
/// ```
#[inline]
pub fn inputs<'a, R: Read, F: Folder<R>>(
    alloc: Global,
    folder: &'a F,
    names: &[&'a [u8]],
) -> Result<Vec<Input<'a, R, F>>, AllocError> {
    let mut inputs = Vec::new(alloc);
    for name in names {
        let input = Input {
            folder,
            name,
            source: Source::Unopened,
        };
        match inputs.push(input) {
            Ok(()) => {}
            Err(_) => return Err(AllocError),
        }
    }
    Ok(inputs)
}

/// Tells a folder of each input that fails, by its name.
pub struct Told<'a, R: Read, F: Folder<R>> {
    folder: &'a F,
    names: &'a [&'a [u8]],
    files: PhantomData<R>,
}

impl<'a, R: Read, F: Folder<R>> Told<'a, R, F> {
    /// Of inputs of these names.
    #[inline]
    pub fn new(folder: &'a F, names: &'a [&'a [u8]]) -> Self {
        Told {
            folder,
            names,
            files: PhantomData,
        }
    }
}

impl<R: Read, F: Folder<R>> Complaints for Told<'_, R, F> {
    #[inline]
    fn failed(&mut self, place: usize, error: &Error) {
        if let Some(name) = self.names.get(place) {
            self.folder.failed(name, error);
        }
    }
}
