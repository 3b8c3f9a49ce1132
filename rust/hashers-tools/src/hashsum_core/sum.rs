//! The line of each file.

// What follows is the proved text of crates/hashsum_core/src/sum.rt without its contracts.
use crate::cli;
use hashers_proved::{hash_kinds, hash_lines, streams};
use hashers_proved::shim::{Vec, std};

use crate::hashsum_core::failure::Failure;
use cli::folder::Folder;
use hash_kinds::reading::Unhashed;
use hash_lines::line::{Form, push_line};
use hash_lines::sums::{NO_KEYS, Sum, number_by};
use std::alloc::{AllocError, Global};
use std::io::{BufWriter, Error, ErrorKind, Read, Write};
use streams::tries::write_out;

/// How files are summed: by which hash, and in lines of which form.
#[derive(Clone, Copy)]
pub struct Summing {
    /// By which hash.
    pub kind: Sum,
    /// The keys for a hash that takes them, if there are any.
    pub keys: Option<(u64, u64)>,
    /// In lines of which form.
    pub form: Form,
    /// Whether lines end with a zero byte and have no escapes.
    pub zero: bool,
}

/// Why a file has no number.
pub enum Unsummed {
    /// It could not be opened.
    Unopened(Error),
    /// It was opened, and could not be read to its end.
    Unhashed(Unhashed),
}

/// Why a file has no number, as an error of the system.
#[inline]
pub(crate) fn error_of(unsummed: Unsummed) -> Error {
    match unsummed {
        Unsummed::Unopened(error) => error,
        Unsummed::Unhashed(Unhashed::ReadFault(fault)) => fault.error,
        Unsummed::Unhashed(Unhashed::TooLong) => Error::new(
            ErrorKind::FileTooLarge,
            "file too large",
        ),
    }
}

/// The number of the file of that name, by a hash, under these keys if it takes keys.
///
/// Proved:
///
/// ```text
/// SumsFile (F.opens folder.now name.now) (sum_under keys kind) result
/// ```
#[inline]
pub fn number_of<R: Read, F: Folder<R>>(
    folder: &F,
    kind: Sum,
    keys: Option<(u64, u64)>,
    name: &[u8],
) -> Result<u128, Unsummed> {
    match folder.open(name) {
        Ok(mut file) => match number_by(kind, keys.unwrap_or(NO_KEYS), u64::MAX, &mut file) {
            Ok(number) => Ok(number),
            Err(unhashed) => Err(Unsummed::Unhashed(unhashed)),
        },
        Err(error) => Err(Unsummed::Unopened(error)),
    }
}

/// The line of a file, with its end.
///
/// Proved:
///
/// ```text
/// IfOk result (λ line. line.items ≡ sum_line summing name.now number)
/// ```
#[inline]
fn sum_line(
    alloc: Global,
    summing: Summing,
    name: &[u8],
    number: u128,
) -> Result<Vec<u8>, AllocError> {
    let mut line = Vec::new(alloc);
    push_line(
        &mut line,
        summing.form,
        !summing.zero,
        summing.kind,
        name,
        number,
    )?;
    line.push(if summing.zero { 0 } else { b'\n' })?;
    Ok(line)
}

/// Writes the line of a file, which is not held back.
///
/// Proved:
///
/// ```text
/// ok: OnOk result (Appends (writer_contents W.contents w.old) (writer_contents W.contents w.new)
///     (sum_line summing name.now number))
/// err: OnErr result (AppendsPart (writer_contents W.contents w.old) (writer_contents W.contents w.new)
///     (sum_line summing name.now number))
/// flushed: OnOk result (writer_buffer w.new ≡ [])
/// ```
#[inline]
fn tell_sum<W: Write>(
    alloc: Global,
    summing: Summing,
    name: &[u8],
    number: u128,
    w: &mut BufWriter<W>,
) -> Result<(), Failure> {
    match sum_line(alloc, summing, name, number) {
        Ok(line) => write_out(w, &line),
        Err(_) => Err(Failure::NoMemory),
    }
}

/// Writes the line of a file, and tells whether it was read.
///
/// Proved:
///
/// ```text
/// told: EndsSum summing (F.opens folder.now) name.now
///     (writer_contents W.contents w.old) (writer_contents W.contents w.new) result
/// flushed: OnOk result (writer_buffer w.old ≡ [] → writer_buffer w.new ≡ [])
/// ```
#[inline]
fn sum_file<R: Read, F: Folder<R>, W: Write>(
    alloc: Global,
    folder: &F,
    summing: Summing,
    name: &[u8],
    w: &mut BufWriter<W>,
) -> Result<bool, Failure> {
    match number_of(folder, summing.kind, summing.keys, name) {
        Ok(number) => match tell_sum(alloc, summing, name, number, w) {
            Ok(()) => Ok(true),
            Err(fault) => Err(fault),
        },
        Err(unsummed) => {
            folder.failed(name, &error_of(unsummed));
            Ok(false)
        }
    }
}

/// Writes the line of each file, in their order, and tells whether each was read. A file that fails has no line. None is held back.
///
/// Proved:
///
/// ```text
/// told: EndsSums summing (F.opens folder.now) (map (λ name. name.now) names.now)
///     (writer_contents W.contents w.old) (writer_contents W.contents w.new) result
/// flushed: OnOk result (writer_buffer w.old ≡ [] → writer_buffer w.new ≡ [])
/// ```
#[inline]
pub fn sum_files<R: Read, F: Folder<R>, W: Write>(
    alloc: Global,
    folder: &F,
    summing: Summing,
    names: &[&[u8]],
    w: &mut BufWriter<W>,
) -> Result<bool, Failure> {
    let mut whole = true;
    for name in names {
        match sum_file(alloc, folder, summing, name, w) {
            Ok(read) => whole = whole & read,
            Err(fault) => return Err(fault),
        }
    }
    Ok(whole)
}
