//! A line for each chunk.

// What follows is the proved text of crates/cuts_core/src/listing.rt without its contracts.
use crate::cli;
use hashers_proved::{hash_cuts, hash_lines, streams};
use hashers_proved::shim::{Vec, std};

use crate::cuts_core::cut::cut_file;
use crate::cuts_core::failure::{Failure, TooMany};
use cli::folder::Folder;
use hash_cuts::{Cuts, Sink};
use hash_lines::line::{Form, push_line};
use hash_lines::sums::{NO_KEYS, SUMS, Sum, number_of_text};
use std::alloc::{AllocError, Global};
use std::io::{BufWriter, Read, Write};
use streams::tries::write_out;

/// Writes a line for each chunk of a file.
pub struct Lines<'a, W: Write> {
    alloc: Global,
    kind: Sum,
    name: &'a [u8],
    place: u64, // where the next chunk begins
    /// Where the lines are written.
    pub w: BufWriter<W>,
}

impl<W: Write> Lines<'_, W> {
    /// Of no file yet, by the default hash.
    ///
    /// Proved:
    ///
    /// ```text
    /// result.w ≡ w
    /// ```
    #[inline]
    pub fn new(alloc: Global, w: BufWriter<W>) -> Self {
        Lines {
            alloc,
            kind: SUMS[0],
            name: b"",
            place: 0,
            w,
        }
    }
}

/// The line of a chunk, with its end.
///
/// Proved:
///
/// ```text
/// IfOk result (λ line. line.items ≡ chunk_line kind name.now place chunk.now)
/// ```
#[inline]
fn chunk_line(
    alloc: Global,
    kind: Sum,
    name: &[u8],
    place: u64,
    chunk: &[u8],
) -> Result<Vec<u8>, AllocError> {
    let mut line = Vec::new(alloc);
    if write!(line, "{place} ").is_err() || write!(line, "{} ", chunk.len()).is_err() {
        return Err(AllocError);
    }
    push_line(
        &mut line,
        Form::Untagged,
        true,
        kind,
        name,
        number_of_text(kind, NO_KEYS, chunk),
    )?;
    line.push(b'\n')?;
    Ok(line)
}

impl<W: Write> Sink for Lines<'_, W> {
    type Error = Failure;

    /// Proved:
    ///
    /// ```text
    /// ok: OnOk result (Takes (ListsChunks W.contents) self.old self.new (chunk.now ∷ []) None)
    /// err: OnErr result (Takes (ListsChunks W.contents) self.old self.new [] (Some chunk.now))
    /// many: IfErr result (IsManyOnly (2 ^ 64 ≤ self.old.place + length chunk.now))
    /// ```
    #[inline]
    fn take(&mut self, chunk: &[u8]) -> Result<(), Failure> {
        let Some(next) = self.place.checked_add(chunk.len() as u64) else {
            return Err(Failure::Own(TooMany));
        };
        match chunk_line(self.alloc, self.kind, self.name, self.place, chunk) {
            Ok(line) => write_out(&mut self.w, &line)?,
            Err(_) => return Err(Failure::NoMemory),
        }
        self.place = next;
        Ok(())
    }
}

/// Writes a line for each chunk of the file of that name, and returns whether it was read to its end.
///
/// Proved:
///
/// ```text
/// kind: lines.new.kind ≡ lines.old.kind
/// listed: EndsLines lines.old.kind cuts.now (F.opens folder.now) name.now
///     (writer_contents W.contents lines.old.w) (writer_contents W.contents lines.new.w) result
/// flushed: OnOk result (writer_buffer lines.old.w ≡ [] → writer_buffer lines.new.w ≡ [])
/// ```
#[inline]
fn list_file<'a, R: Read, F: Folder<R>, W: Write>(
    buffer: &mut Vec<u8>,
    cuts: &Cuts,
    folder: &F,
    name: &'a [u8],
    lines: &mut Lines<'a, W>,
) -> Result<bool, Failure> {
    lines.name = name;
    lines.place = 0;
    cut_file(buffer, cuts, folder, name, lines)
}

/// Writes a line for each chunk of each file, in their order, and returns whether each was read to its end. Of a file that fails the
/// chunks before that have lines. None is held back.
///
/// Proved:
///
/// ```text
/// listed: EndsListing kind cuts.now (F.opens folder.now) (map (λ name. name.now) names.now)
///     (writer_contents W.contents lines.old.w) (writer_contents W.contents lines.new.w) result
/// flushed: OnOk result (writer_buffer lines.old.w ≡ [] → writer_buffer lines.new.w ≡ [])
/// ```
#[inline]
pub fn list_files<'a, R: Read, F: Folder<R>, W: Write>(
    alloc: Global,
    cuts: &Cuts,
    folder: &F,
    kind: Sum,
    names: &[&'a [u8]],
    lines: &mut Lines<'a, W>,
) -> Result<bool, Failure> {
    let mut buffer = Vec::new(alloc);
    lines.kind = kind;
    let mut all = true;
    for name in names {
        match list_file(&mut buffer, cuts, folder, name, lines) {
            Ok(whole) => all = all & whole,
            Err(fault) => return Err(fault),
        }
    }
    Ok(all)
}
