//! How much a store would save that keeps each chunk once.

// What follows is the proved text of crates/cuts_core/src/tally.rt without its contracts.
use crate::cli;
use hashers_proved::{hash_cuts, hash_lines, streams};
use hashers_proved::shim::{Vec, std};

use crate::cuts_core::cut::cut_file;
use crate::cuts_core::failure::{Failure, TooMany};
use cli::folder::Folder;
use hash_cuts::{Cuts, Sink};
use hash_lines::sums::{NO_KEYS, Sum, number_of_text};
use std::alloc::{AllocError, Global};
use std::collections::BTreeSet;
use std::io::{BufWriter, Read, Write};
use streams::tries::write_out;

/// The numbers of the chunks so far.
pub struct Tally {
    kind: Sum,
    chunks: u64,
    bytes: u64,
    first: u64, // the bytes of the chunks whose hash no chunk before them has
    hashes: BTreeSet<u128>,
}

impl Tally {
    /// No chunks.
    ///
    /// Proved:
    ///
    /// ```text
    /// counted: IsCounted (sum_by kind) [] result
    /// kind: result.kind ≡ kind
    /// ```
    #[inline]
    fn new(alloc: Global, kind: Sum) -> Tally {
        Tally {
            kind,
            chunks: 0,
            bytes: 0,
            first: 0,
            hashes: BTreeSet::new(alloc),
        }
    }
}

/// The sum, if it is below 2^64.
///
/// Proved:
///
/// ```text
/// ok: IfOk result (λ sum. sum ≡ number + more)
/// many: IfErr result (IsManyOnly (2 ^ 64 ≤ number + more))
/// ```
#[inline]
fn sum(number: u64, more: usize) -> Result<u64, Failure> {
    match number.checked_add(more as u64) {
        Some(sum) => Ok(sum),
        None => Err(Failure::Own(TooMany)),
    }
}

/// Puts a hash among the others, and returns whether it was not there.
///
/// Proved:
///
/// ```text
/// new: IfOk result (λ is_new. is_new ≡ not (contains nat_cmp hashes.old hash))
/// seen: OnOk result ((number : ℕ) → contains nat_cmp hashes.new number
///     ≡ (number == hash || contains nat_cmp hashes.old number))
/// full: IfErr result (λ why. why ≡ NoMemory)
/// ```
#[inline]
fn see(hashes: &mut BTreeSet<u128>, hash: u128) -> Result<bool, Failure> {
    match hashes.insert(hash) {
        Ok(is_new) => Ok(is_new),
        Err(_) => Err(Failure::NoMemory),
    }
}

/// How many bytes a chunk has, if that is asked for.
///
/// Proved:
///
/// ```text
/// result ≡ (if is_asked then length chunk.now else 0)
/// ```
#[inline]
fn bytes_if(is_asked: bool, chunk: &[u8]) -> usize {
    if is_asked { chunk.len() } else { 0 }
}

impl Sink for Tally {
    type Error = Failure;

    /// Proved:
    ///
    /// ```text
    /// ok: OnOk result (Takes CountsChunks self.old self.new (chunk.now ∷ []) None)
    /// err: OnErr result (Takes CountsChunks self.old self.new [] (Some chunk.now))
    /// many: IfErr result (IsManyOnly (AreTooMany self.old chunk.now))
    /// ```
    #[inline]
    fn take(&mut self, chunk: &[u8]) -> Result<(), Failure> {
        let is_new = see(&mut self.hashes, number_of_text(self.kind, NO_KEYS, chunk))?;
        self.chunks = sum(self.chunks, 1)?;
        self.bytes = sum(self.bytes, chunk.len())?;
        self.first = sum(self.first, bytes_if(is_new, chunk))?;
        Ok(())
    }
}

/// Counts the chunks of the file of that name, and returns whether it was read to its end.
///
/// Proved:
///
/// ```text
/// kind: tally.new.kind ≡ tally.old.kind
/// counted: IfOk result (CountsFile (sum_by tally.old.kind) cuts.now (F.opens folder.now name.now) tally.old
///     tally.new)
/// ```
#[inline]
fn count_file<R: Read, F: Folder<R>>(
    buffer: &mut Vec<u8>,
    cuts: &Cuts,
    folder: &F,
    name: &[u8],
    tally: &mut Tally,
) -> Result<bool, Failure> {
    cut_file(buffer, cuts, folder, name, tally)
}

/// Counts the chunks of the files of these names, and returns whether each was read to its end.
///
/// The caller has to see to it that:
///
/// ```text
/// IsCounted (sum_by tally.old.kind) [] tally.old
/// ```
///
/// Proved:
///
/// ```text
/// IfOk result (CountsFiles (sum_by tally.old.kind) cuts.now (F.opens folder.now)
///     (map (λ name. name.now) names.now) tally.new)
/// ```
#[inline]
fn count_files<R: Read, F: Folder<R>>(
    alloc: Global,
    cuts: &Cuts,
    folder: &F,
    names: &[&[u8]],
    tally: &mut Tally,
) -> Result<bool, Failure> {
    let mut buffer = Vec::new(alloc);
    let mut all = true;
    for name in names {
        let whole = count_file(&mut buffer, cuts, folder, name, tally)?;
        all = all & whole;
    }
    Ok(all)
}

/// Puts the line of a number behind a text.
///
/// Proved:
///
/// ```text
/// OnOk result (text.new.items ≡ text.old.items ++ number_line word.now number)
/// ```
#[inline]
fn push_number(text: &mut Vec<u8>, word: &str, number: u64) -> Result<(), AllocError> {
    text.extend_from_slice(word.as_bytes())?;
    if write!(text, "{number}\n").is_err() {
        return Err(AllocError);
    }
    Ok(())
}

/// The lines of the numbers.
///
/// Proved:
///
/// ```text
/// IfOk result (λ text. text.items
///     ≡ numbers_of tally.now.chunks tally.now.bytes (tally.now.bytes - tally.now.first))
/// ```
#[inline]
fn tally_lines(alloc: Global, tally: &Tally) -> Result<Vec<u8>, AllocError> {
    let mut text = Vec::new(alloc);
    push_number(&mut text, "chunks: ", tally.chunks)?;
    push_number(&mut text, "bytes: ", tally.bytes)?;
    push_number(
        &mut text,
        "repeated bytes: ",
        tally.bytes.saturating_sub(tally.first),
    )?;
    Ok(text)
}

/// Counts the chunks of the files of these names, writes how many there are, their bytes, and the bytes of those whose hash came before,
/// and returns whether each file was read to its end. Of a file that fails the chunks before that count. Nothing is held back.
///
/// Proved:
///
/// ```text
/// told: EndsTally (sum_by kind) cuts.now (F.opens folder.now) (map (λ name. name.now) names.now)
///     (writer_contents W.contents w.old) (writer_contents W.contents w.new) result
/// flushed: OnOk result (writer_buffer w.new ≡ [])
/// ```
#[inline]
pub fn tell_tally<R: Read, F: Folder<R>, W: Write>(
    alloc: Global,
    cuts: &Cuts,
    folder: &F,
    kind: Sum,
    names: &[&[u8]],
    w: &mut BufWriter<W>,
) -> Result<bool, Failure> {
    let mut tally = Tally::new(alloc, kind);
    let all = count_files(alloc, cuts, folder, names, &mut tally)?;
    match tally_lines(alloc, &tally) {
        Ok(text) => match write_out(w, &text) {
            Ok(()) => Ok(all),
            Err(fault) => Err(fault),
        },
        Err(_) => Err(Failure::NoMemory),
    }
}
