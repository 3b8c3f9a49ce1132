//! Whether files have the hashes that lines tell.

// What follows is the proved text of crates/hashsum_core/src/check.rt without its contracts.
// Clauses name io.
#![allow(unused_imports)]
use crate::cli;
use hashers_proved::{hash_lines, streams, text_set};
use hashers_proved::shim::{Vec, std};

use crate::hashsum_core::failure::Failure;
use crate::hashsum_core::hints::{NO_LINES, Untagged, hint_of, with_line};
use crate::hashsum_core::reports::Reports;
use crate::hashsum_core::sum::{Unsummed, error_of, number_of};
use cli::folder::Folder;
use hash_lines::escape::needs_escape;
use hash_lines::forms::parse_form;
use hash_lines::line::push_name;
use hash_lines::parse::{HashLine, parse_line};
use hash_lines::sums::{Sum, is_named};
use std::alloc::{AllocError, Global};
use std::io;
use std::io::{BufRead, BufReader, BufWriter, Error, ErrorKind, Read, Write};
use streams::tries::write_out;
use text_set::lines;
use text_set::lines::next_line;

/// How many bytes of a list are read at once.
const BUFFER: usize = 65536;

/// How lines are checked.
#[derive(Clone, Copy)]
pub struct Checking {
    /// By which hash lines that are not tagged are checked.
    pub kind: Sum,
    /// The keys for lines of hashes that take them, if there are any.
    pub keys: Option<(u64, u64)>,
    /// Whether lines by other hashes are improper.
    pub only: bool,
    /// Whether files that have the hash are left out.
    pub quiet: bool,
    /// Whether nothing is written.
    pub status: bool,
    /// Whether improper lines fail the check.
    pub strict: bool,
    /// Whether files that are not there are left out.
    pub ignore_missing: bool,
    /// Whether each improper line is to be told.
    pub warn: bool,
}

/// What came of a file that a line tells of.
#[derive(Clone, Copy)]
pub enum Verdict {
    /// It has the hash.
    Same,
    /// It has another hash.
    Different,
    /// It could not be opened or read.
    Unread,
    /// It is not there, and such files are to be left out.
    Missing,
    /// The hash is one under keys, and there are none.
    Unkeyed,
}

/// What came of a line.
pub enum LineCheck {
    /// It is empty, or a comment.
    Skipped,
    /// It tells no hash, or that of its own list.
    Improper,
    /// The file that it tells of was looked at.
    Checked(HashLine, Verdict),
}

/// How often each came of the lines of a list.
#[derive(Clone, Copy)]
pub struct Counts {
    /// Improper lines.
    pub improper: u64,
    /// Files that have the hash.
    pub same: u64,
    /// Files that have another.
    pub different: u64,
    /// Files that could not be opened or read.
    pub unread: u64,
    /// Files that are not there, and were left out.
    pub missing: u64,
    /// Files whose lines need keys, where there are none.
    pub unkeyed: u64,
}

/// Whether the lines of a list pass: some file has the hash that is told of it, none has another or could not be read, and no line needs
/// keys that are not there.
///
/// Proved:
///
/// ```text
/// result ≡ passes strict counts.now
/// ```
#[inline]
pub fn passes(strict: bool, counts: &Counts) -> bool {
    counts.same > 0
        && counts.different == 0
        && counts.unread == 0
        && counts.unkeyed == 0
        && !(strict && counts.improper > 0)
}

/// Adds one, up to the greatest number.
///
/// Proved:
///
/// ```text
/// count.new ≡ one_more count.old
/// ```
#[inline]
fn add_one(count: &mut u64) {
    *count = count.saturating_add(1);
}

/// Counts what came of a line more.
///
/// Proved:
///
/// ```text
/// result ≡ counted counts came.now
/// ```
#[inline]
fn count(mut counts: Counts, came: &LineCheck) -> Counts {
    match came {
        LineCheck::Skipped => {}
        LineCheck::Improper => add_one(&mut counts.improper),
        LineCheck::Checked(_, Verdict::Same) => add_one(&mut counts.same),
        LineCheck::Checked(_, Verdict::Different) => add_one(&mut counts.different),
        LineCheck::Checked(_, Verdict::Unread) => add_one(&mut counts.unread),
        LineCheck::Checked(_, Verdict::Missing) => add_one(&mut counts.missing),
        LineCheck::Checked(_, Verdict::Unkeyed) => add_one(&mut counts.unkeyed),
    }
    counts
}

/// Whether an error tells that a file is not there.
///
/// Proved:
///
/// ```text
/// result ≡ is_not_found (error_kind error.now)
/// ```
#[inline]
fn is_not_found(error: &Error) -> bool {
    match error.kind() {
        ErrorKind::NotFound => true,
        _ => false,
    }
}

/// The verdict on what came of a file: whether its number is the one that is told.
///
/// Proved:
///
/// ```text
/// result ≡ verdict_on ignore_missing told came.now
/// ```
#[inline]
fn verdict_of(ignore_missing: bool, told: u128, came: &Result<u128, Unsummed>) -> Verdict {
    match came {
        Ok(number) => {
            if *number == told {
                Verdict::Same
            } else {
                Verdict::Different
            }
        }
        Err(Unsummed::Unopened(error)) => {
            if ignore_missing && is_not_found(error) {
                Verdict::Missing
            } else {
                Verdict::Unread
            }
        }
        Err(Unsummed::Unhashed(_)) => Verdict::Unread,
    }
}

/// Whether the file of an entry has the hash that it tells.
///
/// Proved:
///
/// ```text
/// IsVerdict (F.opens folder.now entry.now.name.items) (sum_under checking.keys entry.now.kind)
///     checking.ignore_missing entry.now.number result
/// ```
#[inline]
fn check_file<R: Read, F: Folder<R>>(
    folder: &F,
    checking: Checking,
    entry: &HashLine,
) -> Verdict {
    let came = number_of(folder, entry.kind, checking.keys, &entry.name);
    let verdict = verdict_of(checking.ignore_missing, entry.number, &came);
    if let Verdict::Unread = verdict {
        if let Err(unsummed) = came {
            folder.failed(&entry.name, &error_of(unsummed));
        }
    }
    verdict
}

/// Whether a line by a hash needs keys, and there are none.
///
/// Proved:
///
/// ```text
/// result ≡ lacks_keys keys kind
/// ```
#[inline]
fn lacks_keys(keys: Option<(u64, u64)>, kind: Sum) -> bool {
    keys.is_none() && kind.takes_keys()
}

/// The verdict on the file of an entry.
///
/// Proved:
///
/// ```text
/// IsVerdictBy checking (F.opens folder.now) entry.now.kind entry.now.name.items
///     entry.now.number result
/// ```
#[inline]
fn verdict_by<R: Read, F: Folder<R>>(
    folder: &F,
    checking: Checking,
    entry: &HashLine,
) -> Verdict {
    if lacks_keys(checking.keys, entry.kind) {
        return Verdict::Unkeyed;
    }
    check_file(folder, checking, entry)
}

/// Whether lines of SFV files are taken in the list of that name.
///
/// Proved:
///
/// ```text
/// result ≡ takes_sfv kind list.now
/// ```
#[inline]
fn takes_sfv(kind: Sum, list: &[u8]) -> bool {
    kind.name() == "crc32" || is_named(b".sfv", &list[list.len().saturating_sub(4)..])
}

/// Whether a line of that name is of the list that it stands in.
///
/// Proved:
///
/// ```text
/// result ≡ is_itself list.now name.now
/// ```
#[inline]
fn is_itself(list: &[u8], name: &[u8]) -> bool {
    list == b"-".as_slice() && name == b"-".as_slice()
}

/// Whether a line is empty, or a comment of an SFV file or of another list.
///
/// Proved:
///
/// ```text
/// result ≡ is_skipped sfv line.now
/// ```
#[inline]
fn is_skipped(sfv: bool, line: &[u8]) -> bool {
    match line {
        [] => true,
        [first, ..] => *first == if sfv { b';' } else { b'#' },
    }
}

/// What a line tells: as one of ours, or else in another program's form.
///
/// Proved:
///
/// ```text
/// IfOk result (λ found. MatchOption found (TellsNone sfv kinds.now kind line.now)
///     (λ entry. TellsAny sfv kinds.now kind entry.kind entry.name.items entry.number line.now))
/// ```
#[inline]
fn entry_of(
    alloc: Global,
    kinds: &[Sum],
    kind: Sum,
    sfv: bool,
    line: &[u8],
) -> Result<Option<HashLine>, AllocError> {
    if let Some(entry) = parse_line(alloc, kinds, kind, line)? {
        return Ok(Some(entry));
    }
    parse_form(alloc, kinds, kind, sfv, line)
}

/// What comes of a line of the list of that name, without its end.
///
/// Proved:
///
/// ```text
/// IfOk result (IsLineCheck kinds.now checking (F.opens folder.now) list.now line.now)
/// ```
#[inline]
fn check_line<R: Read, F: Folder<R>>(
    alloc: Global,
    folder: &F,
    kinds: &[Sum],
    checking: Checking,
    list: &[u8],
    line: &[u8],
) -> Result<LineCheck, AllocError> {
    let sfv = takes_sfv(checking.kind, list);
    if is_skipped(sfv, line) {
        return Ok(LineCheck::Skipped);
    }
    match entry_of(alloc, kinds, checking.kind, sfv, line)? {
        Some(entry) => {
            if is_itself(list, &entry.name) {
                return Ok(LineCheck::Improper);
            }
            let verdict = verdict_by(folder, checking, &entry);
            Ok(LineCheck::Checked(entry, verdict))
        }
        None => Ok(LineCheck::Improper),
    }
}

/// What is said of a verdict behind the name; nothing if nothing is to be written.
///
/// Proved:
///
/// ```text
/// result.now ≡ verdict_words quiet status verdict
/// ```
#[inline]
fn verdict_words(verdict: Verdict, quiet: bool, status: bool) -> &'static [u8] {
    if status {
        return b"";
    }
    match verdict {
        Verdict::Same => { if quiet { b"" } else { b": OK\n" } }
        Verdict::Different => b": FAILED\n",
        Verdict::Unread => b": FAILED open or read\n",
        Verdict::Missing | Verdict::Unkeyed => b"",
    }
}

/// A name and the words behind it; nothing if there are no words.
///
/// Proved:
///
/// ```text
/// IfOk result (λ text. text.items ≡ behind_name name.now words.now)
/// ```
#[inline]
fn behind_name(alloc: Global, name: &[u8], words: &[u8]) -> Result<Vec<u8>, AllocError> {
    let mut text = Vec::new(alloc);
    if words.is_empty() {
        return Ok(text);
    }
    let escapes = needs_escape(name);
    if escapes {
        text.push(b'\\')?;
    }
    push_name(&mut text, escapes, name)?;
    text.extend_from_slice(words)?;
    Ok(text)
}

/// The line that is written of what came.
///
/// Proved:
///
/// ```text
/// IfOk result (λ text. text.items ≡ said quiet status came.now)
/// ```
#[inline]
fn said(alloc: Global, came: &LineCheck, quiet: bool, status: bool) -> Result<Vec<u8>, AllocError> {
    match came {
        LineCheck::Checked(entry, verdict) => {
            behind_name(alloc, &entry.name, verdict_words(*verdict, quiet, status))
        }
        _ => Ok(Vec::new(alloc)),
    }
}

/// The text without the byte order mark that some editors put in front of one.
///
/// Proved:
///
/// ```text
/// result.now ≡ unmarked text.now
/// ```
#[inline]
fn unmarked(text: &[u8]) -> &[u8] {
    match text {
        [0xEF, 0xBB, 0xBF, rest @ ..] => rest,
        _ => text,
    }
}

/// The line without such a mark, as lists that were joined have one within, and without its end, if it has one: a newline, or a carriage
/// return and a newline.
///
/// Proved:
///
/// ```text
/// result.now ≡ bare line.now
/// ```
#[inline]
fn bare(line: &[u8]) -> &[u8] {
    unmarked(lines::without_end(lines::without_end(line, b'\n'), b'\r'))
}

/// Checks a line of the list of that name, with its newline if it has one, and writes what came of it.
///
/// Proved:
///
/// ```text
/// told: EndsLine kinds.now checking (F.opens folder.now) list.now line.now
///     (writer_contents W.contents w.old) (writer_contents W.contents w.new) result
/// flushed: OnOk result (writer_buffer w.new ≡ [])
/// ```
#[inline]
fn tell_line<R: Read, F: Folder<R>, W: Write>(
    alloc: Global,
    folder: &F,
    kinds: &[Sum],
    checking: Checking,
    list: &[u8],
    line: &[u8],
    w: &mut BufWriter<W>,
) -> Result<LineCheck, Failure> {
    let text = bare(line);
    let came = match check_line(alloc, folder, kinds, checking, list, text) {
        Ok(came) => came,
        Err(_) => return Err(Failure::NoMemory),
    };
    let said = match said(alloc, &came, checking.quiet, checking.status) {
        Ok(said) => said,
        Err(_) => return Err(Failure::NoMemory),
    };
    match write_out(w, &said) {
        Ok(()) => Ok(came),
        Err(fault) => Err(fault),
    }
}

/// No line is counted yet.
const UNCOUNTED: Counts = Counts {
    improper: 0,
    same: 0,
    different: 0,
    unread: 0,
    missing: 0,
    unkeyed: 0,
};

/// Checks the lines of the list of that name, which are read here, and writes what comes of each. Returns the counts; nothing if the
/// list fails. Nothing that it wrote is held back.
///
/// Proved:
///
/// ```text
/// told: EndsList kinds.now checking (F.opens folder.now) list.now (B.remaining lines.old)
///     (writer_contents W.contents w.old) (writer_contents W.contents w.new) result
/// flushed: OnOk result (writer_buffer w.old ≡ [] → writer_buffer w.new ≡ [])
/// ```
#[inline]
fn check_lines<B: BufRead, R: Read, F: Folder<R> + Reports, W: Write>(
    alloc: Global,
    folder: &F,
    kinds: &[Sum],
    checking: Checking,
    list: &[u8],
    lines: &mut B,
    w: &mut BufWriter<W>,
) -> Result<Option<Counts>, Failure> {
    let mut counts = UNCOUNTED;
    let mut untagged = NO_LINES;
    let mut line = Vec::new(alloc);
    for number in 1..u64::MAX {
        match next_line(lines, b'\n', &mut line) {
            Ok(true) => {}
            Ok(false) => {
                hint(folder, checking.only, list, untagged);
                return Ok(Some(counts));
            }
            Err(error) => {
                folder.failed(list, &error);
                return Ok(None);
            }
        }
        match tell_line(alloc, folder, kinds, checking, list, &line, w) {
            Ok(came) => {
                counts = count(counts, &came);
                untagged = with_line(untagged, bare(&line), &came);
                warn(folder, checking.warn, list, number, &came);
            }
            Err(fault) => return Err(fault),
        }
    }
    Ok(None)
}

/// Hints at hashes that lines without a tag may be of, if no hash was asked for and those did not pass.
#[inline]
fn hint<F: Reports>(reports: &F, only: bool, list: &[u8], untagged: Untagged) {
    if let Some(hint) = hint_of(only, untagged) {
        reports.hints(list, hint);
    }
}

/// Tells an improper line, if that is asked for.
#[inline]
fn warn<F: Reports>(reports: &F, warn: bool, list: &[u8], number: u64, came: &LineCheck) {
    if let LineCheck::Improper = came {
        if warn {
            reports.improper(list, number);
        }
    }
}

/// Checks the lines of the list of that name, and tells whether they pass. Those of a list that fails do not.
///
/// Proved:
///
/// ```text
/// told: EndsListOf kinds.now checking (F.opens folder.now) list.now
///     (writer_contents W.contents w.old) (writer_contents W.contents w.new) result
/// flushed: OnOk result (writer_buffer w.old ≡ [] → writer_buffer w.new ≡ [])
/// ```
#[inline]
fn check_list<R: Read, F: Folder<R> + Reports, W: Write>(
    alloc: Global,
    folder: &F,
    kinds: &[Sum],
    checking: Checking,
    list: &[u8],
    w: &mut BufWriter<W>,
) -> Result<bool, Failure> {
    let mut lines = match folder.open(list) {
        Ok(file) => match BufReader::with_capacity(alloc, BUFFER, file) {
            Ok(lines) => lines,
            Err(_) => return Err(Failure::NoMemory),
        },
        Err(error) => {
            folder.failed(list, &error);
            return Ok(false);
        }
    };
    match check_lines(alloc, folder, kinds, checking, list, &mut lines, w) {
        Ok(Some(counts)) => {
            folder.ended(list, &counts);
            Ok(passes(checking.strict, &counts))
        }
        Ok(None) => Ok(false),
        Err(fault) => Err(fault),
    }
}

/// Checks the lines of the lists of these names, in their order, and tells whether all pass. Nothing that it wrote is held back.
///
/// Proved:
///
/// ```text
/// told: EndsLists kinds.now checking (F.opens folder.now) (map (λ list. list.now) lists.now)
///     (writer_contents W.contents w.old) (writer_contents W.contents w.new) result
/// flushed: OnOk result (writer_buffer w.old ≡ [] → writer_buffer w.new ≡ [])
/// ```
#[inline]
pub fn check_lists<R: Read, F: Folder<R> + Reports, W: Write>(
    alloc: Global,
    folder: &F,
    kinds: &[Sum],
    checking: Checking,
    lists: &[&[u8]],
    w: &mut BufWriter<W>,
) -> Result<bool, Failure> {
    let mut all = true;
    for list in lists {
        match check_list(alloc, folder, kinds, checking, list, w) {
            Ok(passed) => all = all & passed,
            Err(fault) => return Err(fault),
        }
    }
    Ok(all)
}
