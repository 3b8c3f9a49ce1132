//! Writes lines, and has them taken.

// What follows is the proved text of crates/dedup_core/src/lines.rt without its contracts.
use hashers_proved::streams;
use hashers_proved::shim::std;

use crate::dedup_core::ahead::Ahead;
use crate::dedup_core::failure::Failure;
use crate::dedup_core::task::LineTask;
use std::io::Write;
use streams::tries::{TRIES, write_all};

/// Writes a line of this text, and its end after it if it has none. After a fault a beginning of that was written.
///
/// The caller has to see to it that:
///
/// ```text
/// text.now ≡ strip_last eol line.now
/// ```
///
/// Proved:
///
/// ```text
/// ok: OnOk result (Appends (W.contents w.old) (W.contents w.new) (as_line_by eol line.now))
/// err: OnErr result (AppendsPart (W.contents w.old) (W.contents w.new) (as_line_by eol line.now))
/// ```
#[inline]
pub fn write_line<W: Write>(w: &mut W, line: &[u8], text: &[u8], eol: u8) -> Result<(), Failure> {
    if text.len() < line.len() {
        return write_all(w, line, TRIES);
    }
    write_all(w, line, TRIES)?;
    write_all(w, &[eol], TRIES)
}

/// Has the lines taken that have an end. Returns how many bytes they have together.
///
/// The caller has to see to it that:
///
/// ```text
/// stands: (ls : List (List ℕ)) × T.taken eol task.old ls
/// ```
///
/// Proved:
///
/// ```text
/// took: IfOk result (λ len. (ls : List (List ℕ)) × Takes eol bytes.now len ls
///     × Leads (At (T.output eol) (T.taken eol task.old) (W.contents w.old))
///     (At (T.output eol) (T.taken eol task.new) (W.contents w.new)) ls)
/// broke: OnErr result ((ls : List (List ℕ)) × (rest : List ℕ) × Splits eol bytes.now ls rest
///     × Leads (At (T.output eol) (T.taken eol task.old) (W.contents w.old))
///     (Broke (T.output eol) (W.contents w.new)) ls)
/// ```
#[inline]
pub fn take_lines<T: LineTask, W: Write>(
    task: &mut T,
    bytes: &[u8],
    eol: u8,
    w: &mut W,
) -> Result<usize, Failure> {
    let mut rest = bytes;
    let mut ahead = Ahead::new();
    while let Some(found) = ahead.next(task, rest, eol) {
        let (line, later) = rest.split_at(found.len + 1);
        let text = &line[..found.len];
        task.take_line(line, text, eol, found.guess, w)?;
        rest = later;
    }
    Ok(bytes.len() - rest.len())
}
