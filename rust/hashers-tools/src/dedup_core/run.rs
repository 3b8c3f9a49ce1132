//! A run over inputs, one after the other.

// What follows is the proved text of crates/dedup_core/src/run.rt without its contracts.
// A proof names the loop.
#![allow(unused_labels)]
use crate::cli;
use hashers_proved::streams;
use hashers_proved::shim::std;

use crate::dedup_core::failure::Failure;
use crate::dedup_core::lines::take_lines;
use crate::dedup_core::task::LineTask;
use crate::dedup_core::unread::{NextLine, Unread};
use cli::inputs::Complaints;
use std::alloc::Global;
use std::io::{BufWriter, Error, ErrorKind, Read, Write};
use streams::tries::{TRIES, flush};

/// How a run ended that met no fault of its own.
#[derive(Clone, Copy)]
pub enum Ended {
    /// Each input was read to its end.
    Whole,
    /// At least one input failed. Of such an input the lines were taken that came whole.
    InputFailed,
}

/// How an input was left.
pub enum Left {
    /// It was read to its end.
    Done,
    /// A read failed.
    Failed(Error),
}

/// Takes the last line of an input, which has no end, if there is one.
///
/// The caller has to see to it that:
///
/// ```text
/// grows: Grows (T.output eol)
/// stands: (ls : List (List ℕ)) × T.taken eol task.old ls
/// bare: IsBare eol line.now
/// flushed: writer_buffer w.old ≡ []
/// ```
///
/// Proved:
///
/// ```text
/// took: OnOk result (Leads
///     (At (T.output eol) (T.taken eol task.old) (writer_contents W.contents w.old))
///     (At (T.output eol) (T.taken eol task.new) (writer_contents W.contents w.new)) (lines_by eol line.now))
/// flushed: OnOk result (writer_buffer w.new ≡ [])
/// broke: OnErr result (Leads (At (T.output eol) (T.taken eol task.old) (writer_contents W.contents w.old))
///     (Broke (T.output eol) (writer_contents W.contents w.new)) (lines_by eol line.now))
/// ```
#[inline]
fn take_last<T: LineTask, W: Write>(
    task: &mut T,
    line: &[u8],
    eol: u8,
    w: &mut BufWriter<W>,
) -> Result<(), Failure> {
    if line.is_empty() {
        return Ok(());
    }
    task.take_line(line, line, eol, task.guess(line), w)?;
    flush(w, TRIES)?;
    Ok(())
}

/// Has the lines of an input taken. Whenever it reads, nothing is held back. An input of which 2^64 reads were made fails.
///
/// The caller has to see to it that:
///
/// ```text
/// grows: Grows (T.output eol)
/// stands: (ls : List (List ℕ)) × T.taken eol task.old ls
/// unread: unread.old ≡ []
/// flushed: writer_buffer w.old ≡ []
/// ```
///
/// Proved:
///
/// ```text
/// left: IfOk result (LeavesInput
///     (At (T.output eol) (T.taken eol task.old) (writer_contents W.contents w.old))
///     (At (T.output eol) (T.taken eol task.new) (writer_contents W.contents w.new))
///     eol (R.remaining r.old) (R.remaining r.new))
/// unread: OnOk result (unread.new ≡ [])
/// flushed: OnOk result (writer_buffer w.new ≡ [])
/// broke: OnErr result (BreaksInput
///     (At (T.output eol) (T.taken eol task.old) (writer_contents W.contents w.old))
///     (Broke (T.output eol) (writer_contents W.contents w.new)) eol (R.remaining r.old))
/// ```
#[inline]
fn take_input<T: LineTask, R: Read, W: Write>(
    task: &mut T,
    unread: &mut Unread,
    eol: u8,
    r: &mut R,
    w: &mut BufWriter<W>,
) -> Result<Left, Failure> {
    'reads: for _ in 0..u64::MAX {
        match unread.fill(eol, r, w)? {
            NextLine::Line => {
                let len = take_lines(task, unread.bytes(), eol, w)?;
                unread.pass(len);
                flush(w, TRIES)?;
            }
            NextLine::End => {
                take_last(task, unread.bytes(), eol, w)?;
                unread.clear();
                return Ok(Left::Done);
            }
            NextLine::Failure(error) => {
                unread.clear();
                return Ok(Left::Failed(error));
            }
        }
    }
    unread.clear();
    Ok(Left::Failed(Error::new(ErrorKind::FileTooLarge, "file too large")))
}

/// Has the lines of the inputs taken, which end with the byte `eol`. If an input fails, the others are still read. Whenever it reads, and
/// at the end, nothing is held back.
///
/// The caller has to see to it that:
///
/// ```text
/// grows: Grows (T.output eol)
/// begun: T.taken eol task.old []
/// nothing: T.output eol [] ≡ []
/// ```
///
/// Proved:
///
/// ```text
/// ended: EndsTaking (T.output eol) (T.taken eol task.new) eol
///     (run_of R.remaining inputs.old inputs.new (writer_contents W.contents) w.old w.new) result
/// flushed: OnOk result (writer_buffer w.new ≡ [])
/// ```
#[inline]
pub fn take_inputs<T: LineTask, R: Read, C: Complaints, W: Write>(
    alloc: Global,
    task: &mut T,
    eol: u8,
    inputs: &mut [R],
    complaints: &mut C,
    w: &mut BufWriter<W>,
) -> Result<Ended, Failure> {
    let mut unread = Unread::new(alloc);
    let mut whole = true;
    flush(w, TRIES)?;
    for place in 0..inputs.len() {
        match take_input(task, &mut unread, eol, &mut inputs[place], w)? {
            Left::Done => {}
            Left::Failed(error) => {
                complaints.failed(place, &error);
                whole = false;
            }
        }
    }
    if whole {
        Ok(Ended::Whole)
    } else {
        Ok(Ended::InputFailed)
    }
}
