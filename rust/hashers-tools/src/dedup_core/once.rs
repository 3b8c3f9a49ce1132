//! Lines, each once.

// What follows is the proved text of crates/dedup_core/src/once.rt without its contracts.
use crate::cli;
use hashers_proved::text_set;
use hashers_proved::shim::std;

use crate::dedup_core::failure::{Failure, see};
use crate::dedup_core::lines::write_line;
use crate::dedup_core::run::{Ended, take_inputs};
use crate::dedup_core::task::LineTask;
use cli::inputs::Complaints;
use std::alloc::Global;
use std::hash::BuildHasher;
use std::io::{BufWriter, Read, Write};
use text_set::{Guess, Texts};

/// The texts of the lines that came.
pub struct Once<S: BuildHasher> {
    seen: Texts<S>,
}

impl<S: BuildHasher> LineTask for Once<S> {
    #[inline(always)]
    fn waits_for_memory(&self) -> bool {
        self.seen.waits_for_memory()
    }

    #[inline(always)]
    fn guess(&self, text: &[u8]) -> Guess {
        self.seen.guess(text)
    }

    #[inline(always)]
    fn take_line<W: Write>(
        &mut self,
        line: &[u8],
        text: &[u8],
        eol: u8,
        guess: Guess,
        w: &mut W,
    ) -> Result<(), Failure> {
        if see(&mut self.seen, text, guess)?.is_new {
            write_line(w, line, text, eol)?;
        }
        Ok(())
    }
}

/// Writes each line of the inputs, each of which ends with the byte `eol`, once, where it came first. If an input fails, the others are
/// still read. Whenever it reads, and at the end, nothing is held back.
///
/// Proved:
///
/// ```text
/// ended: Ends (once_by eol) eol
///     (run_of R.remaining inputs.old inputs.new (writer_contents W.contents) w.old w.new) result
/// flushed: OnOk result (writer_buffer w.new ≡ [])
/// ```
#[inline]
pub fn dedup<S: BuildHasher, R: Read, C: Complaints, W: Write>(
    alloc: Global,
    hasher: S,
    eol: u8,
    inputs: &mut [R],
    complaints: &mut C,
    w: &mut BufWriter<W>,
) -> Result<Ended, Failure> {
    let mut once = Once {
        seen: Texts::new(alloc, hasher),
    };
    take_inputs(alloc, &mut once, eol, inputs, complaints, w)
}
