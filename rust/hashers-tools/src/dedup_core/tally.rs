//! Lines with how often they came.

// What follows is the proved text of crates/dedup_core/src/tally.rt without its contracts.
use crate::cli;
use hashers_proved::{streams, text_set};
use hashers_proved::shim::{Vec, std};

use crate::dedup_core::failure::{Failure, see};
use crate::dedup_core::run::{Ended, take_inputs};
use crate::dedup_core::task::LineTask;
use cli::inputs::Complaints;
use std::alloc::{AllocError, Global};
use std::hash::BuildHasher;
use std::io::{BufWriter, Read, Write};
use streams::tries::{TRIES, flush, write_all};
use text_set::{Guess, Texts};

/// Which of the counted lines are written, and how.
#[derive(Clone, Copy)]
pub struct Which {
    /// Each after how often it came.
    pub counts: bool,
    /// None that came once.
    pub repeated: bool,
    /// None that came more than once.
    pub unique: bool,
}

/// The texts of lines, and how often each came.
pub struct Counts<S: BuildHasher> {
    texts: Texts<S>,
    times: Vec<u64>, // how often the text at each place came
}

impl<S: BuildHasher> Counts<S> {
    /// No lines.
    ///
    /// Proved:
    ///
    /// ```text
    /// texts: result.texts.texts ≡ []
    /// times: result.times.items ≡ []
    /// ```
    #[inline]
    fn new(alloc: Global, hasher: S) -> Self {
        Counts {
            texts: Texts::new(alloc, hasher),
            times: Vec::new(alloc),
        }
    }
}

/// Counts a text, up to the greatest number.
///
/// The caller has to see to it that:
///
/// ```text
/// counted: (eol : ℕ) × (ls : List (List ℕ)) × Tallies eol ls texts.old.texts times.old.items
/// tag: guess.tag ≡ tag_under S.Hasher.write S.Hasher.finish (S.build_hasher texts.old.hasher) text.now
/// ```
///
/// Proved:
///
/// ```text
/// hasher: texts.new.hasher ≡ texts.old.hasher
/// counted: OnOk result ((eol : ℕ) (ls : List (List ℕ)) (line : List ℕ)
///     → strip_last eol line ≡ text.now
///     → Tallies eol ls texts.old.texts times.old.items
///     → Tallies eol (ls ++ line ∷ []) texts.new.texts times.new.items)
/// ```
#[inline(always)]
fn count<S: BuildHasher>(
    texts: &mut Texts<S>,
    times: &mut Vec<u64>,
    text: &[u8],
    guess: Guess,
) -> Result<(), Failure> {
    let seen = see(texts, text, guess)?;
    if seen.is_new {
        return match times.push(1) {
            Ok(()) => Ok(()),
            Err(_) => Err(Failure::NoMemory),
        };
    }
    times[seen.place] = times[seen.place].saturating_add(1);
    Ok(())
}

impl<S: BuildHasher> LineTask for Counts<S> {
    #[inline(always)]
    fn waits_for_memory(&self) -> bool {
        self.texts.waits_for_memory()
    }

    #[inline(always)]
    fn guess(&self, text: &[u8]) -> Guess {
        self.texts.guess(text)
    }

    #[inline(always)]
    fn take_line<W: Write>(
        &mut self,
        _line: &[u8],
        text: &[u8],
        _eol: u8,
        guess: Guess,
        _w: &mut W,
    ) -> Result<(), Failure> {
        count(&mut self.texts, &mut self.times, text, guess)
    }
}

/// Puts a text and the end of its line after the bytes.
///
/// Proved:
///
/// ```text
/// OnOk result (out.new.items ≡ out.old.items ++ (text.now ++ eol ∷ []))
/// ```
#[inline]
fn push_line(out: &mut Vec<u8>, text: &[u8], eol: u8) -> Result<(), AllocError> {
    out.extend_from_slice(text)?;
    out.push(eol)?;
    Ok(())
}

/// Makes the line of a text, after how often it came.
///
/// Proved:
///
/// ```text
/// OnOk result (out.new.items ≡ column times ++ (text.now ++ eol ∷ []))
/// ```
#[inline]
fn show_counted(times: u64, text: &[u8], eol: u8, out: &mut Vec<u8>) -> Result<(), Failure> {
    out.clear();
    if write!(out, "{times:>7} ").is_err() {
        return Err(Failure::NoMemory);
    }
    push_line(out, text, eol)?;
    Ok(())
}

/// Makes the line of a text.
///
/// Proved:
///
/// ```text
/// OnOk result (out.new.items ≡ text.now ++ eol ∷ [])
/// ```
#[inline]
fn show_plain(text: &[u8], eol: u8, out: &mut Vec<u8>) -> Result<(), Failure> {
    out.clear();
    push_line(out, text, eol)?;
    Ok(())
}

/// Whether a text that came so often is written.
///
/// Proved:
///
/// ```text
/// result ≡ is_shown which times
/// ```
#[inline]
fn is_shown(which: Which, times: u64) -> bool {
    !(which.repeated && times == 1) && !(which.unique && times > 1)
}

/// Makes what is written of a text that came so often.
///
/// Proved:
///
/// ```text
/// OnOk result (out.new.items ≡ shown eol which times text.now)
/// ```
#[inline]
fn show(which: Which, times: u64, text: &[u8], eol: u8, out: &mut Vec<u8>) -> Result<(), Failure> {
    if !is_shown(which, times) {
        out.clear();
        return Ok(());
    }
    if which.counts {
        return show_counted(times, text, eol, out);
    }
    show_plain(text, eol, out)
}

/// Writes the counted texts that are asked for, in the order in which they came first.
///
/// The caller has to see to it that:
///
/// ```text
/// as_many: length texts.now.texts ≡ length times.now
/// ```
///
/// Proved:
///
/// ```text
/// ok: OnOk result ((ls : List (List ℕ)) → Tallies eol ls texts.now.texts times.now
///     → Appends (W.contents w.old) (W.contents w.new) (told eol which ls))
/// err: OnErr result ((ls : List (List ℕ)) → Tallies eol ls texts.now.texts times.now
///     → AppendsPart (W.contents w.old) (W.contents w.new) (told eol which ls))
/// ```
#[inline]
fn write_tallies<S: BuildHasher, W: Write>(
    alloc: Global,
    which: Which,
    eol: u8,
    texts: &Texts<S>,
    times: &[u64],
    w: &mut W,
) -> Result<(), Failure> {
    let mut out = Vec::new(alloc);
    for i in 0..times.len() {
        show(which, times[i], texts.text_at(i), eol, &mut out)?;
        write_all(w, &out, TRIES)?;
    }
    Ok(())
}

/// Counts the lines of the inputs, each of which ends with the byte `eol`, and writes after the last those that are asked for, in the
/// order in which they came first. If an input fails, the others are still read. At the end nothing is held back. After a fault nothing
/// was written, or a beginning of what is due of all lines.
///
/// Proved:
///
/// ```text
/// ended: EndsBehind (told eol which) eol
///     (run_of R.remaining inputs.old inputs.new (writer_contents W.contents) w.old w.new) result
/// flushed: OnOk result (writer_buffer w.new ≡ [])
/// ```
#[inline]
pub fn tally<S: BuildHasher, R: Read, C: Complaints, W: Write>(
    alloc: Global,
    hasher: S,
    which: Which,
    eol: u8,
    inputs: &mut [R],
    complaints: &mut C,
    w: &mut BufWriter<W>,
) -> Result<Ended, Failure> {
    let mut counts = Counts::new(alloc, hasher);
    let ended = take_inputs(alloc, &mut counts, eol, inputs, complaints, w)?;
    write_tallies(alloc, which, eol, &counts.texts, &counts.times, w)?;
    flush(w, TRIES)?;
    Ok(ended)
}
