//! What is done with lines, one after the other.

// What follows is the proved text of crates/dedup_core/src/task.rt without its contracts.
use hashers_proved::text_set;
use hashers_proved::shim::std;

use crate::dedup_core::failure::Failure;
use std::io::Write;
use text_set::Guess;

/// What is done with lines, one after the other.
pub trait LineTask {
    /// Whether it pays to guess for some lines before the first of them is taken. No result depends on it.
    fn waits_for_memory(&self) -> bool;

    /// The tag of the text, and a place at which it may be known. No result depends on the place.
    ///
    /// Proved:
    ///
    /// ```text
    /// result.tag ≡ tag_of self.now text.now
    /// ```
    fn guess(&self, text: &[u8]) -> Guess;

    /// Takes a line, which has its end or is the last, and writes what is due, by its text and a guess for that. After a
    /// fault a beginning of what was due was written.
    ///
    /// The caller has to see to it that:
    ///
    /// ```text
    /// text: text.now ≡ strip_last eol line.now
    /// tag: guess.tag ≡ tag_of self.old text.now
    /// stands: (ls : List (List ℕ)) × taken eol self.old ls
    /// ```
    ///
    /// Proved:
    ///
    /// ```text
    /// tag_of: tag_of self.new ≡ tag_of self.old
    /// ok: OnOk result (Leads (At (output eol) (taken eol self.old) (W.contents w.old))
    ///     (At (output eol) (taken eol self.new) (W.contents w.new)) (line.now ∷ []))
    /// err: OnErr result (Leads (At (output eol) (taken eol self.old) (W.contents w.old))
    ///     (Broke (output eol) (W.contents w.new)) (line.now ∷ []))
    /// ```
    fn take_line<W: Write>(
        &mut self,
        line: &[u8],
        text: &[u8],
        eol: u8,
        guess: Guess,
        w: &mut W,
    ) -> Result<(), Failure>;
}
