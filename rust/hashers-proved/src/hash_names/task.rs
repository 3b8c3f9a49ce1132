//! What a program does with a hash of the table.

// What follows is the proved text of crates/hash_names/src/task.rt without its contracts.
use crate::hash_laws;

use hash_laws::traits::{Piecewise, Streamed};

/// What a program does with a hash. The implementing type is a name for the task, and no value of it is made.
pub trait HashTask {
    /// What the task is told, as a limit.
    type Told: Copy;

    /// What it works on, as a reader.
    type Input;

    /// What comes of it.
    type Outcome;

    /// By a hasher to which cuts don't show.
    ///
    /// Proved:
    ///
    /// ```text
    /// by H.hash_of H.hash_of told input.old input.new result
    /// ```
    fn by_text<H: Streamed>(told: Self::Told, input: &mut Self::Input) -> Self::Outcome;

    /// By a hasher to which cuts may show, and which is fed pieces of 4096 bytes where the task reads.
    ///
    /// Proved:
    ///
    /// ```text
    /// by H.hash_of (pieced H.after H.fresh H.answer) told input.old input.new result
    /// ```
    fn by_pieces<H: Piecewise>(told: Self::Told, input: &mut Self::Input) -> Self::Outcome;
}
