//! Where the next lines end. Some lines are looked at before the first of them is taken, so that the waits for memory overlap.

// What follows is the proved text of crates/dedup_core/src/ahead.rt without its contracts.
use hashers_proved::text_set;

use crate::dedup_core::task::LineTask;
use text_set::Guess;
use text_set::lines::line_end;

/// How many lines are looked at ahead, at most.
const MOST: usize = 16;

/// A line that is found.
#[derive(Clone, Copy)]
pub struct Found {
    /// How many bytes its text has, which its end follows.
    pub len: usize,
    /// A guess where its text is known.
    pub guess: Guess,
}

/// No line is found.
const NOT_FOUND: Found = Found {
    len: 0,
    guess: Guess { tag: 0, place: 0 },
};

/// The next lines, as far as they are looked at.
pub struct Ahead {
    found: [Found; MOST],
    next: usize, // how many of these are taken
    count: usize, // how many there are
}

/// Finds the first line.
///
/// Proved:
///
/// ```text
/// some: IfSome result (IsFound eol (T.tag_of task.now) bytes.now)
/// none: IfNone result (IsBare eol bytes.now)
/// ```
#[inline(always)]
fn first<T: LineTask>(task: &T, bytes: &[u8], eol: u8) -> Option<Found> {
    let len = line_end(bytes, eol)?;
    let guess = task.guess(&bytes[..len]);
    Some(Found { len, guess })
}

/// Finds the first lines, as many as there is room for, and returns how many they are.
///
/// The caller has to see to it that:
///
/// ```text
/// 0 < length found.old
/// ```
///
/// Proved:
///
/// ```text
/// within: result ≤ length found.new
/// next: AreNext eol (T.tag_of task.now) bytes.now (take result found.new)
/// none: result ≡ 0 → IsBare eol bytes.now
/// ```
#[inline]
fn look<T: LineTask>(task: &T, bytes: &[u8], eol: u8, found: &mut [Found]) -> usize {
    let mut rest = bytes;
    for i in 0..found.len() {
        match first(task, rest, eol) {
            Some(line) => {
                let (_line, later) = rest.split_at(line.len + 1);
                found[i] = line;
                rest = later;
            }
            None => return i,
        }
    }
    found.len()
}

impl Ahead {
    /// No line is looked at.
    ///
    /// Proved:
    ///
    /// ```text
    /// result ≡ []
    /// ```
    #[inline]
    pub fn new() -> Ahead {
        Ahead {
            found: [NOT_FOUND; MOST],
            next: 0,
            count: 0,
        }
    }

    /// Takes the first of the lines.
    ///
    /// Proved:
    ///
    /// ```text
    /// some: IfSome result (λ found. self.old ≡ found ∷ self.new)
    /// none: IfNone result (self.old ≡ [])
    /// kept: IfNone result (self.new ≡ self.old)
    /// ```
    #[inline]
    fn pop(&mut self) -> Option<Found> {
        if self.next == self.count {
            return None;
        }
        let found = self.found[self.next];
        self.next += 1;
        Some(found)
    }

    /// The first line of the rest, in which the lines that are looked at are the first.
    ///
    /// The caller has to see to it that:
    ///
    /// ```text
    /// AreNext eol (T.tag_of task.now) rest.now self.old
    /// ```
    ///
    /// Proved:
    ///
    /// ```text
    /// found: IfSome result (IsFound eol (T.tag_of task.now) rest.now)
    /// next: IfSome result (λ found. AreNext eol (T.tag_of task.now) (drop (found.len + 1) rest.now)
    ///     self.new)
    /// none: IfNone result (IsBare eol rest.now)
    /// ```
    #[inline(always)]
    pub fn next<T: LineTask>(&mut self, task: &T, rest: &[u8], eol: u8) -> Option<Found> {
        if let Some(found) = self.pop() {
            return Some(found);
        }
        if !task.waits_for_memory() {
            let found = first(task, rest, eol)?;
            return Some(found);
        }
        self.count = look(task, rest, eol, &mut self.found);
        self.next = 0;
        self.pop()
    }
}
