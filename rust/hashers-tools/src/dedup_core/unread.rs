//! The bytes that were read and are not taken yet.

// What follows is the proved text of crates/dedup_core/src/unread.rt without its contracts.
// The clauses of fill name due.
#![allow(unused_variables)]
use hashers_proved::{streams, text_set};
use hashers_proved::shim::{Vec, std};

use crate::dedup_core::failure::Failure;
use std::alloc::Global;
use std::io;
use std::io::{BufWriter, Error, Read, Write};
use streams::tries::{TRIES, read_some};
use text_set::lines::line_end;

/// How many bytes are there at most, unless a line is longer than half of them.
pub const BUFFER: usize = 65536;

/// What came of reading on.
pub enum NextLine {
    /// The end of a line, which is among the bytes.
    Line,
    /// The end of the input. The bytes are its last line, which has no end, or none.
    End,
    /// A fault. The bytes are a line that it broke, or none.
    Failure(Error),
}

/// Bytes that were read and are not taken yet: what is left of the last line, and what was read after it.
pub struct Unread {
    bytes: Vec<u8>,
    from: usize, // how many bytes are taken
    to: usize, // how many bytes were read
}

/// Moves the bytes of a range to the front.
///
/// The caller has to see to it that:
///
/// ```text
/// rises: from ≤ to
/// within: to ≤ length bytes.old.items
/// ```
///
/// Proved:
///
/// ```text
/// kept: take (to - from) bytes.new.items ≡ take (to - from) (drop from bytes.old.items)
/// len: length bytes.new.items ≡ length bytes.old.items
/// ```
#[inline]
fn to_front(bytes: &mut Vec<u8>, from: usize, to: usize) {
    if from > 0 {
        bytes.as_mut_slice().copy_within(from..to, 0);
    }
}

/// Makes room after so many bytes: half of `BUFFER` at least. What it adds is filled with zero bytes, so it adds little: a long line then
/// takes its own length in memory, and `Vec` sees to it that few of these calls move it.
///
/// The caller has to see to it that:
///
/// ```text
/// to ≤ length bytes.old.items
/// ```
///
/// Proved:
///
/// ```text
/// room: OnOk result (to < length bytes.new.items)
/// kept: OnOk result (take to bytes.new.items ≡ take to bytes.old.items)
/// err: OnErr result (bytes.new.items ≡ bytes.old.items)
/// ```
#[inline]
fn make_room(bytes: &mut Vec<u8>, to: usize) -> Result<(), Failure> {
    let len = bytes.len();
    if len - to < BUFFER / 2 {
        match len.checked_add(BUFFER) {
            Some(more) => bytes.resize(more, 0)?,
            None => return Err(Failure::NoMemory),
        }
    }
    Ok(())
}

/// Reads once, and puts what was read after so many bytes.
///
/// The caller has to see to it that:
///
/// ```text
/// to < length bytes.old
/// ```
///
/// Proved:
///
/// ```text
/// within: IfOk result (λ n. to + n ≤ length bytes.new)
/// read: IfOk result (λ n. ReadsSome (take to bytes.old) (take (to + n) bytes.new)
///     (R.remaining r.old) (R.remaining r.new) n)
/// kept: OnErr result (take to bytes.new ≡ take to bytes.old)
/// err: OnErr result (Keeps (R.remaining r.old) (R.remaining r.new))
/// ```
#[inline]
fn read_behind<R: Read>(bytes: &mut [u8], to: usize, r: &mut R) -> io::Result<usize> {
    read_some(r, &mut bytes[to..], TRIES)
}

impl Unread {
    /// No bytes.
    ///
    /// Proved:
    ///
    /// ```text
    /// result ≡ []
    /// ```
    #[inline]
    pub fn new(alloc: Global) -> Unread {
        Unread {
            bytes: Vec::new(alloc),
            from: 0,
            to: 0,
        }
    }

    /// The bytes.
    ///
    /// Proved:
    ///
    /// ```text
    /// result.now ≡ self.now
    /// ```
    #[inline]
    pub fn bytes(&self) -> &[u8] {
        &self.bytes[self.from..self.to]
    }

    /// Takes so many bytes from the front.
    ///
    /// The caller has to see to it that:
    ///
    /// ```text
    /// n ≤ length self.old
    /// ```
    ///
    /// Proved:
    ///
    /// ```text
    /// self.new ≡ drop n self.old
    /// ```
    #[inline]
    pub fn pass(&mut self, n: usize) {
        self.from += n;
    }

    /// Takes all bytes.
    ///
    /// Proved:
    ///
    /// ```text
    /// self.new ≡ []
    /// ```
    #[inline]
    pub fn clear(&mut self) {
        self.from = self.to;
    }

    /// Reads once.
    ///
    /// Proved:
    ///
    /// ```text
    /// IfOk result (λ read. MatchResult read
    ///     (ReadsSome self.old self.new (R.remaining r.old) (R.remaining r.new))
    ///     (λ _. (self.new ≡ self.old) × Keeps (R.remaining r.old) (R.remaining r.new)))
    /// ```
    #[inline]
    fn read<R: Read>(&mut self, r: &mut R) -> Result<io::Result<usize>, Failure> {
        to_front(&mut self.bytes, self.from, self.to);
        self.to -= self.from;
        self.from = 0;
        make_room(&mut self.bytes, self.to)?;
        match read_behind(self.bytes.as_mut_slice(), self.to, r) {
            Ok(n) => {
                self.to += n;
                Ok(Ok(n))
            }
            Err(error) => Ok(Err(error)),
        }
    }

    /// Reads until the end of a line came, or to the end or a fault of the input, where nothing that is due is held back.
    /// What was there is kept at the front.
    ///
    /// The caller has to see to it that:
    ///
    /// ```text
    /// writer_buffer due.now ≡ []
    /// ```
    ///
    /// Proved:
    ///
    /// ```text
    /// IfOk result (Filled eol self.old self.new (R.remaining r.old) (R.remaining r.new))
    /// ```
    #[inline]
    pub fn fill<R: Read, W: Write>(
        &mut self,
        eol: u8,
        r: &mut R,
        due: &BufWriter<W>,
    ) -> Result<NextLine, Failure> {
        loop {
            let len = self.bytes().len();
            match self.read(r)? {
                Ok(0) => return Ok(NextLine::End),
                Ok(_) => {}
                Err(error) => return Ok(NextLine::Failure(error)),
            }
            if line_end(&self.bytes()[len..], eol).is_some() {
                return Ok(NextLine::Line);
            }
        }
    }
}
