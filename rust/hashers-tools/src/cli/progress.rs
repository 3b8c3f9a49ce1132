//! Progress on standard error, where that is a terminal and something takes longer than a second.

// What follows is the proved text of crates/cli/src/progress.rt without its contracts.
use hashers_proved::streams;
use hashers_proved::shim::{HostRuntime, eprint, std};

use crate::cli::folder::Folder;
use crate::cli::opened::Measured;
use std::io;
use std::io::{Error, IsTerminal, Read, Stdout, Write};
use std::time::Instant;
use streams::tries::{TRIES, read_some};

/// How many milliseconds pass before progress is shown.
const PATIENCE: u64 = 1000;

/// How many milliseconds later it is shown again.
const PAUSE: u64 = 200;

/// What takes away what was shown.
const BLANKS: &str = "\r                                        \r";

/// When progress is due, and whether it stands on the terminal.
pub struct Progress<'r> {
    rt: &'r HostRuntime,
    begun: Option<Instant>, // none where no progress is shown
    shown: u64, // after how many milliseconds it was shown last, or 0
}

impl<'r> Progress<'r> {
    /// Nothing is done yet. It is shown only where that is wanted: where standard error `is_terminal`, and nobody wants quiet.
    #[inline]
    pub fn new(rt: &'r HostRuntime, is_wanted: bool) -> Progress<'r> {
        let begun = if is_wanted {
            Instant::now(rt).ok()
        } else {
            None
        };
        Progress {
            rt,
            begun,
            shown: 0,
        }
    }

    /// How many milliseconds passed, if progress is to be shown now.
    #[inline]
    fn due(&mut self) -> Option<u64> {
        let passed = self.begun?.elapsed(self.rt).ok()?.as_millis();
        let passed = u64::try_from(passed).unwrap_or(u64::MAX);
        if passed < self.shown.saturating_add(PAUSE).max(PATIENCE) {
            return None;
        }
        self.shown = passed;
        Some(passed)
    }

    /// Shows how many of something are done, if that is due.
    #[inline]
    pub fn show(&mut self, done: u64, words: &str) {
        if self.due().is_some() {
            let _ = eprint!(self.rt; "\r{done} {words}      ");
        }
    }

    /// Takes away what was shown.
    #[inline]
    pub fn clear(&mut self) {
        if self.shown > 0 {
            self.shown = 0;
            let _ = eprint!(self.rt; "{BLANKS}");
        }
    }
}

/// Standard output at a terminal on which progress may stand: that is taken away before each write.
pub struct Cleared<'r> {
    rt: &'r HostRuntime,
    out: Stdout,
    clears: bool,
}

impl<'r> Cleared<'r> {
    /// Standard output. Where progress is shown, and output and progress go to terminals, progress is taken away before each write.
    #[inline]
    pub fn new(rt: &'r HostRuntime, out: Stdout, is_shown: bool) -> Cleared<'r> {
        let clears = is_shown && rt.stderr().is_terminal() && out.is_terminal();
        Cleared { rt, out, clears }
    }
}

impl Write for Cleared<'_> {
    #[inline]
    fn write(&mut self, buf: &[u8]) -> io::Result<usize> {
        if self.clears {
            let _ = eprint!(self.rt; "{BLANKS}");
        }
        self.out.write(buf)
    }

    #[inline]
    fn flush(&mut self) -> io::Result<()> {
        self.out.flush()
    }
}

/// A file that is read with progress. A read that is interrupted is tried again.
pub struct Watched<'r, R: Measured> {
    file: R,
    bytes: u64,
    progress: Progress<'r>,
}

impl<R: Measured> Watched<'_, R> {
    /// Shows how much was read after so many milliseconds, and how long the rest will take.
    #[inline]
    fn show(&self, passed: u64) {
        let mega = self.bytes / 1000000;
        let speed = self.bytes / 1000 / passed.max(1);
        let rt = self.progress.rt;
        let _ = match self.file.size() {
            Some(size) if size > self.bytes => {
                let left = (size - self.bytes) / 1000 / speed.max(1) / 1000;
                eprint!(rt; "\r{mega} MB, {speed} MB/s, {left} s left  ")
            }
            _ => eprint!(rt; "\r{mega} MB, {speed} MB/s  "),
        };
    }
}

impl<R: Measured> Read for Watched<'_, R> {
    #[inline]
    fn read(&mut self, buf: &mut [u8]) -> io::Result<usize> {
        match read_some(&mut self.file, buf, TRIES) {
            Ok(count) if count > 0 => {
                self.bytes = self.bytes.saturating_add(count as u64);
                if let Some(passed) = self.progress.due() {
                    self.show(passed);
                }
                Ok(count)
            }
            ended => {
                self.progress.clear();
                ended
            }
        }
    }
}

/// The files of a folder, read with progress where standard error is a terminal.
pub struct Shown<'r, F> {
    rt: &'r HostRuntime,
    folder: F,
    shows: bool,
}

impl<'r, F> Shown<'r, F> {
    /// Progress is shown unless it is to be quiet.
    ///
    /// Proved:
    ///
    /// ```text
    /// result.folder ≡ folder
    /// ```
    #[inline]
    pub fn new(rt: &'r HostRuntime, folder: F, quiet: bool) -> Shown<'r, F> {
        Shown {
            rt,
            folder,
            shows: !quiet && rt.stderr().is_terminal(),
        }
    }
}

impl<'r, R: Measured, F: Folder<R>> Folder<Watched<'r, R>> for Shown<'r, F> {
    #[inline]
    fn open(&self, name: &[u8]) -> io::Result<Watched<'r, R>> {
        Ok(Watched {
            file: self.folder.open(name)?,
            bytes: 0,
            progress: Progress::new(self.rt, self.shows),
        })
    }

    #[inline]
    fn failed(&self, name: &[u8], error: &Error) {
        self.folder.failed(name, error);
    }
}
