//! What a check of files finds, on standard error.

// What follows is the proved text of crates/hashsum_core/src/disk.rt without its contracts.
use crate::cli;
use hashers_proved::shim::{HostRuntime, eprintln, std};

use crate::hashsum_core::check::Counts;
use crate::hashsum_core::hints::Hint;
use crate::hashsum_core::reports::Reports;
use cli::folder::Folder;
use cli::quoted::quoted;
use std::io;
use std::io::{Error, Read};

/// The files of a folder, and what a check of them finds, which is told on standard error.
pub struct Checked<'r, F> {
    rt: &'r HostRuntime,
    program: &'r str,
    folder: F,
    status: bool,
}

impl<'r, F> Checked<'r, F> {
    /// For the program of that name. Without warnings, where the status alone tells.
    ///
    /// Proved:
    ///
    /// ```text
    /// result.folder ≡ folder
    /// ```
    #[inline]
    pub fn new(rt: &'r HostRuntime, program: &'r str, folder: F, status: bool) -> Checked<'r, F> {
        Checked {
            rt,
            program,
            folder,
            status,
        }
    }

    /// Warns of so many of something in a list.
    #[inline]
    fn warn(&self, count: u64, one: &str, more: &str) {
        let program = self.program;
        let _ = match count {
            0 => return,
            1 => eprintln!(self.rt; "{program}: WARNING: 1 {one}"),
            _ => eprintln!(self.rt; "{program}: WARNING: {count} {more}"),
        };
    }
}

impl<R: Read, F: Folder<R>> Folder<R> for Checked<'_, F> {
    #[inline]
    fn open(&self, name: &[u8]) -> io::Result<R> {
        self.folder.open(name)
    }

    #[inline]
    fn failed(&self, name: &[u8], error: &Error) {
        self.folder.failed(name, error);
    }
}

impl<F> Reports for Checked<'_, F> {
    #[inline]
    fn improper(&self, list: &[u8], line: u64) {
        let program = self.program;
        if let Ok(list) = quoted(self.rt.alloc(), list) {
            let _ = eprintln!(self.rt; "{program}: {list}: {line}: improperly formatted line");
        }
    }

    #[inline]
    fn hints(&self, list: &[u8], hint: Hint) {
        if self.status {
            return;
        }
        let words = match hint {
            Hint::Short => "lines of 16 digits do not name their hash; try -a xxh64",
            Hint::Long => "lines of 32 digits were taken for spooky128; try -a xxh128, or md5sum",
        };
        let program = self.program;
        if let Ok(list) = quoted(self.rt.alloc(), list) {
            let _ = eprintln!(self.rt; "{program}: {list}: {words}");
        }
    }

    #[inline]
    fn ended(&self, list: &[u8], counts: &Counts) {
        let proper = counts.same > 0
            || counts.different > 0
            || counts.unread > 0
            || counts.missing > 0
            || counts.unkeyed > 0;
        let program = self.program;
        if let Ok(list) = quoted(self.rt.alloc(), list) {
            if !proper {
                let _ = eprintln!(self.rt; "{program}: {list}: no properly formatted lines found");
                return;
            }
            if self.status {
                return;
            }
            self.warn(
                counts.improper,
                "line is improperly formatted",
                "lines are improperly formatted",
            );
            self.warn(
                counts.unread,
                "listed file could not be read",
                "listed files could not be read",
            );
            self.warn(
                counts.different,
                "computed hash did NOT match",
                "computed hashes did NOT match",
            );
            if counts.unkeyed > 0 {
                let _ = eprintln!(self.rt;
                    "{program}: {list}: lines of poly61 and siphash24 need --key-file"
                );
            } else if counts.same == 0 && counts.different == 0 && counts.unread == 0 {
                let _ = eprintln!(self.rt; "{program}: {list}: no file was verified");
            }
        }
    }
}
