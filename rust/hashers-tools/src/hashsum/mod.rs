//! `hashsum` writes a line for each of its files with its hash, and `hashsum -c` reads such lines and checks the files.

// What follows is the proved text of crates/hashsum/src/main.rt without its contracts.
use crate::{cli, hashsum_core};
use hashers_proved::{hash_lines, streams};
use hashers_proved::shim::{HostRuntime, String, Vec, format, std};

use cli::call::Call;
use cli::folder::Disk;
use cli::frame::{About, wrong_word};
use cli::help::help_for;
use cli::opened::Opened;
use cli::program::{BUFFER, Program, run};
use cli::progress::Shown;
use hash_lines::sums::{SUMS, Sum};
use hashsum_core::disk::Checked;
use hashsum_core::laws::seen;
use hashsum_core::outcome::{Misuse, Outcome, Wrong, call_of, options, outcome_of};
use std::alloc::{AllocError, Global};
use std::fs::File;
use std::io;
use std::io::{BufWriter, Stdin};
use std::process::ExitCode;
use streams::failure::Nothing;

/// The program's name.
const NAME: &str = "hashsum";

/// What stands in front of the options in the help.
const FRONT: &str = "usage: hashsum [-a NAME] [--key-file FILE] [--tag | --untagged] [-z] [FILE..]
       hashsum -c [-a NAME] [--key-file FILE] [--quiet] [--status] [--strict]
               [--ignore-missing] [-w] [FILE..]

Print a line for each file, NAME (file) = hexadecimal, or with -c check the
files of such lines. With no FILE, or when FILE is -, read standard input.
The exit status is 0, 1 if a file or a check failed, 2 if the call is wrong.

";

/// Which version this is.
const VERSION: &str = "hashsum of hashers 0.1.0
License: MIT
";

/// Which hashes there are.
#[inline]
fn list(alloc: Global) -> Result<String, AllocError> {
    let mut list = String::new(alloc);
    list.push_str("NAME        BITS CUTS  A CHECK SEES, IN A FILE OF THE SAME LENGTH\n")?;
    for sum in &SUMS {
        let (bits, cuts) = match sum {
            Sum::Table(kind) => (kind.row().bits, kind.row().cuts),
            Sum::Wide(_) => (128, false),
            Sum::Poly61 => (122, false),
            Sum::SipHash24 => (64, false),
        };
        let cuts = if cuts { "yes" } else { "no" };
        let line = format!(in alloc;
            "{:<12} {:>3} {:<4}  {}\n",
            sum.name(),
            bits,
            cuts,
            seen::<Opened<Stdin, File>, Disk<'_>>(*sum)
        )?;
        list.push_str(line.as_str())?;
    }
    Ok(list)
}

/// The program.
struct Hashsum;

impl Program for Hashsum {
    type Misuse = Misuse;

    type Own = Nothing;

    #[inline]
    fn name() -> &'static str {
        NAME
    }

    #[inline]
    fn call_of<'a>(alloc: Global, words: &'a [Vec<u8>]) -> Result<Call<'a>, AllocError> {
        call_of(alloc, words)
    }

    #[inline]
    fn outcome_of<'a>(rt: &'a HostRuntime, call: &Call<'a>) -> io::Result<Outcome> {
        let alloc = rt.alloc();
        let help = help_for(alloc, call, FRONT, &options(), "")?;
        let list = if call.gives(b"list") {
            list(alloc)?
        } else {
            String::new(alloc)
        };
        let about = About {
            help: help.as_str(),
            version: VERSION,
            list: list.as_str(),
        };
        let status = call.gives(b"status");
        let folder = Shown::new(rt, Disk::new(rt, NAME), call.gives(b"quiet") || status);
        Ok(outcome_of(
            alloc,
            &Checked::new(rt, NAME, folder, status),
            call,
            about,
            &mut BufWriter::with_capacity(alloc, BUFFER, rt.stdout())?,
        ))
    }

    #[inline]
    fn word_of<'a>(_alloc: Global, call: &Call<'a>, outcome: &Outcome) -> Option<&'a [u8]> {
        match outcome {
            Outcome::Usage(Wrong::UnknownName) => call.value(b"algorithm"),
            _ => wrong_word(call),
        }
    }
}

#[inline]
pub fn main(rt: HostRuntime) -> ExitCode {
    run::<Hashsum>(&rt)
}
