//! A run: reads the keys, and writes the table.

// What follows is the proved text of crates/spread/src/run.rt without its contracts.
use crate::{cli, spread_core};
use hashers_proved::{hash_kinds, streams, text_set};
use hashers_proved::shim::{HostRuntime, Vec, std};

use crate::spread::clock::time_of;
use crate::spread::picture::picture;
use crate::spread::table::Frame;
use cli::folder::{Disk, Folder};
use cli::opened::STANDARD;
use cli::progress::{Progress, Shown};
use hash_kinds::table::Kind;
use spread_core::advice::advise;
use spread_core::call::Settings;
use spread_core::failure::{Failure, NoTable};
use spread_core::keys::{Layout, read_keys};
use spread_core::named::Hashed;
use spread_core::rows::{TableRow, row_of};
use spread_core::sizes::sizes_of;
use std::fs::{File, OpenOptions};
use std::io;
use std::io::{BufReader, BufWriter, Error, ErrorKind, IsTerminal, Stdout};
use streams::tries::{TRIES, write_all, write_out};
use text_set::{RandomKeys, Texts};

/// How many bytes are read at once.
const BUFFER: usize = 65536;

/// The keys of standard input, each once.
#[inline]
fn keys_of_input(rt: &HostRuntime, layout: Layout) -> Result<Texts<RandomKeys>, Failure> {
    let alloc = rt.alloc();
    let hasher = match RandomKeys::new(rt) {
        Ok(hasher) => hasher,
        Err(error) => return Err(Failure::Unread(error)),
    };
    let mut keys = Texts::new(alloc, hasher);
    let input = match Shown::new(rt, Disk::new(rt, "spread"), false).open(STANDARD) {
        Ok(input) => input,
        Err(error) => return Err(Failure::Unread(error)),
    };
    match BufReader::with_capacity(alloc, BUFFER, input) {
        Ok(mut reader) => read_keys(alloc, &mut keys, layout, &mut reader)?,
        Err(_) => return Err(Failure::NoMemory),
    }
    Ok(keys)
}

/// Writes the row of each hasher as soon as it is done, and the head in front of the first: where there is no memory for that row,
/// nothing is written.
///
/// Proved:
///
/// ```text
/// OnOk result (writer_buffer w.old ≡ [] → writer_buffer w.new ≡ [])
/// ```
fn tell_rows(
    rt: &HostRuntime,
    kinds: &[Kind],
    frame: &Frame,
    hashed: &mut Hashed,
    w: &mut BufWriter<Stdout>,
) -> Result<Vec<TableRow>, Failure> {
    let mut progress = Progress::new(rt, rt.stderr().is_terminal());
    let mut rows = Vec::new(rt.alloc());
    for (done, kind) in kinds.iter().enumerate() {
        progress.show(done as u64, "hashers done");
        let time = if frame.times {
            time_of(rt, *kind, hashed)?
        } else {
            None
        };
        let row = row_of(rt.alloc(), *kind, frame.sizes, time, hashed)?;
        progress.clear();
        if done == 0 {
            write_out(w, frame.head(rt.alloc())?.as_bytes())?;
        }
        write_out(w, frame.row(rt.alloc(), &row)?.as_bytes())?;
        if rows.push(row).is_err() {
            return Err(Failure::NoMemory);
        }
    }
    progress.clear();
    Ok(rows)
}

/// Writes what chance gives, for hashes of each number of bits that a row has.
///
/// Proved:
///
/// ```text
/// OnOk result (writer_buffer w.old ≡ [] → writer_buffer w.new ≡ [])
/// ```
#[inline]
fn tell_chance(
    rt: &HostRuntime,
    rows: &[TableRow],
    frame: &Frame,
    w: &mut BufWriter<Stdout>,
) -> Result<(), Failure> {
    for bits in [0, 28, 32, 64] {
        if rows.iter().any(|row| row.kind.row().bits == bits) {
            write_out(w, frame.chance(rt.alloc(), bits)?.as_bytes())?;
        }
    }
    Ok(())
}

/// Writes which hash is advised.
///
/// Proved:
///
/// ```text
/// OnOk result (writer_buffer w.new ≡ [])
/// ```
#[inline]
fn tell_advice(
    rt: &HostRuntime,
    rows: &[TableRow],
    frame: &Frame,
    w: &mut BufWriter<Stdout>,
) -> Result<(), Failure> {
    let line = advise(frame.keys, rows).line(rt.alloc())?;
    write_out(w, line.as_bytes())
}

/// Where the picture goes.
enum Canvas {
    /// To standard output, after the table.
    Standard,
    /// Into a file.
    File(File),
}

/// Opens the file of that name for the picture, and leaves what it has until that is drawn; `-` is standard output.
#[inline]
fn open_canvas(rt: &HostRuntime, name: &[u8]) -> io::Result<Canvas> {
    if name == STANDARD {
        return Ok(Canvas::Standard);
    }
    let Ok(path) = str::from_utf8(name) else {
        return Err(Error::new(ErrorKind::InvalidInput, "file name is not valid UTF-8"));
    };
    let mut options = OpenOptions::new();
    options.write(true).create(true);
    Ok(Canvas::File(options.open(rt, path)?))
}

/// Where the picture goes, if one is asked for.
#[inline]
fn canvas_of(rt: &HostRuntime, plot: Option<&[u8]>) -> Result<Option<Canvas>, Failure> {
    let Some(name) = plot else {
        return Ok(None);
    };
    match open_canvas(rt, name) {
        Ok(canvas) => Ok(Some(canvas)),
        Err(error) => Err(Failure::Own(NoTable::Undrawn(error))),
    }
}

/// Writes a text into the file, in place of what it has.
#[inline]
fn fill(file: &mut File, text: &str) -> io::Result<()> {
    if file.metadata()?.is_file() {
        file.set_len(0)?;
    }
    let filled: Result<(), Failure> = write_all(file, text.as_bytes(), TRIES);
    match filled {
        Ok(()) => Ok(()),
        Err(Failure::Unwritten(Some(error))) => Err(error),
        Err(_) => Err(Error::new(ErrorKind::WriteZero, "no bytes were written")),
    }
}

/// Draws the picture.
///
/// Proved:
///
/// ```text
/// OnOk result (writer_buffer w.old ≡ [] → writer_buffer w.new ≡ [])
/// ```
#[inline]
fn draw(canvas: Canvas, text: &str, w: &mut BufWriter<Stdout>) -> Result<(), Failure> {
    match canvas {
        Canvas::Standard => write_out(w, text.as_bytes()),
        Canvas::File(mut file) => match fill(&mut file, text) {
            Ok(()) => Ok(()),
            Err(error) => Err(Failure::Own(NoTable::Undrawn(error))),
        },
    }
}

/// Opens the picture's file if one is asked for, reads the keys, and writes the table and the picture. Nothing that it wrote is held
/// back.
///
/// Proved:
///
/// ```text
/// OnOk result (writer_buffer w.old ≡ [] → writer_buffer w.new ≡ [])
/// ```
pub fn tell_table(
    rt: &HostRuntime,
    settings: &Settings,
    kinds: &[Kind],
    plot: Option<&[u8]>,
    w: &mut BufWriter<Stdout>,
) -> Result<(), Failure> {
    let canvas = canvas_of(rt, plot)?;
    let keys = keys_of_input(rt, settings.layout)?;
    if keys.is_empty() {
        return Err(Failure::Own(NoTable::NoKeys));
    }
    let frame = Frame {
        keys: keys.len() as u64,
        sizes: sizes_of(
            keys.len() as u64,
            settings.buckets.map(|buckets| buckets.get() as u64),
        ),
        times: settings.times,
    };
    let mut hashed = Hashed {
        keys,
        hashes: Vec::new(rt.alloc()),
    };
    let rows = tell_rows(rt, kinds, &frame, &mut hashed, w)?;
    tell_chance(rt, &rows, &frame, w)?;
    if settings.times {
        tell_advice(rt, &rows, &frame, w)?;
    }
    match canvas {
        Some(canvas) => draw(canvas, picture(rt.alloc(), &frame, &rows)?.as_str(), w),
        None => Ok(()),
    }
}
