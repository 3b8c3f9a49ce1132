//! Reads and writes, tried again where they were interrupted.

// What follows is the proved text of crates/streams/src/tries.rt without its contracts.
use crate::shim::std;

use crate::streams::failure::Failure;
use std::io;
use std::io::{BufWriter, ErrorKind, Read, Write};

/// How often a read or a write that was interrupted is tried again, unless a program says otherwise.
pub const TRIES: u32 = 1000000;

/// Reads once, and up to so many times again where that was interrupted. A read that fails takes nothing.
///
/// Proved:
///
/// ```text
/// most: IfOk result (λ n. n ≤ length room.new)
/// read: IfOk result (λ n. Consumes (R.remaining r.old) (R.remaining r.new) (take n room.new))
/// end: IfOk result (λ n. n ≡ 0 → 0 < length room.new → IsAtEnd (R.remaining r.new))
/// err: OnErr result (Keeps (R.remaining r.old) (R.remaining r.new))
/// ```
#[inline]
pub fn read_some<R: Read>(r: &mut R, room: &mut [u8], tries: u32) -> io::Result<usize> {
    let mut left = tries;
    loop {
        match r.read(room) {
            Ok(n) => return Ok(n),
            Err(error) => {
                if left == 0 || error.kind() != ErrorKind::Interrupted {
                    return Err(error);
                }
            }
        }
        left -= 1;
    }
}

/// Writes all of the bytes, and tries up to so many times again where a write was interrupted. After a fault a beginning of them was
/// written.
///
/// Proved:
///
/// ```text
/// ok: OnOk result (Appends (W.contents w.old) (W.contents w.new) bytes.now)
/// err: OnErr result (AppendsPart (W.contents w.old) (W.contents w.new) bytes.now)
/// unwritten: IfErr result IsUnwritten
/// ```
#[inline]
pub fn write_all<W: Write, Own>(w: &mut W, bytes: &[u8], tries: u32) -> Result<(), Failure<Own>> {
    let mut rest = bytes;
    let mut left = tries;
    while !rest.is_empty() {
        match w.write(rest) {
            Ok(0) => return Err(Failure::Unwritten(None)),
            Ok(n) => rest = &rest[n..],
            Err(error) => {
                if left == 0 || error.kind() != ErrorKind::Interrupted {
                    return Err(Failure::Unwritten(Some(error)));
                }
                left -= 1;
            }
        }
    }
    Ok(())
}

/// Flushes the writer, so that nothing is held back, and tries up to so many times again where that was interrupted.
///
/// Proved:
///
/// ```text
/// kept: Keeps (writer_contents W.contents w.old) (writer_contents W.contents w.new)
/// flushed: OnOk result (writer_buffer w.new ≡ [])
/// unwritten: IfErr result IsUnwritten
/// ```
#[inline]
pub fn flush<W: Write, Own>(w: &mut BufWriter<W>, tries: u32) -> Result<(), Failure<Own>> {
    let mut left = tries;
    loop {
        match w.flush() {
            Ok(()) => return Ok(()),
            Err(error) => {
                if left == 0 || error.kind() != ErrorKind::Interrupted {
                    return Err(Failure::Unwritten(Some(error)));
                }
            }
        }
        left -= 1;
    }
}

/// Writes all of the bytes and flushes, so that nothing is held back, each tried again where it was interrupted. After a fault a
/// beginning of them was written.
///
/// Proved:
///
/// ```text
/// told: WritesOut bytes.now (writer_contents W.contents w.old) (writer_contents W.contents w.new) result
/// flushed: OnOk result (writer_buffer w.new ≡ [])
/// ```
#[inline]
pub fn write_out<W: Write, Own>(
    w: &mut BufWriter<W>,
    bytes: &[u8],
) -> Result<(), Failure<Own>> {
    write_all(w, bytes, TRIES)?;
    flush(w, TRIES)
}
