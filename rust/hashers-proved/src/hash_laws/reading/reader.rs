//! The hash of what a reader gives, read through one fixed array, however the reader delivers it.

// What follows is the proved text of crates/hash_laws/src/reading/reader.rt without its contracts.
use crate::std;

use crate::hash_laws::traits::{Piecewise, Streamed};
use std::error::Error as StdError;
use std::fmt;
use std::fmt::{Debug, Display, Formatter};
use std::io::{Error, Read, Result as IoResult};

/// What was read without a fault.
pub struct Taken {
    /// How many bytes this call read.
    pub bytes: u64,
    /// Whether a read reported the end; `false` exactly where as many bytes were read as the limit allows.
    pub ended: bool,
}

/// A read failed. All bytes read before it have been fed.
pub struct Fault {
    /// How many bytes this call read before.
    pub bytes: u64,
    /// What the read answered.
    pub error: Error,
}

/// Says how many bytes were read before, and what the read answered.
impl Display for Fault {
    #[inline]
    fn fmt(&self, f: &mut Formatter) -> fmt::Result {
        write!(
            f,
            "a read failed after {} bytes: {}",
            self.bytes, self.error
        )
    }
}

/// The same, with what the read answered in its own form for programmers.
impl Debug for Fault {
    #[inline]
    fn fmt(&self, f: &mut Formatter) -> fmt::Result {
        write!(
            f,
            "a read failed after {} bytes: {:?}",
            self.bytes, self.error
        )
    }
}

impl StdError for Fault {}

/// What the read answered, so that `?` hands a fault on where an `io::Error` is returned.
impl From<Fault> for Error {
    #[inline]
    fn from(fault: Fault) -> Error {
        fault.error
    }
}

/// Reads until the buffer is full, the input ends or a read fails, and counts the bytes.
///
/// Proved:
///
/// ```text
/// within: result.0 ≤ length buf.new
/// read: Consumes (R.remaining r.old) (R.remaining r.new) (take result.0 buf.new)
/// end: OnOk result.1 (result.0 < length buf.new → IsAtEnd (R.remaining r.new))
/// fault: OnErr result.1 (result.0 < length buf.new)
/// ```
#[inline]
pub fn fill<R: Read>(r: &mut R, buf: &mut [u8]) -> (usize, IoResult<()>) {
    let mut filled = 0;
    while filled < buf.len() {
        match r.read(&mut buf[filled..]) {
            Ok(0) => return (filled, Ok(())),
            Ok(n) => filled += n,
            Err(error) => return (filled, Err(error)),
        }
    }
    (filled, Ok(()))
}

/// Feeds the piece, unless it is empty.
///
/// Proved:
///
/// ```text
/// untouched: length piece.now ≡ 0 → h.new ≡ h.old
/// fed: 0 < length piece.now → H.state h.new ≡ H.after (H.state h.old) piece.now
/// text: IsText piece.now
/// ```
#[inline]
fn feed_unless_empty<H: Piecewise>(h: &mut H, piece: &[u8]) {
    if !piece.is_empty() {
        h.feed(piece);
    }
}

/// Reads to the end, or up to `limit` bytes, and feeds the hasher what was read: pieces of `N` bytes each, the last
/// shorter and not empty, however the reader delivers them.
///
/// Each read asks for the lesser of what is free in the array of `N` bytes and what is left of the limit, never for
/// nothing; a read of 0 bytes is the end. No memory is taken. It returns over every reader, after at most `limit`
/// reads. A read's error, `Interrupted` too, ends the call with a [`Fault`]: all bytes read before it have been fed,
/// what was not read is still unread, and a later call goes on from there.
///
/// The caller has to see to it that:
///
/// ```text
/// not_empty: 0 < N
/// small: N ≤ 65536
/// ```
///
/// Proved:
///
/// ```text
/// taken: IfOk result (λ taken. FeedsRead H.after N (R.remaining r.old) (R.remaining r.new)
///     (H.state h.old) (H.state h.new) taken.bytes)
/// fault: IfErr result (λ fault. FeedsRead H.after N (R.remaining r.old) (R.remaining r.new)
///     (H.state h.old) (H.state h.new) fault.bytes)
/// first_taken: IfOk result (λ taken. FeedsFirst H.after N (R.remaining r.old)
///     (H.state h.old) (H.state h.new) taken.bytes)
/// first_fault: IfErr result (λ fault. FeedsFirst H.after N (R.remaining r.old)
///     (H.state h.old) (H.state h.new) fault.bytes)
/// all: IfOk result (λ taken. IsTrue taken.ended
///     → FeedsAll H.after N (R.remaining r.old) (H.state h.old) (H.state h.new))
/// within: IfOk result (λ taken. taken.bytes ≤ limit)
/// at_limit: IfOk result (λ taken. (taken.ended ≡ false) ↔ (taken.bytes ≡ limit))
/// nothing_left: IfOk result (λ taken. IsTrue taken.ended → IsAtEnd (R.remaining r.new))
/// before_limit: IfErr result (λ fault. fault.bytes < limit)
/// ```
#[inline]
pub fn hash_reader<H: Piecewise, R: Read, const N: usize>(
    h: &mut H,
    r: &mut R,
    limit: u64,
) -> Result<Taken, Fault> {
    const { assert!(0 < N) };
    let mut piece = [0u8; N];
    let mut bytes: u64 = 0;
    while bytes < limit {
        let room = (limit - bytes).min(N as u64) as usize;
        let (filled, outcome) = fill(r, &mut piece[..room]);
        bytes += filled as u64;
        feed_unless_empty(h, &piece[..filled]);
        if let Err(error) = outcome {
            return Err(Fault { bytes, error });
        }
        if filled < room {
            return Ok(Taken { bytes, ended: true });
        }
    }
    Ok(Taken {
        bytes,
        ended: false,
    })
}

/// `hash_reader` for a hasher for which the split does not matter: its state is then that after the text that was read, however it came,
/// and it stands after that text.
///
/// The caller has to see to it that:
///
/// ```text
/// not_empty: 0 < N
/// small: N ≤ 65536
/// ```
///
/// Proved:
///
/// ```text
/// taken: IfOk result (λ taken. HashesRead H.state H.after H.stands_at (R.remaining r.old)
///     (R.remaining r.new) h.old h.new taken.bytes)
/// fault: IfErr result (λ fault. HashesRead H.state H.after H.stands_at (R.remaining r.old)
///     (R.remaining r.new) h.old h.new fault.bytes)
/// up_to_limit: IfOk result (λ taken. HashesFirst H.after (R.remaining r.old)
///     (H.state h.old) (H.state h.new) limit)
/// stands: IfOk result (λ taken. StandsFirst H.stands_at (R.remaining r.old) h.old h.new limit)
/// short: IfOk result (λ taken. (text : List ℕ) → R.remaining r.old ≡ Some text
///     → (IsTrue taken.ended ↔ (length text < limit)))
/// count: IfOk result (λ taken. (text : List ℕ) → R.remaining r.old ≡ Some text
///     → taken.bytes ≡ min limit (length text))
/// first_taken: IfOk result (λ taken. HashesFirst H.after (R.remaining r.old)
///     (H.state h.old) (H.state h.new) taken.bytes)
/// first_fault: IfErr result (λ fault. HashesFirst H.after (R.remaining r.old)
///     (H.state h.old) (H.state h.new) fault.bytes)
/// stands_fault: IfErr result (λ fault. StandsFirst H.stands_at (R.remaining r.old)
///     h.old h.new fault.bytes)
/// all: IfOk result (λ taken. IsTrue taken.ended
///     → HashesAll H.after (R.remaining r.old) (H.state h.old) (H.state h.new))
/// within: IfOk result (λ taken. taken.bytes ≤ limit)
/// at_limit: IfOk result (λ taken. (taken.ended ≡ false) ↔ (taken.bytes ≡ limit))
/// nothing_left: IfOk result (λ taken. IsTrue taken.ended → IsAtEnd (R.remaining r.new))
/// before_limit: IfErr result (λ fault. fault.bytes < limit)
/// ```
#[inline]
pub fn hash_stream<H: Streamed, R: Read, const N: usize>(
    h: &mut H,
    r: &mut R,
    limit: u64,
) -> Result<Taken, Fault> {
    const { assert!(0 < N) };
    h.state_in_range();
    hash_reader::<H, R, N>(h, r, limit)
}
