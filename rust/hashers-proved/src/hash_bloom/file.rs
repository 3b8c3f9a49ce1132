//! A filter in a file, to be read back by another run.
//!
//! First stands the line `hashers-bloom 2 BITS PROBES PAIR`: the form's version, the numbers in 16 and in 8 hexadecimal digits, and the
//! names of the two hashers as the caller gives them. Then come the words, each in 8 bytes with the lowest first, and at the end FNV-1a at
//! 64 bits of all before, in 8 bytes like a word.

// What follows is the proved text of crates/hash_bloom/src/file.rt without its contracts.
use crate::{hashers, streams};
use crate::shim::{Vec, std};

use crate::hash_bloom::{Bloom, NoFilter};
use hashers::fnv::FNV1aHasher64;
use hashers::laws::Piecewise;
use std::alloc::Global;
use std::error::Error as StdError;
use std::fmt::{Display, Formatter};
use std::hash::Hasher;
use std::io::{Error, ErrorKind, Read, Write};
use std::{fmt, io};
use streams::failure::Failure;
use streams::hex::{MOST_DIGITS, hex_number, push_hex, put_hex};
use streams::tries::{TRIES, write_all};

/// What the file begins with: whose it is, and its form's version.
const TITLE: &[u8] = b"hashers-bloom ";

const VERSION: &[u8] = b"2 ";

/// Why no filter was read.
#[derive(Debug)]
pub enum Unread {
    /// A read failed, the file ended too early, or there is no memory.
    Failed(Error),
    /// This is no file of a filter in this form.
    Form,
    /// The form is one of another version, whose keys have other places.
    Version,
    /// The filter is one over another pair of hashers.
    Pair,
    /// The hash at the end is another: the file is damaged.
    Hash,
}

impl Display for Unread {
    #[inline]
    fn fmt(&self, f: &mut Formatter) -> fmt::Result {
        match self {
            Unread::Failed(error) => write!(f, "{error}"),
            Unread::Form => write!(f, "this is no file of a filter"),
            Unread::Version => write!(
                f,
                "the file is one of another version: make the filter again"
            ),
            Unread::Pair => write!(f, "the filter is one over other hashers"),
            Unread::Hash => write!(f, "the file is damaged: it has another hash"),
        }
    }
}

impl StdError for Unread {}

impl From<Error> for Unread {
    #[inline]
    fn from(error: Error) -> Unread {
        Unread::Failed(error)
    }
}

/// The first line.
///
/// Proved:
///
/// ```text
/// IfOk result (λ line. line.items ≡ header bits probes pair.now)
/// ```
#[inline]
fn header(alloc: Global, bits: u64, probes: u32, pair: &[u8]) -> io::Result<Vec<u8>> {
    let mut line = Vec::new(alloc);
    line.extend_from_slice(TITLE)?;
    line.extend_from_slice(VERSION)?;
    push_hex(&mut line, 16, u128::from(bits))?;
    line.push(b' ')?;
    push_hex(&mut line, 8, u128::from(probes))?;
    line.push(b' ')?;
    line.extend_from_slice(pair)?;
    line.push(b'\n')?;
    Ok(line)
}

/// What stands at the end: the hash of the first line and the words.
///
/// Proved:
///
/// ```text
/// value: result ≡ seal (header.now ++ bytes_of words.now)
/// words: (i : ℕ) → slice_index words.now i < 2 ^ 64
/// ```
#[inline]
fn seal(header: &[u8], words: &[u64]) -> [u8; 8] {
    let mut hasher = FNV1aHasher64::default();
    hasher.write(header);
    for word in words {
        hasher.write(&word.to_le_bytes());
    }
    hasher.finish().to_le_bytes()
}

/// Reads these bytes. It stops at the first that is another.
///
/// Proved:
///
/// ```text
/// read: OnOk result (Consumes (R.remaining r.old) (R.remaining r.new) text.now)
/// refused: IfErr result (λ why. IsRefusal why → BeginsNot (R.remaining r.old) text.now)
/// ```
#[inline]
fn expect<R: Read>(r: &mut R, text: &[u8], otherwise: Unread) -> Result<(), Unread> {
    for byte in text {
        let mut read = [0u8];
        r.read_exact(&mut read)?;
        if read[0] != *byte {
            return Err(otherwise);
        }
    }
    Ok(())
}

/// Reads what the file begins with.
///
/// Proved:
///
/// ```text
/// read: OnOk result (Consumes (R.remaining r.old) (R.remaining r.new) title)
/// refused: IfErr result (λ why. IsRefusal why → BeginsNot (R.remaining r.old) title)
/// ```
#[inline]
fn read_title<R: Read>(r: &mut R) -> Result<(), Unread> {
    expect(r, TITLE, Unread::Form)?;
    expect(r, VERSION, Unread::Version)
}

/// Reads a number of so many digits and the space behind it.
///
/// The caller has to see to it that:
///
/// ```text
/// DIGITS ≤ 32
/// ```
///
/// Proved:
///
/// ```text
/// small: IfOk result (λ number. number < 16 ^ DIGITS)
/// read: IfOk result (λ number. Consumes (R.remaining r.old) (R.remaining r.new) (field DIGITS number))
/// refused: IfErr result (λ why. IsRefusal why → (number : ℕ) → number < 16 ^ DIGITS
///     → BeginsNot (R.remaining r.old) (field DIGITS number))
/// ```
#[inline]
fn read_field<R: Read, const DIGITS: usize>(r: &mut R) -> Result<u128, Unread> {
    let mut text = [0u8; DIGITS];
    r.read_exact(&mut text)?;
    let Some(number) = hex_number(&text) else {
        return Err(Unread::Form);
    };
    if put_hex(DIGITS, number, &mut [0; MOST_DIGITS]) != text.as_slice() {
        return Err(Unread::Form);
    }
    expect(r, b" ", Unread::Form)?;
    Ok(number)
}

/// Reads the first line, and answers the numbers of bits and probes.
///
/// Proved:
///
/// ```text
/// read: IfOk result (λ found. Consumes (R.remaining r.old) (R.remaining r.new)
///     (header found.0 found.1 pair.now))
/// refused: IfErr result (λ why. IsRefusal why → (bits probes : ℕ) → bits < 2 ^ 64 → probes < 2 ^ 32
///     → BeginsNot (R.remaining r.old) (header bits probes pair.now))
/// ```
#[inline]
fn read_header<R: Read>(r: &mut R, pair: &[u8]) -> Result<(u64, u32), Unread> {
    read_title(r)?;
    let bits = read_field::<R, 16>(r)?;
    let probes = read_field::<R, 8>(r)?;
    expect(r, pair, Unread::Pair)?;
    expect(r, b"\n", Unread::Pair)?;
    Ok((bits as u64, probes as u32))
}

/// The word of eight bytes.
///
/// Proved:
///
/// ```text
/// to_le_bytes w64 result ≡ bytes.now
/// ```
#[inline]
fn word_of(bytes: &[u8; 8]) -> u64 {
    u64::from_le_bytes(*bytes)
}

/// Reads so many words. Memory is asked for as they come.
///
/// Proved:
///
/// ```text
/// count: IfOk result (λ words. length words.items ≡ count)
/// read: IfOk result (λ words. Consumes (R.remaining r.old) (R.remaining r.new) (bytes_of words.items))
/// ```
#[inline]
fn read_words<R: Read>(alloc: Global, r: &mut R, count: u64) -> io::Result<Vec<u64>> {
    let mut words = Vec::new(alloc);
    for _ in 0..count {
        let mut bytes = [0u8; 8];
        r.read_exact(&mut bytes)?;
        words.push(word_of(&bytes))?;
    }
    Ok(words)
}

/// Writes all of the bytes. After a fault a beginning of them was written.
///
/// Proved:
///
/// ```text
/// ok: OnOk result (Appends (W.contents w.old) (W.contents w.new) bytes.now)
/// err: OnErr result (AppendsPart (W.contents w.old) (W.contents w.new) bytes.now)
/// ```
#[inline]
fn write_bytes<W: Write>(w: &mut W, bytes: &[u8]) -> io::Result<()> {
    match write_all::<W, ()>(w, bytes, TRIES) {
        Ok(()) => Ok(()),
        Err(Failure::Unwritten(Some(error))) => Err(error),
        Err(_) => Err(Error::from(ErrorKind::WriteZero)),
    }
}

/// Writes the first line, the words, and their hash. After a fault a beginning of these was written.
///
/// Proved:
///
/// ```text
/// ok: OnOk result (Appends (W.contents w.old) (W.contents w.new) (sealed (line.now ++ bytes_of words.now)))
/// err: OnErr result (AppendsPart (W.contents w.old) (W.contents w.new)
///     (sealed (line.now ++ bytes_of words.now)))
/// words: (i : ℕ) → slice_index words.now i < 2 ^ 64
/// ```
#[inline]
fn write_sealed<W: Write>(w: &mut W, line: &[u8], words: &[u64]) -> io::Result<()> {
    write_bytes(w, line)?;
    for word in words {
        write_bytes(w, &word.to_le_bytes())?;
    }
    write_bytes(w, &seal(line, words))
}

/// What a file tells of a filter.
struct Stored {
    words: Vec<u64>,
    bits: u64,
    probes: u32,
}

/// Reads a file, and sees to all but that these are the words of a filter.
///
/// Proved:
///
/// ```text
/// read: IfOk result (λ found. Consumes (R.remaining r.old) (R.remaining r.new)
///     (file_of pair.now (filter_of found.bits found.probes found.words.items)))
/// same: IfOk result (λ found. (filter : Filter) → IsStored filter → (rest : List ℕ)
///     → R.remaining r.old ≡ Some (file_of pair.now filter ++ rest)
///     → filter_of found.bits found.probes found.words.items ≡ filter)
/// words: IfOk result (λ found. (i : ℕ) → slice_index found.words.items i < 2 ^ 64)
/// refused: IfErr result (λ why. IsRefusal why → (filter : Filter) → IsStored filter
///     → BeginsNot (R.remaining r.old) (file_of pair.now filter))
/// ```
#[inline]
fn read_sealed<R: Read>(alloc: Global, r: &mut R, pair: &[u8]) -> Result<Stored, Unread> {
    let (bits, probes) = read_header(r, pair)?;
    let words = read_words(alloc, r, bits.div_ceil(64))?;
    let line = header(alloc, bits, probes, pair)?;
    expect(r, &seal(&line, &words), Unread::Hash)?;
    Ok(Stored {
        words,
        bits,
        probes,
    })
}

impl<F: Piecewise, G: Piecewise> Bloom<F, G> {
    /// Writes the filter's file, with the names of its two hashers as they are to be asked for when it is read. The first line, each
    /// word and the hash are written one by one: give it a `BufWriter`, and flush that. After a fault a beginning of the file is
    /// written.
    ///
    /// Proved:
    ///
    /// ```text
    /// ok: OnOk result (Appends (W.contents w.old) (W.contents w.new) (file_of pair.now self.now))
    /// err: OnErr result (AppendsPart (W.contents w.old) (W.contents w.new) (file_of pair.now self.now))
    /// stored: OnOk result (IsStored self.now)
    /// ```
    #[inline]
    pub fn write_to<W: Write>(&self, w: &mut W, pair: &str) -> io::Result<()> {
        let alloc = *self.words.allocator();
        let line = header(alloc, self.bits, self.probes, pair.as_bytes())?;
        write_sealed(w, &line, &self.words)
    }

    /// Reads the file of a filter over hashers of these names, which the types have to agree with. What was read is exactly the file of
    /// the filter, so what was written is read back; what stands behind it is not read. It is refused only where no filter of this
    /// pair stands there. Memory is asked for as words arrive. It reads 16 bytes at a time and less: give it a `BufReader`.
    ///
    /// Proved:
    ///
    /// ```text
    /// read: IfOk result (λ filter. Consumes (R.remaining r.old) (R.remaining r.new)
    ///     (file_of pair.now filter))
    /// stored: IfOk result IsStored
    /// refused: IfErr result (λ why. IsRefusal why → (filter : Filter) → IsStored filter
    ///     → BeginsNot (R.remaining r.old) (file_of pair.now filter))
    /// ```
    #[inline]
    pub fn read_from<R: Read>(alloc: Global, r: &mut R, pair: &str) -> Result<Self, Unread> {
        let found = read_sealed(alloc, r, pair.as_bytes())?;
        match Bloom::from_words(found.words, found.bits, found.probes) {
            Ok(filter) => Ok(filter),
            Err(NoFilter { words: _ }) => Err(Unread::Form),
        }
    }
}
