//! An input split into chunks where its content says so, so that an edit mostly changes only the chunks around it.
//!
//! Each place where the gear hash of the 64 bytes before it is small is a boundary: see [`Cuts`].
//!
//! ```
//! use hashers_proved::cuts::{Cuts, Sizes};
//!
//! let cuts = Cuts::new(Sizes { least: 64, most: 1000, ..Sizes::around(300) }).unwrap();
//! let text: Vec<u8> = (0u32..20000).map(|number| (number.wrapping_mul(number) >> 7) as u8).collect();
//! let chunks: Vec<&[u8]> = cuts.chunks(&text).collect();
//! assert_eq!(chunks.concat(), text);
//! // of what a reader gives, each chunk as soon as it is whole
//! let mut read = Vec::new();
//! let bytes = cuts.cut(text.as_slice(), |chunk| Ok(read.push(chunk.to_vec()))).unwrap();
//! assert_eq!((read, bytes), (chunks.iter().map(|chunk| chunk.to_vec()).collect(), 20000));
//! ```
pub use crate::hash_cuts::Chunks;

use crate::hash_cuts::{self as proved, Sink, Unfinished, cut_reader};
use crate::shim::memory::Global;
use core::fmt;
use real_std::io::{Error, ErrorKind, Read, Result};

/// A reader whose reads are tried again where a signal interrupts them.
struct Steady<R>(R);

impl<R: Read> Read for Steady<R> {
    fn read(&mut self, to: &mut [u8]) -> Result<usize> {
        loop {
            match self.0.read(to) {
                Err(error) if error.kind() == ErrorKind::Interrupted => {}
                read => return read,
            }
        }
    }
}

/// A closure that takes chunks, and its error.
struct Taker<F>(F);

impl<F: FnMut(&[u8]) -> Result<()>> Sink for Taker<F> {
    type Error = Error;

    fn take(&mut self, chunk: &[u8]) -> Result<()> {
        (self.0)(chunk)
    }
}

/// The sizes of chunks in bytes, and two seeds.
#[derive(Clone, Copy, Debug, PartialEq, Eq)]
pub struct Sizes {
    /// The least bytes of a chunk but the last: 64 at least.
    pub least: usize,
    /// From `least` on about one place in so many is a boundary, if the bytes look random: the mean chunk is some 1.3 times as long.
    pub average: usize,
    /// The most bytes of a chunk.
    pub most: usize,
    /// Other seeds give other boundaries.
    pub seed1: u64,
    /// The second seed.
    pub seed2: u64,
}

impl Sizes {
    /// From a quarter of the average, but 64 at least, to four times it, under the seeds 0.
    pub fn around(average: usize) -> Sizes {
        Sizes { least: (average / 4).max(64), average, most: average.saturating_mul(4), seed1: 0, seed2: 0 }
    }
}

/// The size that is too small.
#[derive(Clone, Copy, Debug, PartialEq, Eq)]
pub enum WrongSize {
    /// `least` is below 64.
    Least(usize),
    /// `average`, the first, is below `least`.
    Average(usize, usize),
    /// `most`, the first, is below `average`.
    Most(usize, usize),
}

impl fmt::Display for WrongSize {
    fn fmt(&self, f: &mut fmt::Formatter) -> fmt::Result {
        match self {
            WrongSize::Least(least) => write!(f, "least is {least}, below 64"),
            WrongSize::Average(average, least) => write!(f, "average is {average}, below least, which is {least}"),
            WrongSize::Most(most, average) => write!(f, "most is {most}, below average, which is {average}"),
        }
    }
}

impl core::error::Error for WrongSize {}

/// Where inputs are split into chunks: at each place from `least` bytes on where the gear hash of the 64 bytes before it is low.
pub struct Cuts {
    cuts: proved::Cuts,
    sizes: Sizes,
}

impl Cuts {
    /// Chunks of these sizes.
    ///
    /// # Errors
    ///
    /// The size that is too small, unless 64 ≤ `least` ≤ `average` ≤ `most`.
    pub fn new(sizes: Sizes) -> core::result::Result<Cuts, WrongSize> {
        let Sizes { least, average, most, seed1, seed2 } = sizes;
        match proved::Cuts::new(least, average, most, seed1, seed2) {
            Some(cuts) => Ok(Cuts { cuts, sizes }),
            None if least < 64 => Err(WrongSize::Least(least)),
            None if average < least => Err(WrongSize::Average(average, least)),
            None => Err(WrongSize::Most(most, average)),
        }
    }

    /// The sizes and seeds.
    pub fn sizes(&self) -> Sizes {
        self.sizes
    }

    /// How many bytes the first chunk has: 0 only of no bytes.
    pub fn first_cut(&self, bytes: &[u8]) -> usize {
        self.cuts.first_cut(bytes)
    }

    /// Writes where the chunks end, as many as there is room for, and returns how many it wrote.
    pub fn ends(&self, bytes: &[u8], ends: &mut [u64]) -> usize {
        self.cuts.ends(bytes, ends)
    }

    /// The chunks, in their order.
    pub fn chunks<'a>(&'a self, bytes: &'a [u8]) -> Chunks<'a> {
        self.cuts.chunks(bytes)
    }

    /// Cuts what a reader gives, hands each chunk to the closure, and tells how many bytes there were. It takes memory for one chunk.
    ///
    /// # Errors
    ///
    /// The error of a read or of the closure, after the chunks before; or `OutOfMemory`.
    pub fn cut(&self, from: impl Read, take: impl FnMut(&[u8]) -> Result<()>) -> Result<u64> {
        match cut_reader(Global, &self.cuts, &mut Steady(from), u64::MAX, &mut Taker(take)) {
            Ok(taken) => Ok(taken.bytes),
            Err(Unfinished::Unread(fault)) => Err(fault.error),
            Err(Unfinished::Refused(error)) => Err(error),
            Err(Unfinished::NoMemory) => Err(ErrorKind::OutOfMemory.into()),
        }
    }
}

impl fmt::Debug for Chunks<'_> {
    fn fmt(&self, f: &mut fmt::Formatter) -> fmt::Result {
        f.debug_struct("Chunks").finish_non_exhaustive()
    }
}

impl core::iter::FusedIterator for Chunks<'_> {}

impl fmt::Debug for Cuts {
    fn fmt(&self, f: &mut fmt::Formatter) -> fmt::Result {
        f.debug_tuple("Cuts").field(&self.sizes).finish()
    }
}

impl Clone for Cuts {
    fn clone(&self) -> Cuts {
        Cuts::new(self.sizes).unwrap_or_else(|_| unreachable!())
    }
}
