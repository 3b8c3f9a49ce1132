//! Texts that lie one after the other in one buffer.

// What follows is the proved text of crates/text_set/src/store.rt without its contracts.
use crate::shim::{Vec, std};

use std::alloc::{AllocError, Global};

/// Texts in order. A text costs its bytes and 8 bytes.
pub struct Store {
    bytes: Vec<u8>,
    ends: Vec<usize>, // where each text ends
}

/// Where the text at a place begins.
///
/// The caller has to see to it that:
///
/// ```text
/// place ≤ length ends.now
/// ```
///
/// Proved:
///
/// ```text
/// result ≡ start_of ends.now place
/// ```
#[inline(always)]
fn start_of(ends: &[usize], place: usize) -> usize {
    if place == 0 { 0 } else { ends[place - 1] }
}

/// The text that begins and ends at these bytes.
///
/// The caller has to see to it that:
///
/// ```text
/// rises: start ≤ end
/// within: end ≤ length bytes.now
/// ```
///
/// Proved:
///
/// ```text
/// result.now ≡ take (end - start) (drop start bytes.now)
/// ```
#[inline(always)]
fn text_between(bytes: &[u8], start: usize, end: usize) -> &[u8] {
    &bytes[start..end]
}

impl Store {
    /// No text.
    ///
    /// Proved:
    ///
    /// ```text
    /// result ≡ []
    /// ```
    #[inline]
    pub fn new(alloc: Global) -> Store {
        Store {
            bytes: Vec::new(alloc),
            ends: Vec::new(alloc),
        }
    }

    /// How many texts there are.
    ///
    /// Proved:
    ///
    /// ```text
    /// value: result ≡ length self.now
    /// small: result < 2 ^ 63
    /// ```
    #[inline(always)]
    pub fn len(&self) -> usize {
        self.ends.len()
    }

    /// How many bytes all texts have.
    #[inline(always)]
    pub fn size(&self) -> usize {
        self.bytes.len()
    }

    /// The text at a place.
    ///
    /// The caller has to see to it that:
    ///
    /// ```text
    /// place < length self.now
    /// ```
    ///
    /// Proved:
    ///
    /// ```text
    /// result.now ≡ slice_index_or self.now place []
    /// ```
    #[inline(always)]
    pub fn get(&self, place: usize) -> &[u8] {
        let start = start_of(&self.ends, place);
        let end = self.ends[place];
        text_between(&self.bytes, start, end)
    }

    /// Puts a text after the others. If there is no memory for it, they stay as they were.
    ///
    /// Proved:
    ///
    /// ```text
    /// ok: OnOk result (self.new ≡ self.old ++ text.now ∷ [])
    /// err: OnErr result (self.new ≡ self.old)
    /// ```
    #[inline]
    pub fn push(&mut self, text: &[u8]) -> Result<(), AllocError> {
        self.ends.reserve(1)?;
        self.bytes.extend_from_slice(text)?;
        let end = self.bytes.len();
        if self.ends.push(end).is_err() {
            unreachable!()
        }
        Ok(())
    }
}
