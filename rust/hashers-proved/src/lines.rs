//! A set of lines, or of any texts, each with its place in the order in which they came; and where lines end.
//!
//! ```
//! use hashers_proved::lines::Lines;
//!
//! let mut lines = Lines::new();
//! lines.read(&b"to be\nor not\nto be\n"[..], b'\n').unwrap();
//! assert_eq!(lines.len(), 2);
//! assert_eq!((lines.position("or not"), lines.get(0)), (Some(1), Some(&b"to be"[..])));
//! assert!(lines.insert("that is") && !lines.insert("to be"));
//! let longest = lines.iter().map(<[u8]>::len).max();
//! assert_eq!(longest, Some(7));
//! ```
#[doc(inline)]
pub use crate::text_set::lines::{has_end, line_end, without_end};
#[doc(inline)]
pub use crate::text_set::{Iter, KeyedHasher, RandomKeys};

use crate::extras::{no_memory, random_word};
use crate::shim::memory::Global;
use crate::text_set::{Full, Seen, Texts};
use core::fmt;
use core::hash::BuildHasher;
use core::ops::Index;
use real_std::io::{BufRead, Result};
use real_std::string::String;
use real_std::vec::Vec;

/// A set of texts, in the order in which they came. Nothing is taken out.
///
/// The bytes of all texts lie one behind the other in one buffer, and a table says where each stands: a text costs its bytes and some 20 to
/// 40 more. `S` hashes them; with [`RandomKeys`] others may choose the texts, as long as they see no hashes or times.
///
/// Where there is no memory, a call ends the program, as std's collections do.
pub struct Lines<S: BuildHasher = RandomKeys> {
    texts: Texts<S>,
}

impl Lines {
    /// The empty set, under random keys.
    pub fn new() -> Lines {
        Lines::default()
    }
}

impl<S: BuildHasher + Default> Default for Lines<S> {
    fn default() -> Lines<S> {
        Lines::with_hasher(S::default())
    }
}

impl<S: BuildHasher> Lines<S> {
    /// The empty set over this hasher.
    pub fn with_hasher(hasher: S) -> Lines<S> {
        Lines { texts: Texts::new(Global, hasher) }
    }

    /// Takes a text in, unless it is there, and tells whether it is new.
    ///
    /// # Panics
    ///
    /// Panics where there are 2^32 - 1 texts.
    pub fn insert(&mut self, text: impl AsRef<[u8]>) -> bool {
        self.see(text.as_ref()).is_new
    }

    /// Takes a text in, unless it is there, and tells its place and whether it is new.
    ///
    /// # Panics
    ///
    /// Panics where there are 2^32 - 1 texts.
    pub fn insert_full(&mut self, text: impl AsRef<[u8]>) -> (usize, bool) {
        let seen = self.see(text.as_ref());
        (seen.place, seen.is_new)
    }

    fn see(&mut self, text: &[u8]) -> Seen {
        match self.texts.see(text) {
            Ok(seen) => seen,
            Err(Full::NoMemory) => no_memory::<u8>(text.len()),
            Err(full) => panic!("{full}"),
        }
    }

    /// Takes in the lines of a reader, without the bytes at which they end, and tells how many they were. The last one may have no end.
    ///
    /// # Errors
    ///
    /// The error of a read, after the lines before.
    pub fn read(&mut self, mut from: impl BufRead, end: u8) -> Result<u64> {
        let (mut line, mut count) = (Vec::new(), 0);
        while from.read_until(end, &mut line)? > 0 {
            self.insert(without_end(&line, end));
            line.clear();
            count += 1;
        }
        Ok(count)
    }

    /// Whether the text is there.
    pub fn contains(&self, text: impl AsRef<[u8]>) -> bool {
        self.position(text).is_some()
    }

    /// The place of the text, if it is there.
    pub fn position(&self, text: impl AsRef<[u8]>) -> Option<usize> {
        self.texts.place_of(text.as_ref())
    }

    /// The text at the place, if there are so many.
    pub fn get(&self, place: usize) -> Option<&[u8]> {
        (place < self.len()).then(|| self.texts.text_at(place))
    }

    /// How many texts there are.
    pub fn len(&self) -> usize {
        self.texts.len()
    }

    /// Whether there are none.
    pub fn is_empty(&self) -> bool {
        self.texts.is_empty()
    }

    /// The texts, in the order in which they came.
    pub fn iter(&self) -> Iter<'_> {
        self.texts.iter()
    }
}

/// The text at the place. It panics where there are no so many.
impl<S: BuildHasher> Index<usize> for Lines<S> {
    type Output = [u8];

    fn index(&self, place: usize) -> &[u8] {
        self.get(place).expect("a place of a text")
    }
}

impl<'a, S: BuildHasher> IntoIterator for &'a Lines<S> {
    type Item = &'a [u8];
    type IntoIter = Iter<'a>;

    fn into_iter(self) -> Iter<'a> {
        self.iter()
    }
}

impl<T: AsRef<[u8]>, S: BuildHasher> Extend<T> for Lines<S> {
    fn extend<I: IntoIterator<Item = T>>(&mut self, texts: I) {
        for text in texts {
            self.insert(text);
        }
    }
}

impl<T: AsRef<[u8]>, S: BuildHasher + Default> FromIterator<T> for Lines<S> {
    fn from_iter<I: IntoIterator<Item = T>>(texts: I) -> Lines<S> {
        let mut lines = Lines::default();
        lines.extend(texts);
        lines
    }
}

/// A set under keys of its own.
impl<S: BuildHasher + Default> Clone for Lines<S> {
    fn clone(&self) -> Lines<S> {
        self.iter().collect()
    }
}

/// The same texts in the same order.
impl<S: BuildHasher> PartialEq for Lines<S> {
    fn eq(&self, other: &Lines<S>) -> bool {
        self.len() == other.len() && self.iter().eq(other.iter())
    }
}

impl<S: BuildHasher> Eq for Lines<S> {}

impl<S: BuildHasher> fmt::Debug for Lines<S> {
    fn fmt(&self, f: &mut fmt::Formatter) -> fmt::Result {
        f.debug_set().entries(self.iter().map(String::from_utf8_lossy)).finish()
    }
}

/// Random keys, from the randomness of std's `RandomState`. Each call has others.
impl Default for RandomKeys {
    fn default() -> RandomKeys {
        RandomKeys::with_keys(random_word(), random_word())
    }
}

/// By the name alone: no key is told.
impl fmt::Debug for RandomKeys {
    fn fmt(&self, f: &mut fmt::Formatter) -> fmt::Result {
        f.debug_struct("RandomKeys").finish_non_exhaustive()
    }
}

impl fmt::Debug for KeyedHasher {
    fn fmt(&self, f: &mut fmt::Formatter) -> fmt::Result {
        f.debug_struct("KeyedHasher").finish_non_exhaustive()
    }
}

impl fmt::Debug for Iter<'_> {
    fn fmt(&self, f: &mut fmt::Formatter) -> fmt::Result {
        f.debug_struct("Iter").finish_non_exhaustive()
    }
}
