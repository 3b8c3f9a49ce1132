//! Memory that may be refused: vectors, texts and a set.
use real_std::borrow::Borrow;
use real_std::collections::HashSet;
use real_std::fmt::{self, Arguments, Debug, Display, Formatter, Write as _};
use real_std::hash::Hash;
use real_std::io;
use real_std::ops::{Deref, DerefMut};

/// Where memory comes from: the allocator of the program.
#[derive(Clone, Copy, Debug, Default, PartialEq, Eq)]
pub struct Global;

/// There is no memory.
#[derive(Clone, Copy, Debug, PartialEq, Eq)]
pub struct AllocError;

impl Display for AllocError {
    fn fmt(&self, f: &mut Formatter) -> fmt::Result {
        f.write_str("memory allocation failed")
    }
}

impl real_std::error::Error for AllocError {}

impl From<AllocError> for io::Error {
    fn from(_: AllocError) -> io::Error {
        io::Error::from(io::ErrorKind::OutOfMemory)
    }
}

/// There is no memory for this value, which comes back.
#[derive(Clone, Copy, Debug, PartialEq, Eq)]
pub struct AllocFailed<T> {
    /// The value.
    pub value: T,
}

impl<T> From<AllocFailed<T>> for AllocError {
    fn from(_: AllocFailed<T>) -> AllocError {
        AllocError
    }
}

impl<T> From<AllocFailed<T>> for io::Error {
    fn from(_: AllocFailed<T>) -> io::Error {
        AllocError.into()
    }
}

/// A vector of std whose calls answer `Err` where there is no memory. It is a slice, and made of std's and back by `into`.
#[derive(PartialEq, Eq, PartialOrd, Ord, Hash)]
pub struct Vec<T>(real_std::vec::Vec<T>);

impl<T> Vec<T> {
    /// The empty vector.
    #[inline]
    pub fn new(_alloc: Global) -> Vec<T> {
        Vec(real_std::vec::Vec::new())
    }

    /// The empty one with room for so many items.
    pub fn with_capacity(alloc: Global, count: usize) -> Result<Vec<T>, AllocError> {
        let mut items = Vec::new(alloc);
        items.0.try_reserve_exact(count).map_err(|_| AllocError)?;
        Ok(items)
    }

    /// The items of an array.
    pub fn from_array<const N: usize>(alloc: Global, items: [T; N]) -> Result<Vec<T>, AllocError> {
        let mut all = Vec::with_capacity(alloc, N)?;
        all.0.extend(items);
        Ok(all)
    }

    /// Makes room for so many items more.
    #[inline]
    pub fn reserve(&mut self, more: usize) -> Result<(), AllocError> {
        self.0.try_reserve(more).map_err(|_| AllocError)
    }

    /// Puts an item behind the others.
    #[inline]
    pub fn push(&mut self, value: T) -> Result<(), AllocFailed<T>> {
        match self.reserve(1) {
            Ok(()) => {
                self.0.push(value);
                Ok(())
            }
            Err(AllocError) => Err(AllocFailed { value }),
        }
    }

    /// Puts an item at that place. It panics where the place is beyond the end.
    pub fn insert(&mut self, at: usize, value: T) -> Result<(), AllocFailed<T>> {
        match self.reserve(1) {
            Ok(()) => {
                self.0.insert(at, value);
                Ok(())
            }
            Err(AllocError) => Err(AllocFailed { value }),
        }
    }

    /// Takes the item at that place out. It panics where there is none.
    pub fn remove(&mut self, at: usize) -> T {
        self.0.remove(at)
    }

    /// Makes it so long, with what the closure makes.
    pub fn resize_with<F: FnMut() -> T>(&mut self, len: usize, make: F) -> Result<(), AllocError> {
        self.reserve(len.saturating_sub(self.0.len()))?;
        self.0.resize_with(len, make);
        Ok(())
    }

    /// Leaves the first items, so many.
    #[inline]
    pub fn truncate(&mut self, len: usize) {
        self.0.truncate(len);
    }

    /// Leaves none.
    #[inline]
    pub fn clear(&mut self) {
        self.0.clear();
    }

    /// Its items.
    #[inline]
    pub fn as_slice(&self) -> &[T] {
        &self.0
    }

    /// Its items, to be changed.
    #[inline]
    pub fn as_mut_slice(&mut self) -> &mut [T] {
        &mut self.0
    }

    /// Where its memory comes from.
    #[inline]
    pub fn allocator(&self) -> &Global {
        &Global
    }
}

impl<T: Copy> Vec<T> {
    /// The items of a slice.
    pub fn from_slice(alloc: Global, items: &[T]) -> Result<Vec<T>, AllocError> {
        let mut all = Vec::with_capacity(alloc, items.len())?;
        all.0.extend_from_slice(items);
        Ok(all)
    }

    /// The value so many times.
    pub fn filled(alloc: Global, value: T, count: usize) -> Result<Vec<T>, AllocError> {
        let mut all = Vec::with_capacity(alloc, count)?;
        all.0.resize(count, value);
        Ok(all)
    }

    /// Takes the first items out, so many. It panics where there are fewer.
    pub fn remove_front(&mut self, count: usize) {
        self.0.drain(..count);
    }

    /// Puts the items behind the others.
    #[inline]
    pub fn extend_from_slice(&mut self, items: &[T]) -> Result<(), AllocError> {
        self.reserve(items.len())?;
        self.0.extend_from_slice(items);
        Ok(())
    }

    /// Makes it so long, with this value.
    pub fn resize(&mut self, len: usize, value: T) -> Result<(), AllocError> {
        self.reserve(len.saturating_sub(self.0.len()))?;
        self.0.resize(len, value);
        Ok(())
    }
}

impl<T: Debug> Debug for Vec<T> {
    fn fmt(&self, f: &mut Formatter) -> fmt::Result {
        self.0.fmt(f)
    }
}

impl<T> Deref for Vec<T> {
    type Target = [T];

    #[inline(always)]
    fn deref(&self) -> &[T] {
        &self.0
    }
}

impl<T> DerefMut for Vec<T> {
    #[inline(always)]
    fn deref_mut(&mut self) -> &mut [T] {
        &mut self.0
    }
}

impl<T> Borrow<[T]> for Vec<T> {
    fn borrow(&self) -> &[T] {
        self
    }
}

impl<T> From<real_std::vec::Vec<T>> for Vec<T> {
    fn from(items: real_std::vec::Vec<T>) -> Vec<T> {
        Vec(items)
    }
}

impl<T> From<Vec<T>> for real_std::vec::Vec<T> {
    fn from(items: Vec<T>) -> real_std::vec::Vec<T> {
        items.0
    }
}

impl<T> IntoIterator for Vec<T> {
    type Item = T;
    type IntoIter = real_std::vec::IntoIter<T>;

    fn into_iter(self) -> Self::IntoIter {
        self.0.into_iter()
    }
}

impl<'a, T> IntoIterator for &'a Vec<T> {
    type Item = &'a T;
    type IntoIter = real_std::slice::Iter<'a, T>;

    #[inline]
    fn into_iter(self) -> Self::IntoIter {
        self.0.iter()
    }
}

impl io::Write for Vec<u8> {
    #[inline]
    fn write(&mut self, bytes: &[u8]) -> io::Result<usize> {
        self.extend_from_slice(bytes)?;
        Ok(bytes.len())
    }

    fn flush(&mut self) -> io::Result<()> {
        Ok(())
    }

    /// What std's own writes letter by letter through `write`, goes behind the others at once.
    fn write_fmt(&mut self, words: Arguments) -> io::Result<()> {
        fmt::write(&mut Letters(self), words).map_err(|_| AllocError.into())
    }
}

/// Takes letters behind bytes.
struct Letters<'a>(&'a mut Vec<u8>);

impl fmt::Write for Letters<'_> {
    #[inline]
    fn write_str(&mut self, words: &str) -> fmt::Result {
        self.0.extend_from_slice(words.as_bytes()).map_err(|_| fmt::Error)
    }

    /// The blanks before a number come one by one.
    fn write_char(&mut self, letter: char) -> fmt::Result {
        let Vec(bytes) = &mut *self.0;
        if letter.is_ascii() && bytes.len() < bytes.capacity() {
            bytes.push(letter as u8);
            return Ok(());
        }
        self.encoded(letter)
    }
}

impl Letters<'_> {
    #[cold]
    fn encoded(&mut self, letter: char) -> fmt::Result {
        self.write_str(letter.encode_utf8(&mut [0; 4]))
    }
}

/// A text of std whose calls answer `Err` where there is no memory.
#[derive(PartialEq, Eq, PartialOrd, Ord, Hash)]
pub struct String(real_std::string::String);

impl String {
    /// No letters.
    pub fn new(_alloc: Global) -> String {
        String(real_std::string::String::new())
    }

    /// A copy of these.
    pub fn from_str(alloc: Global, words: &str) -> Result<String, AllocError> {
        let mut text = String::new(alloc);
        text.push_str(words)?;
        Ok(text)
    }

    /// These bytes, with U+FFFD where they are no UTF-8.
    pub fn from_utf8_lossy(alloc: Global, bytes: &[u8]) -> Result<String, AllocError> {
        let mut text = String::new(alloc);
        for chunk in bytes.utf8_chunks() {
            text.push_str(chunk.valid())?;
            if !chunk.invalid().is_empty() {
                text.push('\u{FFFD}')?;
            }
        }
        Ok(text)
    }

    /// Puts these behind the others.
    pub fn push_str(&mut self, words: &str) -> Result<(), AllocError> {
        self.0.try_reserve(words.len()).map_err(|_| AllocError)?;
        self.0.push_str(words);
        Ok(())
    }

    /// Puts a letter behind the others.
    pub fn push(&mut self, letter: char) -> Result<(), AllocError> {
        self.push_str(letter.encode_utf8(&mut [0; 4]))
    }

    /// Its letters.
    pub fn as_str(&self) -> &str {
        &self.0
    }
}

impl From<real_std::string::String> for String {
    fn from(text: real_std::string::String) -> String {
        String(text)
    }
}

impl Debug for String {
    fn fmt(&self, f: &mut Formatter) -> fmt::Result {
        Debug::fmt(&self.0, f)
    }
}

impl Display for String {
    fn fmt(&self, f: &mut Formatter) -> fmt::Result {
        Display::fmt(&self.0, f)
    }
}

impl Deref for String {
    type Target = str;

    fn deref(&self) -> &str {
        &self.0
    }
}

impl fmt::Write for String {
    fn write_str(&mut self, words: &str) -> fmt::Result {
        self.push_str(words).map_err(|_| fmt::Error)
    }
}

/// A set. No order is asked for, so it is one of hashes: that asks for room before a value goes in.
pub struct BTreeSet<T>(HashSet<T>);

impl<T: Ord + Hash> BTreeSet<T> {
    pub fn new(_alloc: Global) -> BTreeSet<T> {
        BTreeSet(HashSet::new())
    }

    /// Whether the value is new.
    pub fn insert(&mut self, value: T) -> Result<bool, AllocFailed<T>> {
        match self.0.try_reserve(1) {
            Ok(()) => Ok(self.0.insert(value)),
            Err(_) => Err(AllocFailed { value }),
        }
    }
}

/// The text of `format!`.
pub fn formatted(alloc: Global, words: Arguments) -> Result<String, AllocError> {
    let mut text = String::new(alloc);
    fmt::write(&mut text, words).map_err(|_| AllocError)?;
    Ok(text)
}
