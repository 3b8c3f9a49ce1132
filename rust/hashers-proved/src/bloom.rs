//! A Bloom filter over any two hashers: a set of keys in a few bits a key, which may take a strange key for one of its own and never
//! forgets one. [`Bloom`] has its own bits, and can be stored in a file; the functions here take words of yours.
//!
//! ```
//! use hashers_proved::bloom::Bloom;
//!
//! // for a thousand keys, with ten bits for each: of strange keys one in 122 passes
//! let mut seen = Bloom::new(1000, 10);
//! seen.insert("Ada");
//! seen.extend(["Alan", "Grace"]);
//! assert!(seen.contains("Grace") && !seen.contains("Edsger"));
//! assert_eq!(seen.estimate(), Some(3));
//! let mut file = Vec::new();
//! seen.write_to(&mut file, "spooky lookup3").unwrap();
//! assert_eq!(Bloom::read_from(&file[..], "spooky lookup3").unwrap(), seen);
//! ```
#[doc(inline)]
pub use crate::hash_bloom::file::Unread;
#[doc(inline)]
pub use crate::hash_bloom::words::*;

use crate::extras::no_memory;
use crate::hash_bloom as proved;
use crate::hash_jenkins::spooky_hash::SpookyHasher;
use crate::hash_jenkins::Lookup3Hasher;
use crate::hash_laws::traits::{Piecewise, Streamed};
use crate::shim::memory::Global;
use core::fmt;
use core::ops::BitOrAssign;
use real_std::io::{self, Read, Write};
use real_std::vec::Vec;

/// A Bloom filter (Burton H. Bloom, "Space/Time Trade-offs in Hash Coding with Allowable Errors", 1970). Each key has some places among the
/// filter's bits, by the hashers `F` and `G`, and is found where the bits at all of its places are set.
///
/// The place of probe `i` is (f + i * g + (i^3 - i) / 6) mod 2^64 mod bits, where f and g are the two hashes (enhanced double hashing:
/// Peter C. Dillinger and Panagiotis Manolios, "Bloom Filters in Probabilistic Verification", 2004). A key that was inserted is found, whatever the hashers. How often a strange
/// key is found depends on them: with good ones about (1 - e^(-probes * keys / bits))^probes.
///
/// Where there is no memory, a call ends the program, as std's collections do.
pub struct Bloom<F: Piecewise = SpookyHasher, G: Piecewise = Lookup3Hasher> {
    filter: proved::Bloom<F, G>,
}

impl Bloom {
    /// A filter for about so many keys, with so many bits for each, over SpookyHash and lookup3. Over other hashers it is
    /// [`for_keys`](Bloom::for_keys).
    ///
    /// # Panics
    ///
    /// Panics if `bits_per_key` is 0, or the bits are 2^64 or more.
    pub fn new(keys: u64, bits_per_key: u32) -> Bloom {
        Bloom::for_keys(keys, bits_per_key)
    }

    /// A filter for about so many keys, in which a strange key is found with about this chance once they are inserted, with
    /// -keys * ln(rate) / ln(2)^2 bits and -log2(rate) probes, as Python's `Bloom.for_keys` has them.
    ///
    /// # Panics
    ///
    /// Panics unless 0 < `rate` < 1, or if the bits are 2^64 or more.
    pub fn for_rate(keys: u64, rate: f64) -> Bloom {
        assert!(0.0 < rate && rate < 1.0, "a rate of {rate}");
        let (halvings, whole) = (-rate.log2(), 2f64.powi(64));
        let bits = (keys as f64 * halvings / core::f64::consts::LN_2).ceil();
        assert!(bits < whole, "a filter of 2^64 bits");
        Bloom::with_bits((bits as u64).max(1), (halvings.round() as u32).max(1))
    }

    /// A filter for about so many keys, of which one strange key in 2^k passes at most, by the formula above.
    ///
    /// # Panics
    ///
    /// Panics if `k` is not from 1 to 22, or the bits are 2^64 or more.
    pub fn for_share(keys: u64, k: u32) -> Bloom {
        assert!((1..=22).contains(&k), "a share of one in 2^{k}");
        Bloom::for_keys(keys, (1443 * k).div_ceil(1000))
    }

    /// A filter of so many bits, and so many probes for each key. Over other hashers it is [`with_shape`](Bloom::with_shape).
    ///
    /// # Panics
    ///
    /// Panics if either is 0.
    pub fn with_bits(bits: u64, probes: u32) -> Bloom {
        Bloom::with_shape(bits, probes)
    }
}

/// How many words a filter of these numbers takes. Panics where they give none.
fn sized(keys: u64, bits_per_key: u32) -> usize {
    assert!(bits_per_key > 0, "a filter of no bits");
    words_for(keys.checked_mul(bits_per_key.into()).expect("a filter of 2^64 bits"))
}

/// How many words so many bits take. Panics, as std's collections do, where a host of 32 bits has not so many.
fn words_for(bits: u64) -> usize {
    usize::try_from(bits.div_ceil(64)).expect("capacity overflow")
}

impl<F: Piecewise, G: Piecewise> Bloom<F, G> {
    /// A filter for about so many keys, with so many bits for each. The number of probes is about 0.693 for each bit, which from 1 to 32
    /// bits lets the fewest strange keys pass: with 8 bits 2.16 percent, with 10 bits 0.819, with 16 bits 0.0459.
    ///
    /// # Panics
    ///
    /// Panics if `bits_per_key` is 0, or the bits are 2^64 or more.
    pub fn for_keys(keys: u64, bits_per_key: u32) -> Self {
        let words = sized(keys, bits_per_key);
        Bloom { filter: proved::Bloom::for_keys(Global, keys, bits_per_key).unwrap_or_else(|_| no_memory::<u64>(words)) }
    }

    /// A filter of so many bits, and so many probes for each key.
    ///
    /// # Panics
    ///
    /// Panics if either is 0.
    pub fn with_shape(bits: u64, probes: u32) -> Self {
        assert!(bits > 0 && probes > 0, "a filter of no bits or no probes");
        let words = words_for(bits);
        Bloom { filter: proved::Bloom::new(Global, bits, probes).unwrap_or_else(|_| no_memory::<u64>(words)) }
    }

    /// Inserts the key, and tells whether it is new, as a set does: `true` says that it was not inserted before, and `false` that it
    /// possibly was.
    pub fn insert(&mut self, key: impl AsRef<[u8]>) -> bool {
        self.filter.insert(key.as_ref())
    }

    /// Whether the key is found: each that was inserted is, and few others are.
    pub fn contains(&self, key: impl AsRef<[u8]>) -> bool {
        self.filter.contains(key.as_ref())
    }

    /// Whether the other filter has as many bits and probes, so that [`union`](Bloom::union) takes it.
    pub fn fits(&self, other: &Self) -> bool {
        self.filter.fits(&other.filter)
    }

    /// Takes in what the other filter finds, as if its keys had been inserted here too.
    ///
    /// # Panics
    ///
    /// Panics if the other has other numbers of bits and probes.
    pub fn union(&mut self, other: &Self) {
        assert!(self.fits(other), "a filter of another shape");
        self.filter.union(&other.filter);
    }

    /// Takes all keys out.
    pub fn clear(&mut self) {
        self.filter.clear();
    }

    /// About how many different keys were inserted, by the bits that are set; `None` where all are.
    pub fn estimate(&self) -> Option<u64> {
        self.filter.estimate()
    }

    /// How many bits are set.
    pub fn ones(&self) -> u64 {
        self.filter.ones()
    }

    /// How many bits there are.
    pub fn bits(&self) -> u64 {
        self.filter.bits()
    }

    /// How many probes each key has.
    pub fn probes(&self) -> u32 {
        self.filter.probes()
    }

    /// The bits in words of 64, the lowest first.
    pub fn words(&self) -> &[u64] {
        self.filter.words()
    }

    /// The words, for which the filter is given up.
    pub fn into_words(self) -> Vec<u64> {
        self.filter.into_words().into()
    }

    /// The filter of these words, as [`words`](Bloom::words) gave them; `None` where no filter of so many bits and probes has them. The
    /// hashers are not stored: name the same two.
    pub fn from_words(words: Vec<u64>, bits: u64, probes: u32) -> Option<Self> {
        Some(Bloom { filter: proved::Bloom::from_words(words.into(), bits, probes).ok()? })
    }

    /// Writes the filter's file, with the names of its two hashers as they are to be asked for when it is read. It writes word by word:
    /// give it a `BufWriter`.
    ///
    /// # Errors
    ///
    /// The error of a write, after which a beginning of the file is written.
    pub fn write_to(&self, mut to: impl Write, pair: &str) -> io::Result<()> {
        self.filter.write_to(&mut to, pair)
    }

    /// Reads a filter's file back. It reads word by word: give it a `BufReader`.
    ///
    /// # Errors
    ///
    /// Where a read fails, there is no such file, it is damaged, or the filter is one over hashers of other names.
    pub fn read_from(mut from: impl Read, pair: &str) -> Result<Self, Unread> {
        Ok(Bloom { filter: proved::Bloom::read_from(Global, &mut from, pair)? })
    }
}

impl<F: Streamed, G: Streamed> Bloom<F, G> {
    /// Whether the key is found that these pieces are, joined.
    pub fn contains_pieces(&self, pieces: &[&[u8]]) -> bool {
        self.filter.contains_pieces(pieces)
    }
}

impl<K: AsRef<[u8]>, F: Piecewise, G: Piecewise> Extend<K> for Bloom<F, G> {
    fn extend<I: IntoIterator<Item = K>>(&mut self, keys: I) {
        for key in keys {
            self.insert(key);
        }
    }
}

/// [`union`](Bloom::union).
impl<F: Piecewise, G: Piecewise> BitOrAssign<&Self> for Bloom<F, G> {
    fn bitor_assign(&mut self, other: &Self) {
        self.union(other);
    }
}

impl<F: Piecewise, G: Piecewise> Clone for Bloom<F, G> {
    fn clone(&self) -> Self {
        let words = self.words().to_vec();
        Bloom { filter: proved::Bloom::from_words(words.into(), self.bits(), self.probes()).unwrap_or_else(|_| unreachable!()) }
    }
}

/// The same bits, and as many probes.
impl<F: Piecewise, G: Piecewise> PartialEq for Bloom<F, G> {
    fn eq(&self, other: &Self) -> bool {
        self.fits(other) && self.words() == other.words()
    }
}

impl<F: Piecewise, G: Piecewise> Eq for Bloom<F, G> {}

impl<F: Piecewise, G: Piecewise> fmt::Debug for Bloom<F, G> {
    fn fmt(&self, f: &mut fmt::Formatter) -> fmt::Result {
        f.debug_struct("Bloom").field("bits", &self.bits()).field("probes", &self.probes()).field("ones", &self.ones()).finish()
    }
}
