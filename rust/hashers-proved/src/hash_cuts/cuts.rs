//! Where a text is cut.

// What follows is the proved text of crates/hash_cuts/src/cuts.rt without its contracts.
// Clauses name the average, and proofs the loop.
#![allow(dead_code, unused_labels)]

use crate::hash_cuts::gear::Gear;

/// Where texts are cut into chunks. Contracts see the numbers that `new` takes.
pub struct Cuts {
    least: usize,
    average: usize,
    most: usize,
    gear: Gear,
    below: u64, // a hash below it is a cut
}

impl Cuts {
    /// Chunks of `least` to `most` bytes; `None` exactly if 64 ≤ `least` ≤ `average` ≤ `most` does not hold. From `least` on about one
    /// place in `average` is a boundary, if the bytes look random, which is measured. Other seeds give other boundaries.
    // inlined, the bound becomes a product and a test of its overflow for each byte
    /// Proved:
    ///
    /// ```text
    /// exact: IsSome result ↔ AreSizes least average most
    /// some: IfSome result (λ cuts. cuts ≡ cutting least average most seed1 seed2)
    /// ```
    #[inline(never)]
    pub fn new(least: usize, average: usize, most: usize, seed1: u64, seed2: u64) -> Option<Cuts> {
        if least < 64 || average < least || most < average {
            return None;
        }
        Some(Cuts {
            least,
            average,
            most,
            gear: Gear::new(seed1, seed2),
            below: u64::MAX / average as u64 + 1,
        })
    }

    /// A law with no code: the sizes are in their order, and the least is 64 at least.
    ///
    /// Proved:
    ///
    /// ```text
    /// HasSizes self.now
    /// ```
    #[inline]
    pub fn has_sizes(&self) {
        let _below = self.below;
    }

    /// The most bytes of a chunk.
    ///
    /// Proved:
    ///
    /// ```text
    /// value: result ≡ self.now.most
    /// sizes: HasSizes self.now
    /// ```
    #[inline]
    pub fn most(&self) -> usize {
        self.most
    }

    /// How many bytes the first chunk of the text has: up to the first cut from `least` bytes on, but at most `most`, and at most
    /// the whole text.
    ///
    /// Proved:
    ///
    /// ```text
    /// cut: result ≡ first_cut self.now text.now
    /// within: result ≤ length text.now
    /// some: 0 < length text.now → 0 < result
    /// sizes: HasSizes self.now
    /// ```
    #[inline]
    pub fn first_cut(&self, text: &[u8]) -> usize {
        let end = text.len().min(self.most);
        if end <= self.least {
            return end;
        }
        let mut hash = self.gear.hash(&text[self.least - 64..self.least]);
        let mut place = self.least;
        // four places a turn, as long as none of them is a cut
        'fours: while let Some((bytes, _)) = text[place..end].split_first_chunk::<4>() {
            let (one, two, three, four) = self.gear.four_steps(hash, bytes);
            if hash < self.below || one < self.below || two < self.below || three < self.below {
                break;
            }
            hash = four;
            place += 4;
        }
        for place in place..end {
            if hash < self.below {
                return place;
            }
            hash = self.gear.step(hash, text[place]);
        }
        end
    }

    /// Writes where the first chunks of the text end, in bytes from its beginning, and returns how many these are: all chunks, or as many
    /// as there are places for.
    ///
    /// Proved:
    ///
    /// ```text
    /// count: result ≡ min (length ends.old) (length (chunk_ends self.now text.now))
    /// written: ends.new ≡ take result (chunk_ends self.now text.now) ++ drop result ends.old
    /// ```
    #[inline]
    pub fn ends(&self, text: &[u8], ends: &mut [u64]) -> usize {
        let mut place = 0;
        let mut count = 0;
        while count < ends.len() && place < text.len() {
            place += self.first_cut(&text[place..]);
            ends[count] = place as u64;
            count += 1;
        }
        count
    }

    /// The chunks of the text, in their order.
    ///
    /// Proved:
    ///
    /// ```text
    /// result ≡ (self.now, text.now)
    /// ```
    #[inline]
    pub fn chunks<'a>(&'a self, text: &'a [u8]) -> Chunks<'a> {
        Chunks {
            cuts: self,
            rest: text,
        }
    }
}

/// The chunks of a text that are left. Contracts see where it is cut, and the text that is left.
pub struct Chunks<'a> {
    cuts: &'a Cuts,
    rest: &'a [u8],
}

impl<'a> Iterator for Chunks<'a> {
    type Item = &'a [u8];

    #[inline]
    fn next(&mut self) -> Option<&'a [u8]> {
        if self.rest.is_empty() {
            return None;
        }
        let (chunk, rest) = self.rest.split_at(self.cuts.first_cut(self.rest));
        self.rest = rest;
        Some(chunk)
    }
}
