//! What hashers promise, and what follows for all of them.
//!
//! A text is a list of bytes, a piece is a text that is fed in one call, and a state is what a hasher keeps of what it
//! was fed. Each type says what its states are, which state a piece leads to and what a state answers, and proves the
//! laws of its traits. The generic functions below are proved once, from these laws alone.

// What follows is the proved text of crates/hash_laws/src/traits.rt without its contracts.
use crate::std;

use std::hash::Hasher;

/// A hasher whose state after a piece, and whose answer, have definitions.
///
/// std's `Hasher` says that `write` and `finish` are functions of the hasher, and not which. So generic code calls `feed`
/// and `answer`, which are `write` and `finish` under this trait's contract.
pub trait Piecewise: Default + Hasher {
    /// A default hasher.
    ///
    /// Proved:
    ///
    /// ```text
    /// is_default: Self.is_default result
    /// state: state result ≡ fresh
    /// in_range: in_range (state result)
    /// ```
    #[inline]
    fn fresh() -> Self {
        Self::default()
    }

    /// A law with no code: a hasher's state is in range.
    ///
    /// Proved:
    ///
    /// ```text
    /// in_range (state self.now)
    /// ```
    fn state_in_range(&self);

    /// Takes a piece in: `write` under this trait's contract.
    ///
    /// Proved:
    ///
    /// ```text
    /// written: self.new ≡ Self.write self.old piece.now
    /// state: state self.new ≡ after (state self.old) piece.now
    /// in_range_before: in_range (state self.old)
    /// in_range_after: in_range (state self.new)
    /// text: IsText piece.now
    /// ```
    #[inline(always)]
    fn feed(&mut self, piece: &[u8]) {
        self.state_in_range();
        self.write(piece);
    }

    /// The hash of what was fed so far: `finish` under this trait's contract. Asking changes nothing.
    ///
    /// Proved:
    ///
    /// ```text
    /// finished: result ≡ Self.finish self.now
    /// value: result ≡ answer (state self.now)
    /// in_range: in_range (state self.now)
    /// ```
    #[inline(always)]
    fn answer(&self) -> u64 {
        self.state_in_range();
        self.finish()
    }

    /// The hash of a text in one call. A type with a shorter way than a default hasher, `feed` and `answer` takes it here, and
    /// whatever hashes whole texts goes that way.
    ///
    /// Proved:
    ///
    /// ```text
    /// result ≡ hash_of text.now
    /// ```
    #[inline]
    fn whole(text: &[u8]) -> u64 {
        let mut hasher = Self::fresh();
        hasher.feed(text);
        hasher.answer()
    }

    /// Another hasher of the same value: a text's beginning is hashed once, and many endings after it.
    ///
    /// Proved:
    ///
    /// ```text
    /// result ≡ self.now
    /// ```
    fn fork(&self) -> Self;
}

/// A hasher of texts: how a text was split into pieces does not matter.
pub trait Streamed: Piecewise {}

/// A hasher whose pieces can be taken out again.
pub trait Undo: Piecewise {
    /// Takes a piece out again, whether or not it was fed: the inverse of `feed` of the same piece, both ways, on
    /// every state.
    ///
    /// Proved:
    ///
    /// ```text
    /// back: Self.after (Self.state self.new) piece.now ≡ Self.state self.old
    /// undone: (s : Self.State) → Self.in_range s
    ///     → Self.after s piece.now ≡ Self.state self.old → Self.state self.new ≡ s
    /// in_range_before: Self.in_range (Self.state self.old)
    /// in_range_after: Self.in_range (Self.state self.new)
    /// text: IsText piece.now
    /// ```
    fn unwrite(&mut self, piece: &[u8]);

    /// The one hasher that answers so, or `None` exactly where the type has none.
    ///
    /// Proved:
    ///
    /// ```text
    /// exact: IsSome result ↔ is_answer answer
    /// some: IfSome result (λ h. Self.answer (Self.state h) ≡ answer)
    /// in_range: IfSome result (λ h. Self.in_range (Self.state h))
    /// none: IfNone result ((s : Self.State) → Self.in_range s → Self.answer s ≢ answer)
    /// ```
    fn unfinish(answer: u64) -> Option<Self>;
}

/// A hasher that goes a step for each byte.
pub trait ByteStep: Undo + Streamed {
    /// Takes one byte in.
    ///
    /// Proved:
    ///
    /// ```text
    /// state: Self.state self.new ≡ Self.after (Self.state self.old) (byte ∷ [])
    /// in_range_before: Self.in_range (Self.state self.old)
    /// in_range_after: Self.in_range (Self.state self.new)
    /// ```
    fn step(&mut self, byte: u8);

    /// Takes one byte out again: the inverse of `step` of the same byte, both ways, on every state.
    ///
    /// Proved:
    ///
    /// ```text
    /// back: Self.after (Self.state self.new) (byte ∷ []) ≡ Self.state self.old
    /// undone: (s : Self.State) → Self.in_range s
    ///     → Self.after s (byte ∷ []) ≡ Self.state self.old → Self.state self.new ≡ s
    /// in_range_before: Self.in_range (Self.state self.old)
    /// in_range_after: Self.in_range (Self.state self.new)
    /// ```
    fn unstep(&mut self, byte: u8);
}

/// Feeds the pieces in order. The state is the fold of the definition over the pieces.
///
/// Proved:
///
/// ```text
/// H.state h.new ≡ fold H.after (H.state h.old) (texts pieces.now)
/// ```
#[inline]
pub fn run_pieces<H: Piecewise>(h: &mut H, pieces: &[&[u8]]) {
    for piece in pieces {
        h.feed(piece);
    }
}

/// Feeds the pieces in order, of which only the joined text counts: what stood at (start, text) stands at (start, text
/// followed by the joined pieces), and its answer is the definition of that text.
///
/// Proved:
///
/// ```text
/// none: pieces.now ≡ [] → h.new ≡ h.old
/// one: pieces.now ≢ [] → H.state h.new ≡ H.after (H.state h.old) (joined pieces.now)
/// state: H.in_range (H.state h.old) → H.state h.new ≡ H.after (H.state h.old) (joined pieces.now)
/// stands: (from text : List ℕ) → H.stands_at h.old from text
///     → H.stands_at h.new from (text ++ joined pieces.now)
/// answers: (from text : List ℕ) → H.stands_at h.old from text
///     → H.answer (H.state h.new) ≡ H.hash_from from (text ++ joined pieces.now)
/// text: IsText (joined pieces.now)
/// ```
#[inline]
pub fn run_streamed<H: Streamed>(h: &mut H, pieces: &[&[u8]]) {
    for more in pieces {
        h.feed(more);
    }
}

/// The hash of the joined pieces, from the default start.
///
/// Proved:
///
/// ```text
/// defined: result ≡ H.hash_from H.start (joined pieces.now)
/// value: result ≡ H.hash_of (joined pieces.now)
/// text: IsText (joined pieces.now)
/// ```
#[inline]
pub fn answer_of_pieces<H: Streamed>(pieces: &[&[u8]]) -> u64 {
    let mut hasher = H::fresh();
    run_streamed(&mut hasher, pieces);
    hasher.answer()
}

/// Feeds the pieces to both hashers, in order. Their answers are equal afterwards exactly if they were equal before.
///
/// Proved:
///
/// ```text
/// first: H.state a.new ≡ fold H.after (H.state a.old) (texts pieces.now)
/// second: H.state b.new ≡ fold H.after (H.state b.old) (texts pieces.now)
/// alike: (H.answer (H.state a.new) ≡ H.answer (H.state b.new))
///     ↔ (H.answer (H.state a.old) ≡ H.answer (H.state b.old))
/// ```
#[inline]
pub fn run_pair<H: Undo>(a: &mut H, b: &mut H, pieces: &[&[u8]]) {
    for piece in pieces {
        a.feed(piece);
        b.feed(piece);
    }
}

/// The hash of a text: what the default hasher answers to it as one piece. For a [`Streamed`] hasher it is the
/// definition of the text from the default start, by the law `hash_from_start`.
///
/// Proved:
///
/// ```text
/// value: result ≡ H.hash_of text.now
/// defined: result ≡ H.answer (H.after H.fresh text.now)
/// text: IsText text.now
/// ```
#[inline(always)]
pub fn hash_of<H: Piecewise>(text: &[u8]) -> u64 {
    bytes_are_a_text(text);
    H::whole(text)
}

/// The bucket of a key among `n`: the hash of the key, mod `n`. Takes no memory.
///
/// The caller has to see to it that:
///
/// ```text
/// 1 ≤ n
/// ```
///
/// Proved:
///
/// ```text
/// result ≡ H.hash_of key.now % n
/// ```
#[inline(always)]
pub fn bucket_of<H: Piecewise>(key: &[u8], n: u64) -> u64 {
    hash_of::<H>(key) % n
}

/// A law with no code: bytes are a text.
///
/// Proved:
///
/// ```text
/// IsText bytes.now
/// ```
#[inline]
pub fn bytes_are_a_text(bytes: &[u8]) {
    let _ = bytes;
}

/// A law with no code: the UTF-8 of a string is a text.
///
/// Proved:
///
/// ```text
/// IsText string.now
/// ```
#[inline]
pub fn string_is_a_text(string: &str) {
    let _ = string;
}
