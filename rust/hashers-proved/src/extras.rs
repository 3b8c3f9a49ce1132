//! What Rust's users expect of the types and Rattle's text does not say: copies, comparison, `Debug`, defaults, `unwrite` as a method, both
//! words of SpookyHash in one call. It is written by hand, and trusted; each function calls proved functions alone. Equality goes by what
//! `finish` answers: different states answer differently by the law `answer_injective` of `Undo`, or the answer is the whole state.
use crate::hash_blocks::{BlockHasher, BlockRule};
use crate::hash_bytes::null::{NullHasher, PassThroughRule};
use crate::hash_bytes::oz::{LoseLoseState, SdbmState};
use crate::hash_fx::{FxSplit, WordHasher};
use crate::hash_jenkins::spooky_hash::{SpookyHasher, SpookyV1Hasher};
use crate::hash_jenkins::spooky_parts::SpookyParts;
use crate::hash_kinds::wide::{both, WideHash};
use crate::hash_jenkins::Lookup3Hasher;
use crate::hashers::jenkins::BuildSpooky;
use crate::hash_keyed::pair::Poly61Pair;
use crate::hash_keyed::poly61::Poly61Hasher;
use crate::hash_laws::traits::Undo;
use crate::hash_more::elf::ElfHasher;
use crate::hash_blocks::murmur3::{Murmur3Hasher128, Murmur3Hasher32};
use crate::hash_map_keys::hasher::MapHasher;
use crate::hash_map_keys::xxh3_pieces::{BuildXxh3Pieces, Xxh3Pieces};
use crate::hash_rounds::Turns;
use crate::hash_laws::rules::{ByteHasher, ByteRule, UndoRule};
use crate::hash_blocks::siphash::{SipHasher13, SipKey};
use crate::hash_writes::build::BuildFresh;
use crate::hash_xxh3::{xxh3_128, BuildXxh3, Xxh3Hasher};
use crate::hash_blocks::xxhash::{Xxh32Hasher, Xxh64Hasher};
use core::fmt;
use core::hash::{BuildHasher, Hasher};

/// Ends the program as std's collections do, where there is no memory for so many items, and panics as they do where these are more than
/// `isize::MAX` bytes. The proved calls don't tell what was refused: a list that grows asks for more than its new items.
#[cfg(feature = "std")]
pub(crate) fn no_memory<T>(count: usize) -> ! {
    real_std::alloc::handle_alloc_error(core::alloc::Layout::array::<T>(count).expect("capacity overflow"))
}

/// `Clone` as `Copy` has it.
macro_rules! copies {
    ($([$($bound:tt)*] $type:ty $(, $condition:ty)?;)*) => {$(
        impl<$($bound)*> Clone for $type $(where $condition: Copy)? {
            #[inline(always)]
            fn clone(&self) -> Self {
                *self
            }
        }

        impl<$($bound)*> Copy for $type $(where $condition: Copy)? {}
    )*};
}

copies! {
    [] Turns;
    [] SdbmState;
    [] LoseLoseState;
    [R: ByteRule] ByteHasher<R>, R::State;
    [W: FxSplit, Name] WordHasher<W, Name>;
    [] Lookup3Hasher;
    [] NullHasher;
    [] SpookyHasher;
    [] SpookyV1Hasher;
    [] Xxh3Hasher;
    [R: BlockRule<N>, const N: usize] BlockHasher<R, N>;
    [] Poly61Hasher;
    [] Poly61Pair;
    ['a] MapHasher<'a>;
    [] Xxh3Pieces;
}

/// `io::Write`, so that `io::copy` hashes a file, and a method `write`, which is `Hasher`'s where both traits are imported.
macro_rules! takes_bytes {
    ($([$($bound:tt)*] $type:ty;)*) => {$(
        impl<$($bound)*> $type {
            /// `Hasher::write`, with no import.
            #[inline(always)]
            pub fn write(&mut self, bytes: &[u8]) {
                Hasher::write(self, bytes);
            }
        }

        /// For `io::copy`. The hashes of lookup3 and fx depend on how the input is split, and `io::copy` does not say how it splits: take
        /// `reader::hash_reader` for these two.
        #[cfg(feature = "std")]
        impl<$($bound)*> real_std::io::Write for $type {
            #[inline]
            fn write(&mut self, bytes: &[u8]) -> real_std::io::Result<usize> {
                Hasher::write(self, bytes);
                Ok(bytes.len())
            }

            #[inline]
            fn flush(&mut self) -> real_std::io::Result<()> {
                Ok(())
            }
        }
    )*};
}

takes_bytes! {
    [R: ByteRule] ByteHasher<R>;
    [W: FxSplit, Name] WordHasher<W, Name>;
    [] Lookup3Hasher;
    [] NullHasher;
    [] SpookyHasher;
    [] SpookyV1Hasher;
    [] Xxh3Hasher;
    [R: BlockRule<N>, const N: usize] BlockHasher<R, N>;
    [] Poly61Hasher;
    [] Poly61Pair;
    ['a] MapHasher<'a>;
    [] Xxh3Pieces;
}
#[cfg(feature = "std")]
takes_bytes! {
    [] crate::text_set::KeyedHasher;
}

/// `reset`, which takes the seed or key again, since a hasher does not keep it.
macro_rules! resets {
    ($([$($bound:tt)*] $type:ty, $new:ident($($seed:ident: $of:ty),*);)*) => {$(
        impl<$($bound)*> $type {
            /// Starts again, as a new hasher that has read no bytes.
            #[inline]
            pub fn reset(&mut self $(, $seed: $of)*) {
                *self = Self::$new($($seed),*);
            }
        }
    )*};
}

resets! {
    [R: ByteRule] ByteHasher<R>, default();
    [W: FxSplit, Name] WordHasher<W, Name>, default();
    [] Lookup3Hasher, default();
    [] NullHasher, default();
    [] SpookyHasher, new(seed1: u64, seed2: u64);
    [] SpookyV1Hasher, new(seed1: u64, seed2: u64);
    [] Xxh3Hasher, new(seed: u64);
    [R: BlockRule<N>, const N: usize] BlockHasher<R, N>, new(seed: R::Seed);
    [] Poly61Hasher, new(key: u64);
    [] Poly61Pair, new(first: u64, second: u64);
}

/// The hash of 128 bits as one number, whose digits are those that `hashsum` prints.
macro_rules! wide {
    ($($type:ty;)*) => {$(
        impl $type {
            /// The 128 bits of [`finish128`](Self::finish128) as one number, whose digits are those that `hashsum` prints.
            #[inline]
            pub fn finish_u128(&self) -> u128 {
                self.wide()
            }
        }
    )*};
}

wide! {
    SpookyHasher;
    Murmur3Hasher128;
    Xxh3Hasher;
}

/// XXH3 of 128 bits as one number; [`xxh3_128`] returns its low word first.
#[inline]
pub fn xxh3_u128(seed: u64, bytes: &[u8]) -> u128 {
    let (low, high) = xxh3_128(seed, bytes);
    both((high, low))
}

/// A hash of 32 bits as a `u32`.
macro_rules! as_u32 {
    ($($name:ident of $whole:path;)*) => {$(
        #[doc = concat!("[`", stringify!($whole), "`] as a `u32`.")]
        #[inline]
        pub fn $name(bytes: &[u8]) -> u32 {
            $whole(bytes) as u32
        }
    )*};
}

as_u32! {
    fnv1a32_u32 of crate::fnv::fnv1a32;
    crc32_u32 of crate::crc32::crc32;
    crc32c_u32 of crate::crc32::crc32c;
}

/// Hashers under a seed, for std's maps and sets.
macro_rules! builds {
    ($($name:ident, $hasher:ident, $seed:ty;)*) => {$(
        #[doc = concat!("[`", stringify!($hasher), "`]s under one seed, for std's maps and sets; by `default()` the seed is 0.")]
        /// A random seed gives each map another order, and is no protection: it can be found out.
        #[derive(Clone, Copy, Default)]
        pub struct $name {
            seed: $seed,
        }

        impl $name {
            /// This seed.
            #[inline]
            pub const fn with_seed(seed: $seed) -> $name {
                $name { seed }
            }

            /// A seed from the randomness of std's `RandomState`. Each call has another one.
            #[cfg(feature = "std")]
            pub fn random() -> $name {
                $name::with_seed(random_word() as $seed)
            }
        }

        impl BuildHasher for $name {
            type Hasher = $hasher;

            #[inline]
            fn build_hasher(&self) -> $hasher {
                $hasher::new(self.seed)
            }
        }
    )*};
}

builds! {
    BuildXxh32, Xxh32Hasher, u32;
    BuildXxh64, Xxh64Hasher, u64;
    BuildMurmur3At32, Murmur3Hasher32, u32;
    BuildMurmur3At128, Murmur3Hasher128, u64;
}

/// A seed, and 0 by `default()`, which everybody knows: so a map by `default()`, and one that is collected, has it.
macro_rules! seeded {
    ($($name:ident;)*) => {$(
        impl $name {
            /// This seed.
            #[inline]
            pub const fn with_seed(seed: u64) -> $name {
                $name { seed }
            }

            /// A seed from the randomness of std's `RandomState`. Each call has another one.
            #[cfg(feature = "std")]
            pub fn random() -> $name {
                $name::with_seed(random_word())
            }
        }

        impl Default for $name {
            #[inline]
            fn default() -> $name {
                $name { seed: 0 }
            }
        }
    )*};
}

seeded! {
    BuildXxh3;
    BuildXxh3Pieces;
}

/// The seed 0.
impl Default for Xxh3Pieces {
    #[inline]
    fn default() -> Xxh3Pieces {
        Xxh3Pieces { state: 0 }
    }
}

/// Equality and `Debug` by what `finish` answers.
macro_rules! by_answer {
    ($([$($bound:tt)*] $type:ty, $name:literal;)*) => {$(
        impl<$($bound)*> PartialEq for $type {
            #[inline]
            fn eq(&self, other: &Self) -> bool {
                self.finish() == other.finish()
            }
        }

        impl<$($bound)*> Eq for $type {}

        impl<$($bound)*> fmt::Debug for $type {
            fn fmt(&self, f: &mut fmt::Formatter) -> fmt::Result {
                f.debug_tuple($name).field(&self.finish()).finish()
            }
        }
    )*};
}

by_answer! {
    [R: UndoRule] ByteHasher<R>, "ByteHasher";
    [W: FxSplit, Name] WordHasher<W, Name>, "WordHasher";
    [] ByteHasher<PassThroughRule>, "PassThroughHasher";
    [] Lookup3Hasher, "Lookup3Hasher";
    [] NullHasher, "NullHasher";
    [] ElfHasher, "ElfHasher";
}

impl fmt::Debug for SpookyHasher {
    fn fmt(&self, f: &mut fmt::Formatter) -> fmt::Result {
        f.debug_tuple("SpookyHasher").field(&self.finish128()).finish()
    }
}

impl fmt::Debug for SpookyV1Hasher {
    fn fmt(&self, f: &mut fmt::Formatter) -> fmt::Result {
        f.debug_tuple("SpookyV1Hasher").field(&self.finish128()).finish()
    }
}

impl<R: UndoRule> ByteHasher<R> {
    /// Takes the last bytes out again: [`Undo::unwrite`], with no import.
    #[inline]
    pub fn unwrite(&mut self, bytes: &[u8]) {
        Undo::unwrite(self, bytes);
    }
}

impl<W: FxSplit, Name> WordHasher<W, Name> {
    /// Takes the last bytes out again: [`Undo::unwrite`], with no import.
    #[inline]
    pub fn unwrite(&mut self, bytes: &[u8]) {
        Undo::unwrite(self, bytes);
    }
}

/// SpookyHash of the bytes under two seeds, as two words.
#[inline]
pub fn spooky128(seed1: u64, seed2: u64, bytes: &[u8]) -> (u64, u64) {
    let mut parts = SpookyParts::new(seed1, seed2);
    parts.write(bytes);
    parts.finish128()
}

/// The same by version 1, the form of the crate hashers 1.0.1.
#[inline]
pub fn spooky128_v1(seed1: u64, seed2: u64, bytes: &[u8]) -> (u64, u64) {
    let mut parts = SpookyParts::new(seed1, seed2);
    parts.write(bytes);
    parts.finish128_v1()
}

impl<H> fmt::Debug for BuildFresh<H> {
    fn fmt(&self, f: &mut fmt::Formatter) -> fmt::Result {
        f.write_str("BuildFresh")
    }
}

/// The seeds 0, which everybody knows: so a map by `default()`, and one that is collected, has them.
impl Default for BuildSpooky {
    #[inline]
    fn default() -> BuildSpooky {
        BuildSpooky { seed1: 0, seed2: 0 }
    }
}

#[cfg(feature = "std")]
impl fmt::Debug for crate::reader::Taken {
    fn fmt(&self, f: &mut fmt::Formatter) -> fmt::Result {
        f.debug_struct("Taken").field("bytes", &self.bytes).field("ended", &self.ended).finish()
    }
}

/// A random word, from the randomness of std's `RandomState`.
#[cfg(feature = "std")]
pub(crate) fn random_word() -> u64 {
    real_std::hash::RandomState::new().build_hasher().finish()
}

/// Random keys for the keys of maps: a multiplier for each word of a key's first 128 bytes and for what is after them, an addend, and a key for
/// texts, 296 bytes in all. They stay where they are: [`hashers`](MapKeys::hashers) is a reference to them.
#[derive(Clone)]
pub struct MapKeys {
    pub(crate) multipliers: [u128; 17],
    pub(crate) addend: u128,
    pub(crate) text_key: u64,
}

impl MapKeys {
    /// Fixed keys protect nothing: whoever knows them finds keys of maps that all meet. These are for tests, and for keys that you draw: any
    /// numbers.
    #[inline]
    pub const fn with_keys(multipliers: [u128; 17], addend: u128, text_key: u64) -> MapKeys {
        MapKeys { multipliers, addend, text_key }
    }

    /// The same in 37 words: of each multiplier and of the addend the high half before the low one, then the key for texts.
    #[inline]
    pub fn from_words(words: &[u64; 37]) -> MapKeys {
        let wide = |place: usize| u128::from(words[2 * place]) << 64 | u128::from(words[2 * place + 1]);
        MapKeys::with_keys(core::array::from_fn(wide), wide(17), words[36])
    }

    /// Keys for one map alone, each of whose 37 words is drawn from the system: some microseconds on Unix, where `/dev/urandom` is read, and
    /// else as long as 37 threads take to start. `MapHashers::default()` draws them once a process.
    #[cfg(feature = "std")]
    pub fn random() -> MapKeys {
        let drawn = MapKeys::from_words(&system_words());
        MapKeys::with_keys(drawn.multipliers.map(|it| it.max(1)), drawn.addend, 1 + drawn.text_key % ((1 << 61) - 2))
    }

    /// The hashers at these keys, for maps: `HashMap::with_hasher(keys.hashers())`.
    #[inline]
    pub const fn hashers(&self) -> MapHashers<'_> {
        MapHashers { keys: self }
    }
}

/// Words from the system. std gives none but the keys of `RandomState`, which a thread draws once and counts on from: where there is no
/// `/dev/urandom`, each word is a hash under the keys of a thread of its own.
#[cfg(feature = "std")]
fn system_words() -> [u64; 37] {
    let mut bytes = [[0; 8]; 37];
    let file = real_std::fs::File::open("/dev/urandom");
    match file.and_then(|mut file| real_std::io::Read::read_exact(&mut file, bytes.as_flattened_mut())) {
        Ok(()) if cfg!(unix) => bytes.map(u64::from_le_bytes),
        _ => bytes.map(|_| match real_std::thread::Builder::new().spawn(random_word) {
            Ok(drawn) => drawn.join().unwrap_or_else(|_| random_word()),
            Err(_) => random_word(),
        }),
    }
}

/// The hashers at some keys: a reference of eight bytes.
#[derive(Clone, Copy)]
pub struct MapHashers<'a> {
    keys: &'a MapKeys,
}

/// Random keys, which are drawn once a process: so a map by `default()`, and one that is collected, has them.
#[cfg(feature = "std")]
impl Default for MapHashers<'static> {
    #[inline]
    fn default() -> MapHashers<'static> {
        static KEYS: real_std::sync::LazyLock<MapKeys> = real_std::sync::LazyLock::new(MapKeys::random);
        KEYS.hashers()
    }
}

impl<'a> BuildHasher for MapHashers<'a> {
    type Hasher = MapHasher<'a>;

    #[inline(always)]
    fn build_hasher(&self) -> MapHasher<'a> {
        MapHasher { keys: self.keys, sum: self.keys.addend, held: 0, rest: None }
    }
}

/// A map of std under the random keys of the process: `KeyMap::default()` is an empty one.
#[cfg(feature = "std")]
pub type KeyMap<K, V> = real_std::collections::HashMap<K, V, MapHashers<'static>>;

/// A set of std under the same keys.
#[cfg(feature = "std")]
pub type KeySet<K> = real_std::collections::HashSet<K, MapHashers<'static>>;

/// Hashers by SipHash-1-3 under one key, for std's maps and sets, as std's `RandomState` has them. Take a random key where somebody else
/// chooses what is hashed: that it protects is what SipHash's authors claim, and nothing that is proved.
#[derive(Clone, Copy)]
pub struct SipKeys {
    key: SipKey,
}

impl SipKeys {
    /// This key, as two words.
    #[inline]
    pub const fn with_keys(k0: u64, k1: u64) -> SipKeys {
        SipKeys { key: SipKey { k0, k1 } }
    }

    /// A key from the randomness of std's `RandomState`. Each call has another one.
    #[cfg(feature = "std")]
    pub fn random() -> SipKeys {
        SipKeys::with_keys(random_word(), random_word())
    }
}

/// A random key, as std's `RandomState` has it: so a map by `default()`, and one that is collected, has a key of its own.
#[cfg(feature = "std")]
impl Default for SipKeys {
    fn default() -> SipKeys {
        SipKeys::random()
    }
}

impl BuildHasher for SipKeys {
    type Hasher = SipHasher13;

    #[inline]
    fn build_hasher(&self) -> SipHasher13 {
        SipHasher13::new(self.key)
    }
}

/// `Debug` by the name alone: neither a key or seed nor a hash, from which it may come out.
macro_rules! tells_no_key {
    ($([$($bound:tt)*] $type:ident $(<$($of:ident),*>)?;)*) => {$(
        impl<$($bound)*> fmt::Debug for $type $(<$($of),*>)? {
            fn fmt(&self, f: &mut fmt::Formatter) -> fmt::Result {
                f.debug_struct(stringify!($type)).finish_non_exhaustive()
            }
        }
    )*};
}

tells_no_key! {
    [] BuildSpooky;
    [] BuildXxh3;
    [] BuildXxh3Pieces;
    [] Xxh3Pieces;
    [] BuildXxh32;
    [] BuildXxh64;
    [] BuildMurmur3At32;
    [] BuildMurmur3At128;
    [] Xxh3Hasher;
    [R: BlockRule<N>, const N: usize] BlockHasher<R, N>;
    [] Poly61Hasher;
    [] Poly61Pair;
    [] MapKeys;
    [] SipKeys;
}

impl fmt::Debug for MapHashers<'_> {
    fn fmt(&self, f: &mut fmt::Formatter) -> fmt::Result {
        f.write_str("MapHashers { .. }")
    }
}

impl fmt::Debug for MapHasher<'_> {
    fn fmt(&self, f: &mut fmt::Formatter) -> fmt::Result {
        f.write_str("MapHasher { .. }")
    }
}
