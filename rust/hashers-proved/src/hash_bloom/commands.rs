//! What stands after any list of commands, and what follows: no key is forgotten.

// What follows is the proved text of crates/hash_bloom/src/commands.rt without its contracts.
use crate::hashers;
use crate::shim::{Vec, std};

use crate::hash_bloom::{Bloom, NoFilter};
use hashers::laws::Piecewise;
use std::alloc::{AllocError, Global};

/// A step of a run on a filter.
pub enum Command<F: Piecewise, G: Piecewise> {
    /// Inserts the key.
    Insert(Vec<u8>),
    /// Adds the bits of another filter, of as many bits and probes.
    Union(Bloom<F, G>),
    /// Takes the filter's words, and makes the filter of them again.
    Store,
}

/// Does a command. The bits that were set stay, those of the command are set, and no others.
///
/// The caller has to see to it that:
///
/// ```text
/// CanRun filter command
/// ```
///
/// Proved:
///
/// ```text
/// Adds filter result (SetsBit F.hash_of G.hash_of filter command)
/// ```
#[inline]
pub fn obey<F: Piecewise, G: Piecewise>(
    mut filter: Bloom<F, G>,
    command: Command<F, G>,
) -> Bloom<F, G> {
    match command {
        Command::Insert(key) => {
            filter.insert(&key);
            filter
        }
        Command::Union(other) => {
            filter.union(&other);
            filter
        }
        Command::Store => {
            let (bits, probes) = (filter.bits(), filter.probes());
            match Bloom::from_words(filter.into_words(), bits, probes) {
                Ok(filter) => filter,
                Err(NoFilter { words: _ }) => unreachable!(),
            }
        }
    }
}

/// Does the commands in order. A bit is set afterwards exactly where it was, or where some command sets it: an insert sets the
/// probes of its key, and a union the bits of its filter. Each key that was inserted is found.
///
/// The caller has to see to it that:
///
/// ```text
/// All (CanRun filter) commands.items
/// ```
///
/// Proved:
///
/// ```text
/// set: Adds filter result (AnySetsBit F.hash_of G.hash_of filter commands.items)
/// found: (key : List ℕ) → Inserts commands.items key
///     → Passes F.hash_of G.hash_of result key
/// ```
#[inline]
pub fn obey_all<F: Piecewise, G: Piecewise>(
    mut filter: Bloom<F, G>,
    commands: Vec<Command<F, G>>,
) -> Bloom<F, G> {
    for command in commands {
        filter = obey(filter, command);
    }
    filter
}

/// Whether the key is found after the commands. No false negative: after any list of inserts, unions and stores each key that
/// was inserted is found.
///
/// The caller has to see to it that:
///
/// ```text
/// All (CanRun filter) commands.items
/// ```
///
/// Proved:
///
/// ```text
/// exactly: IsTrue result
///     ↔ IsKnownAfter F.hash_of G.hash_of filter commands.items key.now
/// inserted: Inserts commands.items key.now → IsTrue result
/// ```
#[inline]
pub fn found_after<F: Piecewise, G: Piecewise>(
    filter: Bloom<F, G>,
    commands: Vec<Command<F, G>>,
    key: &[u8],
) -> bool {
    obey_all(filter, commands).contains(key)
}

/// What `insert` answers after the commands: whether the key is new. Where it is, no command had inserted it.
///
/// The caller has to see to it that:
///
/// ```text
/// All (CanRun filter) commands.items
/// ```
///
/// Proved:
///
/// ```text
/// exactly: (result ≡ false)
///     ↔ IsKnownAfter F.hash_of G.hash_of filter commands.items key.now
/// new: IsTrue result → Inserts commands.items key.now → ⊥
/// ```
#[inline]
pub fn new_after<F: Piecewise, G: Piecewise>(
    filter: Bloom<F, G>,
    commands: Vec<Command<F, G>>,
    key: &[u8],
) -> bool {
    obey_all(filter, commands).insert(key)
}

/// What a filter of no keys answers to a key: `false`. It refuses only where there is no memory for the filter.
///
/// The caller has to see to it that:
///
/// ```text
/// bits: 1 ≤ bits
/// probes: 1 ≤ probes
/// ```
///
/// Proved:
///
/// ```text
/// IfOk result (λ found. found ≡ false)
/// ```
#[inline]
pub fn empty_finds_nothing<F: Piecewise, G: Piecewise>(
    alloc: Global,
    bits: u64,
    probes: u32,
    key: &[u8],
) -> Result<bool, AllocError> {
    let filter = Bloom::<F, G>::new(alloc, bits, probes)?;
    Ok(filter.contains(key))
}

/// Adds the bits of the other filter, and answers whether the key is found then: it is where either found it.
///
/// The caller has to see to it that:
///
/// ```text
/// Fits filter.old other.now
/// ```
///
/// Proved:
///
/// ```text
/// exactly: IsTrue result
///     ↔ IsCovered F.hash_of G.hash_of filter.old key.now (IsSet other.now)
/// one: Passes F.hash_of G.hash_of filter.old key.now → IsTrue result
/// other: Passes F.hash_of G.hash_of other.now key.now → IsTrue result
/// ```
#[inline]
pub fn found_in_union<F: Piecewise, G: Piecewise>(
    filter: &mut Bloom<F, G>,
    other: &Bloom<F, G>,
    key: &[u8],
) -> bool {
    filter.union(other);
    filter.contains(key)
}
