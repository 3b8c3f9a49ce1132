//! Which two keys a key file may have.

// What follows is the proved text of crates/hashsum_core/src/keys.rt without its contracts.
use crate::cli;
use hashers_proved::shim::std;

use cli::folder::Folder;
use cli::keys::keys_of;
use std::io::{Error, ErrorKind, Read};

/// The prime of poly61.
const PRIME61: u64 = (1 << 61) - 1;

/// Which two keys a file may have.
#[derive(Clone, Copy)]
pub enum KeyRule {
    /// Any.
    Any,
    /// Those that `poly61` takes.
    Poly61,
}

/// What is wrong with two keys by a rule, if something is.
///
/// Proved:
///
/// ```text
/// MatchOption result (MayBeKeys rule keys) (λ words. ¬ (MayBeKeys rule keys))
/// ```
#[inline]
fn fault_of(rule: KeyRule, keys: (u64, u64)) -> Option<&'static str> {
    let (first, second) = (keys.0 % PRIME61, keys.1 % PRIME61);
    if let KeyRule::Any = rule {
        return None;
    }
    if first == 0 || second == 0 {
        return Some("a key is 0 modulo 2^61 - 1; make others");
    }
    if first == second {
        return Some("the two keys are equal modulo 2^61 - 1; make others");
    }
    None
}

/// The keys in a key file, if there is one, as the rule has them. `None` if it has none such.
///
/// Proved:
///
/// ```text
/// let file = option_map (λ name. name.now) file.entry in
///     MatchOption result (IsSome file) (AreKeysFor rule (F.opens folder.now) file)
/// ```
#[inline]
pub fn keys_for<R: Read, F: Folder<R>>(
    folder: &F,
    file: Option<&[u8]>,
    rule: KeyRule,
) -> Option<Option<(u64, u64)>> {
    let Some(name) = file else {
        return Some(None);
    };
    let keys = keys_of(folder, name)?;
    match fault_of(rule, keys) {
        None => Some(Some(keys)),
        Some(words) => {
            folder.failed(name, &Error::new(ErrorKind::InvalidData, words));
            None
        }
    }
}
