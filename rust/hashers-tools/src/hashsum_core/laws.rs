//! What a check is proved to see, as laws with no code of their own, over any files: of the text that was read of a file. Of a file whose
//! bytes are not known, as one of the disk, they say that some text has the hash. A text's length is that of its file.
//! Behind them what they
//! say of each hash of the table, in words.

// What follows is the proved text of crates/hashsum_core/src/laws.rt without its contracts.
// The laws alone name the hashes.
#![allow(unused_imports)]
use crate::cli;
use hashers_proved::{hash_kinds, hash_lines, hash_more, hash_names, hashers};
use hashers_proved::shim::std;

use cli::folder::Folder;
use hash_kinds::table::Kind;
use hash_lines::sums::{Sum, Wide};
use hash_more::crc32::{Crc32Hasher, Crc32cHasher};
use hash_more::djb2_add::Djb2AddHasher;
use hash_more::elf::ElfHasher;
use hash_more::fnv1::{Fnv1Hasher32, Fnv1Hasher64};
use hash_more::joaat::JoaatHasher;
use hash_names::table::Ported;
use hashers::fnv::{FNV1aHasher32, FNV1aHasher64};
use hashers::fx_hash::{FxHasher32, FxHasher64};
use hashers::jenkins::OAATHasher;
use hashers::oz::{DJB2Hasher, LoseLoseHasher, SDBMHasher};
use hashers::pigeon::Bricolage;
use std::io::Read;

/// What `seen` says of a ported hash.
///
/// Proved:
///
/// ```text
/// IsSeen F.opens (Table (row.Ported ported)) result.now
/// ```
#[inline]
fn seen_in_ported<R: Read, F: Folder<R>>(ported: Ported) -> &'static str {
    match ported {
        Ported::Fnv1a32 => "1 changed byte, or changes within 2 neighbouring bytes",
        Ported::Fnv1a64 | Ported::Sdbm => "1 changed byte, or changes within 3 neighbouring bytes",
        Ported::Djb2 => "1 changed byte, or changes within 6 in the low 5 bits",
        Ported::FxHash | Ported::FxHash64 => "1 changed word, of 8 bytes",
        Ported::FxHash32 => "1 changed word, of 4 bytes",
        Ported::LoseLose | Ported::Bricolage | Ported::Oaat => "1 changed byte",
        _ => "no promise",
    }
}

/// What `seen` says of a hash of the table.
///
/// Proved:
///
/// ```text
/// IsSeen F.opens (Table kind) result.now
/// ```
#[inline]
fn seen_in_table<R: Read, F: Folder<R>>(kind: Kind) -> &'static str {
    match kind {
        Kind::Ported(ported) => seen_in_ported::<R, F>(ported),
        Kind::Fnv1At32 => "1 changed byte, or changes within 2 neighbouring bytes",
        Kind::Fnv1At64 => "1 changed byte, or changes within 3 neighbouring bytes",
        Kind::Djb2Add => "1 changed byte, or changes within 6 in the low 5 bits",
        Kind::Crc32 | Kind::Crc32c => "1 changed byte, or changes within 32 neighbouring bits",
        Kind::Murmur3At32 | Kind::Xxh32 => "1 changed word, of 4 bytes",
        Kind::Joaat => "1 changed byte",
        _ => "no promise",
    }
}

/// What a check by a hash is proved to see in a file of the same length, by these laws, in words.
///
/// Proved:
///
/// ```text
/// IsSeen F.opens sum result.now
/// ```
#[inline]
pub fn seen<R: Read, F: Folder<R>>(sum: Sum) -> &'static str {
    match sum {
        Sum::Table(kind) => seen_in_table::<R, F>(kind),
        Sum::Wide(Wide::Murmur3) => "1 changed block, of 16 bytes",
        Sum::Poly61 => "any change, but under few keys",
        _ => "no promise",
    }
}
