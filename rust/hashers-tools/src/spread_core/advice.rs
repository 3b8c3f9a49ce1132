//! Which hash to take for keys, by the rows of the table. It goes by floating point, and nothing of it is proved.

// What follows is the proved text of crates/spread_core/src/advice.rt without its contracts.
use hashers_proved::{hash_kinds, hash_names};
use hashers_proved::shim::{String, format, std};

use crate::spread_core::chance::{Chance, is_within};
use crate::spread_core::rows::TableRow;
use hash_kinds::table::Kind;
use hash_names::table::Ported;
use std::alloc::{AllocError, Global};

/// Of fewer keys than these nearly every hash spreads as chance does, and no hash is told from another.
const FEW: u64 = 1000;

/// Which hash to take.
#[derive(Clone, Copy)]
pub enum Advice {
    /// There are too few keys to compare hashes.
    TooFew,
    /// This one: of those that look random and spread the keys as chance does the fastest.
    Take(Kind),
    /// None of the rows.
    NoHash,
}

/// Whether the hash looks random in tests like SMHasher's, or nearly so. Others may spread some keys as chance does, and the next ones not.
#[inline]
fn looks_random(kind: Kind) -> bool {
    matches!(
        kind,
        Kind::Ported(Ported::Spooky | Ported::SpookyV1)
            | Kind::Xxh32
            | Kind::Xxh64
            | Kind::Murmur3At32
            | Kind::Murmur3
            | Kind::SipHash13
            | Kind::SipHash24
            | Kind::Xxh3
    )
}

/// Whether the sum of squares lies within three standard deviations of chance, at each number of buckets.
#[inline]
fn is_even(keys: u64, row: &TableRow) -> bool {
    for spread in [Some(row.counts.first), row.counts.second] {
        if let Some(spread) = spread {
            if !Chance::of(keys, spread.buckets).is_near(spread.squares) {
                return false;
            }
        }
    }
    true
}

/// Whether the hash of the row may be advised for so many keys.
#[inline]
fn may_be_taken(keys: u64, row: &TableRow) -> bool {
    looks_random(row.kind)
        && is_within(row.counts.collisions, keys, row.kind.row().bits)
        && is_even(keys, row)
}

/// Whether a row has a time, and the other has none or a longer one.
#[inline]
fn is_faster(row: &TableRow, other: Option<&TableRow>) -> bool {
    let (Some(time), Some(other)) = (row.time, other) else {
        return row.time.is_some();
    };
    match other.time {
        Some(longer) => time < longer,
        None => true,
    }
}

/// Which hash to take for so many keys, by the rows: of those that look random, whose equal pairs are not above chance, and whose sum of
/// squares lies near it at each number of buckets, the fastest.
#[inline]
pub fn advise(keys: u64, rows: &[TableRow]) -> Advice {
    if keys < FEW {
        return Advice::TooFew;
    }
    let mut best: Option<&TableRow> = None;
    for row in rows {
        if may_be_taken(keys, row) && is_faster(row, best) {
            best = Some(row);
        }
    }
    match best {
        Some(row) => Advice::Take(row.kind),
        None => Advice::NoHash,
    }
}

impl Advice {
    /// What the program says of it, as a line.
    #[inline]
    pub fn line(&self, alloc: Global) -> Result<String, AllocError> {
        match self {
            Advice::TooFew => String::from_str(
                alloc,
                "Too few keys to compare hashes: take xxh3 for numbers, xxh64 for texts.\n",
            ),
            Advice::Take(kind) => {
                let name = kind.row().name;
                format!(in alloc;
                    "Take {name} for these keys: the fastest that looks random and spreads them as chance does.\n"
                )
            }
            Advice::NoHash => String::from_str(
                alloc,
                "None of these looks random and spreads these keys as chance does.\n",
            ),
        }
    }
}
