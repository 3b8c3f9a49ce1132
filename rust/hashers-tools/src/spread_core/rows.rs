//! The rows of the table.

// What follows is the proved text of crates/spread_core/src/rows.rt without its contracts.
use hashers_proved::hash_kinds;
use hashers_proved::shim::{Vec, std};

use crate::spread_core::counts::{Counts, Spread};
use crate::spread_core::named::{Hashed, counts_by};
use crate::spread_core::sizes::Sizes;
use hash_kinds::table::Kind;
use std::alloc::{AllocError, Global};

/// A row of the table.
#[derive(Clone, Copy)]
pub struct TableRow {
    /// The hash.
    pub kind: Kind,
    /// The numbers of the hashes of the keys.
    pub counts: Counts,
    /// How many nanoseconds it takes for a key, if that was measured.
    pub time: Option<f64>,
}

/// Puts the numbers of so many buckets behind the others.
///
/// Proved:
///
/// ```text
/// OnOk result (numbers.new.items ≡ numbers.old.items ++ spread_numbers spread.now)
/// ```
#[inline]
fn push_spread(numbers: &mut Vec<u128>, spread: &Spread) -> Result<(), AllocError> {
    numbers.push(u128::from(spread.fullest))?;
    numbers.push(u128::from(spread.empty))?;
    numbers.push(spread.squares)?;
    Ok(())
}

impl TableRow {
    /// The numbers of the row, in the order of their columns: the bits of a hash, the pairs of equal hashes, and for each number of
    /// buckets the fullest one, the empty ones and the squares.
    ///
    /// Proved:
    ///
    /// ```text
    /// IfOk result (λ numbers. numbers.items ≡ row_numbers self.now.kind self.now.counts)
    /// ```
    #[inline]
    pub fn numbers(&self, alloc: Global) -> Result<Vec<u128>, AllocError> {
        let mut numbers = Vec::new(alloc);
        numbers.push(u128::from(self.kind.row().bits))?;
        numbers.push(self.counts.collisions)?;
        push_spread(&mut numbers, &self.counts.first)?;
        if let Some(second) = &self.counts.second {
            push_spread(&mut numbers, second)?;
        }
        Ok(numbers)
    }
}

/// The row of a hash that takes so many nanoseconds for a key: the numbers of the hashes of the keys, which stay.
///
/// Proved:
///
/// ```text
/// keys: hashed.new.keys ≡ hashed.old.keys
/// kind: IfOk result (λ row. row.kind ≡ kind)
/// counts: IfOk result (λ row. IsCounts sizes (map (hash_of kind) hashed.old.keys.texts) row.counts)
/// ```
#[inline]
pub fn row_of(
    alloc: Global,
    kind: Kind,
    sizes: Sizes,
    time: Option<f64>,
    hashed: &mut Hashed,
) -> Result<TableRow, AllocError> {
    let counts = counts_by(alloc, kind, sizes, hashed)?;
    Ok(TableRow { kind, counts, time })
}
