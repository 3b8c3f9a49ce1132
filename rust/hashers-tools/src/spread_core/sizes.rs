//! Into how many buckets hashes fall.

// What follows is the proved text of crates/spread_core/src/sizes.rt without its contracts.

/// Into how many buckets hashes fall: one number, or two. None is 0.
#[derive(Clone, Copy)]
pub struct Sizes {
    /// The first number.
    pub first: u64,
    /// The second, if there is one.
    pub second: Option<u64>,
}

/// The power of two at or above a number of keys.
///
/// Proved:
///
/// ```text
/// some: 0 < result
/// power: 0 < keys → keys ≤ 2 ^ 63 → IsNextPowerOfTwo keys result
/// ```
#[inline]
fn power_of(keys: u64) -> u64 {
    match keys.checked_next_power_of_two() {
        Some(power) if power > 0 => power,
        _ => 1 << 63,
    }
}

/// The next odd number above a power of two; above 1 it is 3, since 2 is a power of two.
///
/// Proved:
///
/// ```text
/// some: 0 < result
/// next: 1 < power → power < u64.MAX → result ≡ power + 1
/// three: power ≤ 1 → result ≡ 3
/// ```
#[inline]
fn odd_above(power: u64) -> u64 {
    if power > 1 && power < u64::MAX {
        power + 1
    } else {
        3
    }
}

/// Into how many buckets so many keys fall: the power of two at or above their number and the next odd number above that, or what is
/// asked for.
///
/// Proved:
///
/// ```text
/// asked: ForSome buckets (λ asked. 0 < asked → (result.first ≡ asked) × (result.second ≡ None))
/// power: buckets ≡ None → 0 < keys → keys ≤ 2 ^ 63 → IsNextPowerOfTwo keys result.first
/// odd: buckets ≡ None → 1 < result.first → result.first < u64.MAX
///     → result.second ≡ Some (result.first + 1)
/// one: buckets ≡ None → keys ≡ 1 → (result.first ≡ 1) × (result.second ≡ Some 3)
/// ```
#[inline]
pub fn sizes_of(keys: u64, buckets: Option<u64>) -> Sizes {
    match buckets {
        Some(buckets) => Sizes {
            first: buckets.max(1),
            second: None,
        },
        None => {
            let first = power_of(keys);
            Sizes {
                first,
                second: Some(odd_above(first)),
            }
        }
    }
}
