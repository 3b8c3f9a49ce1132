//! How long hashing takes.

// What follows is the proved text of crates/spread/src/clock.rt without its contracts.
// Proofs name the loop.
#![allow(unused_labels)]
use crate::spread_core;
use hashers_proved::hash_kinds;
use hashers_proved::shim::{HostRuntime, std};

use hash_kinds::table::Kind;
use spread_core::named::{Hashed, hash_by};
use std::alloc::AllocError;
use std::num::{nearest_u64_to_f64, nearest_usize_to_f64};
use std::time::Instant;

/// How many nanoseconds one measurement takes, if a round does not take longer.
const SPAN: u64 = 5000000;

/// How many measurements are made, of which the shortest counts.
const TIMES: u32 = 3;

/// How many rounds a measurement has at most.
const MOST: u64 = 1000000;

/// How many nanoseconds so many rounds take, if there is a clock.
///
/// Proved:
///
/// ```text
/// hashed.new.keys ≡ hashed.old.keys
/// ```
#[inline]
fn span_of(
    rt: &HostRuntime,
    kind: Kind,
    rounds: u32,
    hashed: &mut Hashed,
) -> Result<Option<u64>, AllocError> {
    let Ok(begun) = Instant::now(rt) else {
        return Ok(None);
    };
    hash_by(kind, rounds, hashed)?;
    match begun.elapsed(rt) {
        Ok(passed) => Ok(Some(u64::try_from(passed.as_nanos()).unwrap_or(u64::MAX))),
        Err(_) => Ok(None),
    }
}

/// How many nanoseconds hashing takes for a key by that hash: the least of some measurements.
///
/// Proved:
///
/// ```text
/// hashed.new.keys ≡ hashed.old.keys
/// ```
#[inline]
pub fn time_of(rt: &HostRuntime, kind: Kind, hashed: &mut Hashed) -> Result<Option<f64>, AllocError> {
    let Some(first) = span_of(rt, kind, 1, hashed)? else {
        return Ok(None);
    };
    let rounds = (SPAN / first.max(1)).max(1).min(MOST);
    let mut least: Option<u64> = None;
    'again: for _ in 0..TIMES {
        match (span_of(rt, kind, rounds as u32, hashed)?, least) {
            (Some(span), Some(other)) => least = Some(span.min(other)),
            (Some(span), None) => least = Some(span),
            (None, _) => {}
        }
    }
    match least {
        Some(span) => Ok(Some(
            nearest_u64_to_f64(span)
                / nearest_u64_to_f64(rounds)
                / nearest_usize_to_f64(hashed.keys.len().max(1)),
        )),
        None => Ok(None),
    }
}
