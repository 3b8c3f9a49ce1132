//! The arguments of the call, as bytes.

// What follows is the proved text of crates/cli/src/arguments.rt without its contracts.
use hashers_proved::shim::{HostRuntime, Vec, std};

use std::alloc::AllocError;
use std::env::{Env, FillError};

/// The argument at that place, the program's own name first.
#[inline]
fn argument(rt: &HostRuntime, place: usize) -> Result<Option<Vec<u8>>, AllocError> {
    let mut room = 256usize;
    for _ in 0..usize::BITS {
        let mut bytes = Vec::new(rt.alloc());
        bytes.resize(room, 0)?;
        match rt.arg(place, &mut bytes) {
            Ok(len) => {
                bytes.truncate(len);
                return Ok(Some(bytes));
            }
            Err(FillError::NotPresent) => return Ok(None),
            Err(FillError::TooLong) => room = room.saturating_mul(2),
        }
    }
    Err(AllocError)
}

/// The arguments behind the program's own name.
#[inline]
pub fn arguments(rt: &HostRuntime) -> Result<Vec<Vec<u8>>, AllocError> {
    let mut arguments = Vec::new(rt.alloc());
    for place in 1..usize::MAX {
        match argument(rt, place)? {
            Some(argument) => match arguments.push(argument) {
                Ok(()) => {}
                Err(_) => return Err(AllocError),
            },
            None => break,
        }
    }
    Ok(arguments)
}
