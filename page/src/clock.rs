//! How long hashing takes in this browser. Its clock is coarse, so rounds are doubled until they fill a span; it compiles anew what runs
//! often, and is disturbed at times, so that each hash is measured by turns with the others.
use hashers_proved::hash_kinds::table::Kind;
use hashers_proved::shim::std::alloc::AllocError;
use hashers_tools::spread_core::named::{hash_by, Hashed};

/// How many milliseconds one measurement takes at least.
const SPAN: f64 = 8.0;

/// How many rounds a measurement has at most.
const MOST: u32 = 1 << 20;

#[link(wasm_import_module = "env")]
extern "C" {
    /// Milliseconds by the caller's clock.
    fn now() -> f64;
}

/// What was measured of a hash.
#[derive(Clone, Copy)]
pub struct Measured {
    rounds: u32,
    /// The least number of milliseconds that a round took.
    least: f64,
}

impl Measured {
    pub const NOTHING: Measured = Measured { rounds: 1, least: f64::INFINITY };

    /// Measures once more.
    pub fn again(&mut self, kind: Kind, hashed: &mut Hashed) -> Result<(), AllocError> {
        let mut span = span_of(kind, self.rounds, hashed)?;
        while span < SPAN && self.rounds < MOST {
            self.rounds *= 2;
            span = span_of(kind, self.rounds, hashed)?;
        }
        self.least = self.least.min(span / f64::from(self.rounds));
        Ok(())
    }

    /// Nanoseconds a key, of so many keys.
    pub fn for_a_key(&self, keys: usize) -> f64 {
        self.least * 1e6 / keys.max(1) as f64
    }
}

fn span_of(kind: Kind, rounds: u32, hashed: &mut Hashed) -> Result<f64, AllocError> {
    // SAFETY: the caller's function takes nothing and returns a number.
    let begun = unsafe { now() };
    hash_by(kind, rounds, hashed)?;
    // SAFETY: as above.
    Ok(unsafe { now() } - begun)
}
