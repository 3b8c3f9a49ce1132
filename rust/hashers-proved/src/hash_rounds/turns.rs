//! A count of calls that contracts alone see.

// What follows is the proved text of crates/hash_rounds/src/turns.rt without its contracts.
// The counter of calls is ghost: nothing of it is kept at run time, and clauses alone read it.
#![allow(dead_code)]
use crate::std;

use std::mem;
use std::snapshot::Snapshot;

// A number in unary, of which no value is kept at run time.
enum Link {
    Start,
    After(Snapshot<Link>),
    Same(Snapshot<Snapshot<Link>>),
}

/// How many counted calls were made, as contracts see it: a number. It has no bytes at run time. `spooky_blocks`,
/// `sdbm4` and `lose8` raise it by one a call, and nothing outside this crate can.
///
/// A count shows the calls that were charged to this counter, and no more: a body may charge another counter, make a call
/// on no bytes, or leave a call's result unused.
pub struct Turns {
    last: Snapshot<Link>,
}

const _: () = prove!(size_of::<Turns>() == 0);

impl Turns {
    /// No calls so far.
    ///
    /// Proved:
    ///
    /// ```text
    /// result ≡ 0
    /// ```
    #[inline]
    pub fn new() -> Turns {
        Turns {
            last: Snapshot::of(&Link::Start),
        }
    }

    /// The same count once more.
    ///
    /// Proved:
    ///
    /// ```text
    /// result ≡ self.now
    /// ```
    #[inline]
    pub fn fork(&self) -> Turns {
        let last = Snapshot::of(&self.last);
        Turns {
            last: Snapshot::of(&Link::Same(last)),
        }
    }

    /// One more counted call.
    ///
    /// Proved:
    ///
    /// ```text
    /// self.new ≡ self.old + 1
    /// ```
    #[inline]
    pub(crate) fn tick(&mut self) {
        let last = mem::replace(&mut self.last, Snapshot::of(&Link::Start));
        self.last = Snapshot::of(&Link::After(last));
    }
}
