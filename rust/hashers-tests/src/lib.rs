//! The tests of the Rattle sources, over the plain Rust of the crates beside this one: each module is a source without its contracts, but for
//! `hash_vectors::tests::run`, which rust/erase writes, and which calls each test.
#![cfg(test)]
#![forbid(unsafe_code)]
// In the text of the sources, whose language has no such lints.
#![allow(dead_code, unused_imports, unused_variables, clippy::style, clippy::complexity, clippy::large_const_arrays)]

/// A test for each of these, by the files that have them. Each takes what a program has of the system.
macro_rules! tests {
    ($($file:ident: $($name:ident)*;)*) => {
        $(
            mod $file {
                $(
                    #[test]
                    fn $name() -> impl std::process::Termination {
                        super::super::$file::$name(hashers_proved::shim::HostRuntime::default())
                    }
                )*
            }
        )*
    };
}

/// What the tests take of Rattle's std: what the programs take, and more.
mod shim {
    pub use hashers_proved::shim::*;

    pub mod std {
        pub use ::std::array;
        pub use hashers_proved::shim::std::*;

        pub mod process {
            /// What may end a test.
            pub trait Abort {}

            impl Abort for hashers_proved::shim::HostRuntime {}
        }

        pub mod test {
            /// A test that could not be done.
            #[derive(Debug)]
            pub struct Fail;

            impl<E: ::std::error::Error> From<E> for Fail {
                fn from(_: E) -> Fail {
                    Fail
                }
            }
        }
    }
}

mod hash_vectors {
    mod tests;
    mod times31;
}

mod streams {
    pub mod rehearsal;
}

/// What `spread` says of chance, and which hash it recommends. It computes both in floating point, of which no contract speaks.
mod spread {
    use hashers_tools::spread_core::advice::{advise, Advice};
    use hashers_tools::spread_core::chance::{equal_pairs, is_within, Chance};
    use hashers_tools::spread_core::counts::{Counts, Spread};
    use hashers_tools::spread_core::rows::TableRow;
    use hashers_proved::{hash_kinds::table::Kind, hash_names::table::Ported};

    fn are_near(number: f64, wanted: f64) -> bool {
        (number - wanted).abs() < 0.0001
    }

    /// Numbers by a program in Python.
    #[test]
    fn numbers_by_chance() {
        let (even, few, many) = (Chance::of(4096, 4096), Chance::of(3, 1000000), Chance::of(100000, 7));
        assert!(even.fullest == 7 && are_near(even.empty, 1506.6502326));
        assert!(are_near(even.squares, 8191.0) && are_near(even.deviation, 90.4875709));
        assert!(even.is_near(8462) && !even.is_near(8463) && even.is_near(7920) && !even.is_near(7919));
        assert!(few.fullest == 2 && are_near(few.squares, 3.000006));
        assert!(are_near(many.deviation, 49486.9184941) && are_near(many.empty, 0.0));
        assert!(are_near(equal_pairs(65536, 32), 0.4999924) && are_near(equal_pairs(3, 0), 3.0));
        assert!(is_within(2, 65536, 32) && !is_within(3, 65536, 32) && !is_within(1, 65536, 64));
    }

    /// A row of 1000 keys in 1024 buckets, where chance gives 1975.6 squares, and 44.7 is their standard deviation.
    fn row(kind: Kind, collisions: u128, squares: u128, time: f64) -> TableRow {
        let first = Spread { buckets: 1024, fullest: 5, empty: 380, squares };
        TableRow { kind, counts: Counts { collisions, first, second: None }, time: Some(time) }
    }

    #[test]
    fn advice_by_rows() {
        let good = row(Kind::Xxh64, 0, 1975, 9.0);
        let faster = row(Kind::Xxh3, 0, 2100, 5.0);
        let equal = row(Kind::Murmur3At32, 1, 1975, 4.0);
        let uneven = row(Kind::SipHash13, 0, 2120, 3.0);
        let far = row(Kind::Ported(Ported::PassThrough), 0, 1975, 1.0);
        assert!(matches!(advise(1000, &[good, faster, equal, uneven, far]), Advice::Take(Kind::Xxh3)));
        assert!(matches!(advise(1000, &[far, uneven, good, equal]), Advice::Take(Kind::Xxh64)));
        assert!(matches!(advise(1000, &[far, uneven, equal]), Advice::NoHash));
        assert!(matches!(advise(999, &[good, faster]), Advice::TooFew));
    }
}
