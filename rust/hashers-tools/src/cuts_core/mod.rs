//! The chunks of files, cut where their content says so: a line for each, or how much a store would save that keeps each chunk once. The
//! program `cuts` is a `main` over it.

// What follows is the proved text of crates/cuts_core/src/lib.rt without its contracts.

mod cut;
pub mod failure;
pub mod listing;
pub mod outcome;
pub mod sizes;
pub mod tally;
