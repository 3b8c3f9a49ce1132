//! Laws of chunks, with no code. Each is of all texts and all sizes that [`Cuts::new`](crate::hash_cuts::Cuts::new) takes.

// What follows is the proved text of crates/hash_cuts/src/laws.rt without its contracts.
