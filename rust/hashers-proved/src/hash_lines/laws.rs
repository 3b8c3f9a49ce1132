//! Laws of lines, with no code.

// What follows is the proved text of crates/hash_lines/src/laws.rt without its contracts.
