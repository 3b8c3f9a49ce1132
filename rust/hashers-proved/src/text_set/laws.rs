//! The laws of lines and of sets of texts, with no code. A line ends with a byte, newline or another.

// What follows is the proved text of crates/text_set/src/laws.rt without its contracts.
