//! The law of what is read, with no code. What is written of the lines then is in the laws of `text_set`.

// What follows is the proved text of crates/dedup_core/src/laws.rt without its contracts.
