//! The law of all lists of reversible steps, of which the rounds are six.

// What follows is the proved text of crates/hash_rounds/src/steps.rt without its contracts.
