//! The example of the first page.
use hashers_proved::{fnv::fnv1a64, xxh3::BuildXxh3Pieces};
use std::collections::HashMap;
fn main() {
    let ages: HashMap<&str, u32, BuildXxh3Pieces> = HashMap::from_iter([("Ada", 36)]);
    println!("{} {}", fnv1a64(b"a"), ages["Ada"]); // prints 12638187200555641996 36
}
