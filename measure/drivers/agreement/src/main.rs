//! agreement NAME: each line of standard input is a text in hexadecimal, and each line of standard output its hash, in hexadecimal too, by
//! that hasher of the crates fnv and fxhash, in one write.
use std::hash::Hasher;
use std::io::{self, BufRead};

fn hash<H: Hasher + Default>(text: &[u8]) -> u64 {
    let mut hasher = H::default();
    hasher.write(text);
    hasher.finish()
}

fn bytes(line: &str) -> Vec<u8> {
    (0..line.len() / 2).map(|at| u8::from_str_radix(&line[2 * at..2 * at + 2], 16).expect("hexadecimal digits")).collect()
}

fn main() {
    let name = std::env::args().nth(1).expect("a name");
    let of: fn(&[u8]) -> u64 = match name.as_str() {
        "FnvHasher" => hash::<fnv::FnvHasher>,
        "FxHasher" => hash::<fxhash::FxHasher>,
        "FxHasher32" => hash::<fxhash::FxHasher32>,
        "FxHasher64" => hash::<fxhash::FxHasher64>,
        _ => panic!("{name}: no such hasher"),
    };
    for line in io::stdin().lock().lines() {
        println!("{:x}", of(&bytes(&line.expect("a line"))));
    }
}
