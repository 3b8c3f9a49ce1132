//! default_hasher: each line of standard input is a text in hexadecimal, and each line of standard output its hash by the default hasher of
//! Rust's std, in hexadecimal too, in one write.
use std::collections::hash_map::DefaultHasher;
use std::hash::Hasher;
use std::io;

fn bytes(line: &str) -> Vec<u8> {
    (0..line.len() / 2).map(|at| u8::from_str_radix(&line[2 * at..2 * at + 2], 16).expect("hexadecimal digits")).collect()
}

fn main() {
    for line in io::stdin().lines() {
        let mut hasher = DefaultHasher::new();
        hasher.write(&bytes(&line.expect("a line")));
        println!("{:x}", hasher.finish());
    }
}
