//! The answers of the original crate: each line of standard input is a name and the pieces of a text in hexadecimal, with
//! commas between them, and each line `answer` of standard output the hash of that name of the pieces. Other lines are the
//! original's own, which its `SpookyHasher` prints.

use std::hash::Hasher;
use std::io::BufRead;

include!(env!("HASHER_NAMES"));

/// What a default hasher answers to the pieces.
fn answer<H: Default + Hasher>(pieces: &[Vec<u8>]) -> u64 {
    let mut hasher = H::default();
    for piece in pieces {
        hasher.write(piece);
    }
    hasher.finish()
}

macro_rules! by_name {
    ($($name:ident $($hasher:ident)::+ $alike_from:literal)*) => {
        /// The answer by the hasher of that name. One that agrees with ours from some bytes on has its own name beside.
        fn answer_by_name(name: &str, pieces: &[Vec<u8>]) -> u64 {
            $(if name == stringify!($name) && $alike_from == 0 {
                return answer::<hashers::$($hasher)::+>(pieces);
            })*
            panic!("the original has no {name}")
        }
    };
}

with_names!(by_name);

/// The bytes of a piece in hexadecimal.
fn bytes(hex: &str) -> Vec<u8> {
    hex.as_bytes()
        .chunks(2)
        .map(|pair| u8::from_str_radix(std::str::from_utf8(pair).unwrap(), 16).unwrap())
        .collect()
}

fn main() {
    for line in std::io::stdin().lock().lines() {
        let line = line.unwrap();
        let (name, pieces) = line.split_once(' ').expect("a name and pieces");
        let pieces: Vec<Vec<u8>> = pieces.split(',').map(bytes).collect();
        println!("answer {}", answer_by_name(name, &pieces));
    }
}
