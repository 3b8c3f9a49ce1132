//! `rings tree` is a ring in a BTreeMap over the original's lookup3, `rings ours` that of rust/hashers-proved over ours. Lines of standard
//! input: `node NAME` adds a node, `all NAME` is one of those that a ring is built of at once, `key KEY` is a key, and `owners` asks for the
//! owner of each key, which is answered by a sum of their names.
use hashers::jenkins::Lookup3Hasher;
use hashers_proved::{jenkins, ring};
use std::collections::BTreeMap;
use std::hash::Hasher;
use std::io::{stdin, stdout, Write};

/// How many points a node has.
const POINTS: u64 = 100;

/// The nodes, and the index of the node of each point.
#[derive(Default)]
struct Tree {
    nodes: Vec<Vec<u8>>,
    points: BTreeMap<u64, usize>,
}

fn hash_of(key: &[u8]) -> u64 {
    let mut hasher = Lookup3Hasher::default();
    hasher.write(key);
    hasher.finish()
}

type Ours = ring::Ring<jenkins::Lookup3Hasher>;

trait Ring: Default {
    fn add(&mut self, name: &[u8]);

    fn add_all(&mut self, names: &[Vec<u8>]) {
        names.iter().for_each(|name| self.add(name));
    }

    fn owner(&self, key: &[u8]) -> Option<&[u8]>;
}

impl Ring for Tree {
    fn add(&mut self, name: &[u8]) {
        for number in 0..POINTS {
            let place = hash_of(&[name, &number.to_le_bytes()].concat());
            let before = self.points.insert(place, self.nodes.len());
            assert!(before.is_none(), "two points at one place");
        }
        self.nodes.push(name.to_vec());
    }

    fn owner(&self, key: &[u8]) -> Option<&[u8]> {
        let mut from = self.points.range(hash_of(key)..);
        let (_, &node) = from.next().or_else(|| self.points.first_key_value())?;
        Some(&self.nodes[node])
    }
}

impl Ring for Ours {
    fn add(&mut self, name: &[u8]) {
        Ours::add(self, name, POINTS);
    }

    fn add_all(&mut self, names: &[Vec<u8>]) {
        if !names.is_empty() {
            *self = names.iter().map(|name| (name.clone(), POINTS)).collect();
        }
    }

    fn owner(&self, key: &[u8]) -> Option<&[u8]> {
        Ours::owner(self, key)
    }
}

/// The last bytes of the owners' names, folded into one number in the order of the keys.
fn owners_sum(ring: &impl Ring, keys: &[Vec<u8>]) -> u64 {
    let mut sum: u64 = 0;
    for key in keys {
        let name = ring.owner(key).unwrap_or(&[]);
        sum = sum.rotate_left(1) ^ name.last().copied().unwrap_or(0) as u64;
    }
    sum
}

fn answer<R: Ring>() {
    let (mut ring, mut nodes, mut keys) = (R::default(), Vec::new(), Vec::new());
    for line in stdin().lines() {
        let line = line.expect("a line");
        match line.split_once(' ') {
            Some(("node", name)) => ring.add(name.as_bytes()),
            Some(("all", name)) => nodes.push(name.as_bytes().to_vec()),
            Some((_, key)) => keys.push(key.as_bytes().to_vec()),
            None => {
                ring.add_all(&std::mem::take(&mut nodes));
                println!("{}", owners_sum(&ring, &keys));
                stdout().flush().expect("standard output");
            }
        }
    }
}

fn main() {
    match std::env::args().nth(1).as_deref() {
        Some("ours") => answer::<Ours>(),
        _ => answer::<Tree>(),
    }
}
