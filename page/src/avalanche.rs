//! The avalanche of a hash as a picture: how often each of its bits changes when one bit of a key does.
use crate::NO_MEMORY;
use hashers_proved::hash_kinds::table::{kind_named, Kind};
use hashers_proved::shim::{self, std::alloc::Global};
use hashers_proved::text_set::{RandomKeys, Texts};
use hashers_tools::spread_core::named::{hash_by, Hashed};

/// Of how many bytes keys may be.
const MOST: usize = 64;

/// Counts of changes: a column for each bit of the hash, a row for each bit of the key. The lowest bit of the first byte comes first.
pub struct Picture {
    kind: Kind,
    bytes: usize,
    keys: u32,
    counts: Vec<u32>,
    points: Vec<u8>,
}

/// The word of that place in the sequence SplitMix64 from 0 (Steele, Lea and Flood 2014).
fn random_word(place: u64) -> u64 {
    let mut word = place.wrapping_add(1).wrapping_mul(0x9e37_79b9_7f4a_7c15);
    word = (word ^ word >> 30).wrapping_mul(0xbf58_476d_1ce4_e5b9);
    word = (word ^ word >> 27).wrapping_mul(0x94d0_49bb_1331_11eb);
    word ^ word >> 31
}

/// The random key of that number.
fn key_of(number: u32, bytes: usize) -> [u8; MOST] {
    let mut key = [0; MOST];
    for (at, word) in key[..bytes].chunks_mut(8).enumerate() {
        let place = u64::from(number) * (MOST / 8) as u64 + at as u64;
        word.copy_from_slice(&random_word(place).to_le_bytes()[..word.len()]);
    }
    key
}

/// The key, and then the same with each of its bits changed in turn. No two are equal.
fn with_changes(key: &mut [u8]) -> Result<Texts<RandomKeys>, String> {
    let mut keys = Texts::new(Global, RandomKeys::with_keys(1, 2));
    let mut put = |key: &[u8]| keys.see(key).map(|_| ()).map_err(|_| NO_MEMORY.to_string());
    put(key)?;
    for bit in 0..8 * key.len() {
        key[bit / 8] ^= 1 << (bit % 8);
        put(key)?;
        key[bit / 8] ^= 1 << (bit % 8);
    }
    Ok(keys)
}

/// The colour of a share: dark blue for never, white for half, dark orange for always. Small steps away from half are drawn out by a root.
fn colour(share: f64) -> [u8; 4] {
    let away = (2.0 * share - 1.0).abs().sqrt();
    let end = if share < 0.5 { [8.0, 48.0, 107.0] } else { [166.0, 54.0, 3.0] };
    let mixed = end.map(|part| (255.0 + (part - 255.0) * away) as u8);
    [mixed[0], mixed[1], mixed[2], 255]
}

impl Picture {
    pub fn of(name: &[u8], bytes: usize) -> Result<Picture, String> {
        let kind = kind_named(name).ok_or_else(|| format!("There is no hash “{}”.", String::from_utf8_lossy(name)))?;
        let bits = kind.row().bits as usize;
        if bits == 0 {
            return Err(format!("{} has no bits that could change.", kind.row().name));
        }
        if !(1..=MOST).contains(&bytes) {
            return Err(format!("A key has 1 to {MOST} bytes here."));
        }
        Ok(Picture { kind, bytes, keys: 0, counts: vec![0; 8 * bytes * bits], points: Vec::new() })
    }

    pub fn go_on(&mut self, keys: u32) -> Result<(), String> {
        for _ in 0..keys {
            self.count(&mut key_of(self.keys, self.bytes)[..self.bytes])?;
            self.keys += 1;
        }
        Ok(())
    }

    /// Counts which bits of the hash change with each bit of the key.
    fn count(&mut self, key: &mut [u8]) -> Result<(), String> {
        let mut hashed = Hashed { keys: with_changes(key)?, hashes: shim::Vec::new(Global) };
        hash_by(self.kind, 1, &mut hashed).map_err(|_| NO_MEMORY.to_string())?;
        let rows = self.counts.chunks_mut(self.kind.row().bits as usize);
        for (row, hash) in rows.zip(&hashed.hashes[1..]) {
            let changed = hash ^ hashed.hashes[0];
            row.iter_mut().enumerate().for_each(|(bit, count)| *count += (changed >> bit & 1) as u32);
        }
        Ok(())
    }

    fn share(&self, count: u32) -> f64 {
        f64::from(count) / f64::from(self.keys.max(1))
    }

    /// Its width and height, how many keys were taken, and the least, mean and greatest share in percent.
    pub fn says(&self) -> String {
        let least = self.counts.iter().min().copied().unwrap_or(0);
        let most = self.counts.iter().max().copied().unwrap_or(0);
        let mean = self.counts.iter().map(|count| f64::from(*count)).sum::<f64>() / self.counts.len() as f64 / f64::from(self.keys.max(1));
        let percent = [self.share(least), mean, self.share(most)].map(|share| format!("{:.1}", 100.0 * share));
        format!("{}\t{}\t{}\t{}", self.kind.row().bits, 8 * self.bytes, self.keys, percent.join("\t"))
    }

    pub fn points(&mut self) -> &[u8] {
        self.points = self.counts.iter().flat_map(|count| colour(self.share(*count))).collect();
        &self.points
    }
}
