//! The laws of the hashes by the block on random texts, against definitions written here.
use hashers_proved::blocks::{
    apart_by_block_murmur3_128, apart_by_word_murmur3_32, apart_by_word_xxh32, apart_by_word_xxh64, at_64, block_for_murmur3_128, block_out,
    murmur3_128, murmur3_32, state_behind, word_for_murmur3_32, word_for_xxh32, word_for_xxh64, xxh32, xxh64, xxh64_block_out, BlockRule,
    Murmur3Rule32,
};
use hashers_proved::xxh3::unmix::{bytes_for, bytes_for_wide};
use hashers_proved::xxh3::laws::hash_one_number;
use hashers_proved::xxh3::{apart_xxh128, apart_xxh3, xxh3_128, xxh3_64, BuildXxh3, Xxh3Hasher, Xxh3Place};
use std::hash::{BuildHasher, Hasher};

/// Bytes that look random.
struct Bytes(u64);

impl Bytes {
    fn next(&mut self) -> u64 {
        self.0 = self.0.wrapping_mul(6364136223846793005).wrapping_add(1442695040888963407);
        self.0 >> 33
    }
    fn text(&mut self, len: usize) -> Vec<u8> {
        (0..len).map(|_| self.next() as u8).collect()
    }
}

/// The words of so many bytes in which the texts differ, from a place on; the bytes behind the last whole word count as one.
fn changed(x: &[u8], y: &[u8], width: usize) -> Vec<usize> {
    (0..x.len().div_ceil(width)).filter(|&i| x.chunks(width).nth(i) != y.chunks(width).nth(i)).collect()
}

/// Two texts of one length: the second has another word in one or two places, or none.
fn two_texts(bytes: &mut Bytes) -> (Vec<u8>, Vec<u8>) {
    let len = bytes.next() as usize % 80;
    let x = bytes.text(len);
    let mut y = x.clone();
    for _ in 0..bytes.next() % 3 {
        let from = bytes.next() as usize % (len + 1);
        let to = (from + 1 + bytes.next() as usize % 12).min(len);
        let with = bytes.text(to - from);
        y[from..to].copy_from_slice(&with);
    }
    (x, y)
}

#[test]
fn one_changed_word_or_block_shows() {
    let mut bytes = Bytes(20);
    for _ in 0..20_000 {
        let (x, y) = two_texts(&mut bytes);
        let seed = bytes.next() << 33 ^ bytes.next();
        let one = |width| match changed(&x, &y, width)[..] {
            [i] => Some((i * width, x.len() >= i * width + width)),
            _ => None,
        };
        let told = [
            (apart_by_word_murmur3_32(&x, &y), one(4).is_some(), murmur3_32(seed as u32, &x) != murmur3_32(seed as u32, &y)),
            (apart_by_block_murmur3_128(&x, &y), one(16).is_some(), murmur3_128(seed, &x) != murmur3_128(seed, &y)),
            (apart_by_word_xxh32(&x, &y), one(4).is_some_and(|(_, whole)| whole), xxh32(seed as u32, &x) != xxh32(seed as u32, &y)),
            (
                apart_by_word_xxh64(&x, &y),
                one(8).is_some_and(|(from, whole)| whole && from >= x.len() / 32 * 32),
                xxh64(seed, &x) != xxh64(seed, &y),
            ),
        ];
        for (apart, defined, differ) in told {
            assert_eq!(apart, defined);
            assert!(!apart || differ);
        }
    }
    assert!(!apart_by_word_murmur3_32(b"", b"abcd") && !apart_by_block_murmur3_128(b"a", b"") && !apart_by_word_xxh32(b"", b"abcd"));
}

#[test]
fn one_word_or_block_leads_to_each_hash() {
    let mut bytes = Bytes(30);
    for _ in 0..2_000 {
        let (front, behind) = (bytes.next() as usize % 6, bytes.next() as usize % 50);
        let back = bytes.text(behind);
        let (seed, hash) = (bytes.next() << 33 ^ bytes.next(), bytes.next() << 33 ^ bytes.next());
        let words = bytes.text(4 * front);
        let word = word_for_murmur3_32(seed as u32, &words, &back, hash as u32);
        assert_eq!(murmur3_32(seed as u32, &[&words, &word[..], &back].concat()), hash as u32);
        let word = word_for_xxh32(seed as u32, &words, &back, hash as u32);
        assert_eq!(xxh32(seed as u32, &[&words, &word[..], &back].concat()), hash as u32);
        let blocks = bytes.text(16 * front);
        let block = block_for_murmur3_128(seed, &blocks, &back, (hash, seed));
        assert_eq!(murmur3_128(seed, &[&blocks, &block[..], &back].concat()), (hash, seed));
        // up to two words after a whole block or none, and so few bytes behind that no further block is whole
        let eights = bytes.text(32 * (front / 3) + 8 * (front % 3));
        let few = &back[..behind.min(23 - 8 * (front % 3))];
        let word = word_for_xxh64(seed, &eights, few, hash);
        assert_eq!(xxh64(seed, &[&eights, &word[..], few].concat()), hash);
    }
}

#[test]
fn blocks_and_answers_are_taken_back() {
    let mut bytes = Bytes(31);
    for _ in 0..500 {
        let (start, total) = (Murmur3Rule32::start(bytes.next() as u32), bytes.next());
        let (block, left) = (bytes.text(4).try_into().unwrap(), bytes.text(3));
        let mut state = start;
        Murmur3Rule32::block(&mut state, &block);
        block_out::<Murmur3Rule32, 4>(&mut state, &block);
        assert_eq!(state, start);
        let hash = Murmur3Rule32::finish(&start, &left, total);
        assert_eq!(state_behind::<Murmur3Rule32, 4>(hash, &left, total), start);
        let lanes = [(); 4].map(|()| bytes.next() << 33 ^ bytes.next());
        let wide = bytes.text(32).try_into().unwrap();
        assert_eq!(xxh64_block_out(&at_64::after_block(&lanes, &wide), &wide), lanes);
    }
}

/// A hasher of XXH3 goes on from what it keeps; and none stands at numbers that none keeps.
#[test]
fn xxh3_goes_on_from_a_place() {
    let mut bytes = Bytes(21);
    for len in 0..1500 {
        let (text, more) = (bytes.text(len), bytes.text(len * 7 % 300));
        let seed = (bytes.next() << 33 ^ bytes.next()) * u64::from(len % 3 > 0) + u64::from(len % 3 > 1);
        let mut hasher = Xxh3Hasher::new(seed);
        hasher.write(&text);
        let mut place = hasher.place();
        assert_eq!((place.seed, place.long != 0), (seed, len > 240));
        let mut other = Xxh3Hasher::at(&place).unwrap();
        assert_eq!(other.finish128(), hasher.finish128());
        hasher.write(&more);
        other.write(&more);
        assert_eq!((other.finish(), other.finish128()), (hasher.finish(), hasher.finish128()));
        place.write(&more);
        assert_eq!((place.hash(), place.hash128()), (Some(hasher.finish()), Some(hasher.finish128())));
        assert_eq!(other.finish(), xxh3_64(seed, &[text, more].concat()));
    }
    let (mut short, mut long) = (Xxh3Hasher::new(0).place(), Xxh3Hasher::new(0));
    short.kept = 241;
    assert!(Xxh3Hasher::at(&short).is_none());
    long.write(&[0; 300]);
    for (kept, stripe) in [(64, 0), (257, 0), (100, 16)] {
        let mut place = Xxh3Place { kept, stripe, ..long.place() };
        assert!(Xxh3Hasher::at(&place).is_none() && place.hash().is_none() && place.hash128().is_none());
        place.write(&[1; 300]);
        assert_eq!((place.kept, place.stripe, place.length), (kept, stripe, 300));
    }
}

/// A place goes on over pieces as one text.
#[test]
fn xxh3_in_pieces_at_a_place() {
    let mut bytes = Bytes(22);
    for seed in [0, 1, 2, u64::MAX] {
        for piece in [1, 7, 31, 61, 63, 64, 65, 100, 129, 193, 257, 1000] {
            let text = bytes.text(3000);
            let mut place = Xxh3Hasher::new(seed).place();
            for part in text.chunks(piece) {
                place.write(part);
            }
            assert_eq!(place.hash(), Some(xxh3_64(seed, &text)));
            assert_eq!(place.hash128(), Some(xxh3_128(seed, &text)));
        }
    }
}

/// Two texts that differ, of lengths at which XXH3 keeps them apart, and of others.
#[test]
fn short_texts_apart_under_xxh3() {
    let mut bytes = Bytes(23);
    for first in 0..20 {
        for second in 0..20 {
            let (x, y) = (bytes.text(first), bytes.text(second));
            let few = (1..=3).contains(&first) && (1..=3).contains(&second) || (4..=8).contains(&first) && first == second;
            let seed = bytes.next() << 33 ^ bytes.next();
            assert_eq!(apart_xxh3(&x, &y), few && x != y);
            assert!(!apart_xxh3(&x, &y) || xxh3_64(seed, &x) != xxh3_64(seed, &y));
            assert_eq!(apart_xxh128(&x, &y), first < 17 && first == second && x != y);
            assert!(!apart_xxh128(&x, &y) || xxh3_128(seed, &x) != xxh3_128(seed, &y));
            assert!(!apart_xxh3(&x, &x) && !apart_xxh128(&x, &x));
        }
    }
}

/// Each hash leads back to its text, and a map's key has the hash of what std feeds.
#[test]
fn texts_for_hashes_and_keys_of_maps_under_xxh3() {
    let mut bytes = Bytes(24);
    for _ in 0..1000 {
        let (seed, text) = (bytes.next() << 33 ^ bytes.next(), bytes.text(16));
        let eight: [u8; 8] = text[..8].try_into().unwrap();
        assert_eq!(bytes_for(seed, xxh3_64(seed, &eight)), eight);
        assert_eq!(bytes_for_wide(seed, xxh3_128(seed, &text))[..], text);
        assert_eq!(BuildXxh3 { seed }.hash_one(u64::from_le_bytes(eight)), xxh3_64(seed, &eight));
        assert_eq!(hash_one_number(BuildXxh3 { seed }, u64::from_le_bytes(eight)), xxh3_64(seed, &eight));
    }
}
