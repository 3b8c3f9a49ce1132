//! A filter against its definition: probe i of a key is at (first + i * second + (i^3 - i) / 6) mod 2^64 mod the bits, by its two hashes.
use hashers_proved::bloom::{contains, has_room, insert, union};
use hashers_proved::fnv::{fnv1a64, FNV1aHasher64};
use hashers_proved::jenkins::{lookup3, Lookup3Hasher};
use std::collections::BTreeSet;

/// The places of a key.
fn places(key: &[u8], bits: u64, probes: u32) -> Vec<u64> {
    let (first, second) = (u128::from(fnv1a64(key)), u128::from(lookup3(key)));
    (0..u128::from(probes)).map(|i| (first + i * second + (i.pow(3) - i) / 6) as u64 % bits).collect()
}

/// The words in which these bits are set.
fn words_of(set: &BTreeSet<u64>, count: usize) -> Vec<u64> {
    let mut words = vec![0; count];
    set.iter().for_each(|at| words[(at / 64) as usize] |= 1 << (at % 64));
    words
}

#[test]
fn filters_are_sets_of_bits() {
    for (bits, probes) in [(1u64, 1u32), (63, 2), (64, 3), (3, 10), (65, 7), (1000, 7), (4096, 5)] {
        let count = bits.div_ceil(64) as usize;
        let (mut words, mut set) = (vec![0; count], BTreeSet::new());
        assert!(has_room(&words, bits, probes) && !has_room(&words[1..], bits, probes));
        assert!(!has_room(&words, 0, probes) && !has_room(&words, bits, 0));
        for number in 0..60u32 {
            let key = number.to_le_bytes();
            let there = places(&key, bits, probes).iter().all(|at| set.contains(at));
            assert_eq!(contains::<FNV1aHasher64, Lookup3Hasher>(&words, bits, probes, &key), there);
            assert_eq!(insert::<FNV1aHasher64, Lookup3Hasher>(&mut words, bits, probes, &key), !there);
            set.extend(places(&key, bits, probes));
            assert_eq!(words, words_of(&set, count));
            assert!(contains::<FNV1aHasher64, Lookup3Hasher>(&words, bits, probes, &key));
        }
        let others: BTreeSet<u64> = places(b"another", bits, probes).into_iter().collect();
        union(&mut words, &words_of(&others, count));
        assert_eq!(words, words_of(&set.union(&others).copied().collect(), count));
    }
}
