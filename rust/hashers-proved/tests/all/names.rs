//! Each name: its function beside its hasher, and the header for C.
use hashers_proved::blocks::*;
use hashers_proved::jenkins::spooky_hash::*;
use hashers_proved::xxh3::{xxh3_64, Xxh3Hasher};
use hashers_proved::{fnv::*, fx_hash::*, jenkins::*, more::*, null::*, oz::*, pigeon::*};
use std::hash::Hasher;

fn by<H: Default + Hasher>(bytes: &[u8]) -> u64 {
    let mut hasher = H::default();
    hasher.write(bytes);
    hasher.finish()
}

type Hash = fn(&[u8]) -> u64;

/// The key of the table's rows.
const NO_KEY: SipKey = SipKey { k0: 0, k1: 0 };

/// Each name, its function, and the same by its hasher.
const NAMES: &[(&str, Hash, Hash)] = &[
    // declared: names
    ("fnv1a32", fnv1a32, by::<FNV1aHasher32>),
    ("fnv1a64", fnv1a64, by::<FNV1aHasher64>),
    ("djb2", djb2, by::<DJB2Hasher>),
    ("sdbm", sdbm, by::<SDBMHasher>),
    ("loselose", loselose, by::<LoseLoseHasher>),
    ("bricolage", bricolage, by::<Bricolage>),
    ("oaat", oaat, by::<OAATHasher>),
    ("lookup3", lookup3, by::<Lookup3Hasher>),
    ("spooky", spooky, by::<SpookyHasher>),
    ("spooky_v1", spooky_v1, by::<SpookyV1Hasher>),
    ("passthrough", passthrough, by::<PassThroughHasher>),
    ("fxhash", fxhash, by::<FxHasher>),
    ("fxhash32", fxhash32, by::<FxHasher32>),
    ("fxhash64", fxhash64, by::<FxHasher64>),
    ("crc32", crc32, by::<Crc32Hasher>),
    ("crc32c", crc32c, by::<Crc32cHasher>),
    ("fnv1_32", fnv1_32, by::<Fnv1Hasher32>),
    ("fnv1_64", fnv1_64, by::<Fnv1Hasher64>),
    ("djb2_add", djb2_add, by::<Djb2AddHasher>),
    ("joaat", joaat, by::<JoaatHasher>),
    ("elf", elf, by::<ElfHasher>),
    ("null", null, by::<NullHasher>),
    ("xxh32", |text| u64::from(xxh32(0, text)), by::<Xxh32Hasher>),
    ("xxh64", |text| xxh64(0, text), by::<Xxh64Hasher>),
    ("murmur3_32", |text| u64::from(murmur3_32(0, text)), by::<Murmur3Hasher32>),
    ("murmur3", |text| murmur3_128(0, text).0, by::<Murmur3Hasher128>),
    ("siphash13", |text| siphash13(NO_KEY, text), by::<SipHasher13>),
    ("siphash24", |text| siphash24(NO_KEY, text), by::<SipHasher24>),
    ("xxh3", |text| xxh3_64(0, text), by::<Xxh3Hasher>),
    // end of declared
];

#[test]
fn hashers_answer_as_functions_at_each_length() {
    let bytes: Vec<u8> = (0..400u32).map(|i| ((i * 167) >> 3) as u8).collect();
    for &(name, whole, parts) in NAMES {
        for length in 0..=bytes.len() {
            assert_eq!(whole(&bytes[..length]), parts(&bytes[..length]), "{name} of {length} bytes");
        }
    }
}

#[test]
fn names_are_those_of_the_header() {
    let header = include_str!("../../../../c/hashers.h");
    let takes_a_text = |line: &'static str| Some(line.strip_prefix("uint64_t hashers_")?.split_once("(const void *text, size_t n); /* ")?.0);
    let mut declared: Vec<&str> = header.lines().filter_map(takes_a_text).collect();
    let mut names: Vec<&str> = NAMES.iter().map(|it| it.0).collect();
    declared.sort_unstable();
    names.sort_unstable();
    assert_eq!(declared, names);
}
