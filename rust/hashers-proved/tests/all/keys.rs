//! What std feeds of a key: where Rust's std does as Rattle's, and where it does not.
use hashers_proved::build::*;
use hashers_proved::fx_hash::*;
use hashers_proved::jenkins::Lookup3Hasher;
use hashers_proved::laws::{hash_of, run_pieces, Piecewise};
use hashers_proved::{fnv::*, oz::*, rules::ByteHasher, rules::Plain};
use std::collections::HashMap;
use std::hash::{BuildHasher, BuildHasherDefault};

fn pieces<H: Piecewise>(pieces: &[&[u8]]) -> u64 {
    let mut h = H::fresh();
    run_pieces(&mut h, pieces);
    h.answer()
}

#[test]
fn keys_where_cuts_do_not_show() {
    for key in [b"".as_slice(), b"a", b"abcdefgh", b"abcdefghijklmnop"] {
        let joined = [&(key.len() as u64).to_le_bytes(), key].concat();
        assert_eq!(hash_one_slice::<FNV1aHasher64>(key), fnv1a64(&joined));
        assert_eq!(hash_one_slice::<SDBMHasher>(key), sdbm(&joined));
    }
    assert_eq!(hash_one_number::<DJB2Hasher>(258), djb2(&[2, 1, 0, 0, 0, 0, 0, 0]));
    assert_eq!(hash_one_pair::<FNV1aHasher32>((1, 2)), fnv1a32(&[1, 0, 0, 0, 0, 0, 0, 0, 2, 0, 0, 0, 0, 0, 0, 0]));
    assert_eq!(hash_one_str::<FNV1aHasher64>("a"), fnv1a64(b"a\xff"));
    // every builder makes the same hasher
    assert_eq!(FnvBuildHasher::new().hash_one(7u64), BuildHasherDefault::<FNV1aHasher64>::default().hash_one(7u64));
}

#[test]
fn keys_where_cuts_show() {
    assert_eq!(hash_one_number_fx(258), hash_of::<FxHasher>(&258u64.to_le_bytes()));
    let eights: [&[u8]; 2] = [&1u64.to_le_bytes(), &2u64.to_le_bytes()];
    assert_eq!(hash_one_pair_fx((1, 2)), pieces::<FxHasher>(&eights));
    assert_eq!(hash_one_pair_in_writes::<Lookup3Hasher>((1, 2)), pieces::<Lookup3Hasher>(&eights));
}

/// Rattle's std writes each byte of a slice by itself, and the contracts of hash_one_slice_in_writes and hash_one_slice_fx say so. Rust's
/// std writes them all at once: where cuts show, the hash of a slice as a key is another number in Rust. So the two are left out.
#[test]
fn slices_where_cuts_show_are_another_number() {
    let key = b"abcdefgh";
    let length = (key.len() as u64).to_le_bytes();
    let mut by_bytes: Vec<&[u8]> = vec![&length];
    by_bytes.extend(key.chunks(1));
    let in_rattle = pieces::<FxHasher>(&by_bytes);
    let in_rust = pieces::<FxHasher>(&[&length, key]);
    assert_eq!(FxBuildHasher::new().hash_one(key.as_slice()), in_rust);
    assert_ne!(in_rattle, in_rust);
}

#[test]
fn maps_under_their_names() {
    let mut map: FnvHashMap<&str, u32> = FnvHashMap::with_hasher(FnvBuildHasher::new());
    map.insert("Ada", 36);
    assert_eq!(map["Ada"], 36);
    let mut map: FxHashMap<u64, u32> = FxHashMap::default();
    map.insert(1, 2);
    assert_eq!(map[&1], 2);
    let spooky = hashers_proved::jenkins::BuildSpooky { seed1: 1, seed2: 2 };
    let map: HashMap<u64, u64, _> = { let mut m = HashMap::with_hasher(spooky); m.insert(5, 6); m };
    assert_eq!(map[&5], 6);
}

/// A rule of one's own: the generic hasher takes it.
struct Adler;

impl hashers_proved::rules::PlainRule for Adler {
    type Word = u32;
    const ALONE: bool = false;
    fn start() -> u32 {
        1
    }
    fn step(word: u32, byte: u8) -> u32 {
        let (b, a) = (word >> 16, word & 0xffff);
        let a = (a + u32::from(byte)) % 65521;
        ((b + a) % 65521) << 16 | a
    }
    fn answer(word: u32) -> u64 {
        word.into()
    }
}

#[test]
fn a_rule_of_ones_own() {
    assert_eq!(hash_of::<ByteHasher<Plain<Adler>>>(b"Wikipedia"), 0x11E60398);
}
