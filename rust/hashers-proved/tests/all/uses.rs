//! What a caller does: maps, parts, undoing.
use hashers_proved::blocks::{
    siphash13, siphash24, xxh64, Murmur3Hasher128, Murmur3Hasher32, SipHasher13, SipHasher24, SipKey, SipKeys, Xxh32Hasher, Xxh64Hasher,
};
use hashers_proved::jenkins::spooky_hash::{spooky128, spooky128_v1, SpookyHasher, SpookyV1Hasher};
use hashers_proved::keyed::{Poly61Hasher, Poly61Pair};
use hashers_proved::map_keys::MapHasher;
use hashers_proved::xxh3::{xxh3_64, BuildXxh3, BuildXxh3Pieces, Xxh3Hasher, Xxh3Pieces};
use hashers_proved::{fnv::*, fx_hash::*, jenkins::*, more::*, null::*, oz::*, pigeon::*};
use std::collections::{HashMap, HashSet};
use std::fmt::Debug;
use std::hash::{BuildHasher, BuildHasherDefault, Hash, Hasher};

/// What the crate's page says that a hasher has.
const fn hasher<H: Hasher + Clone + Copy + Debug>() {}
const fn with_default<H: Hasher + Clone + Copy + Debug + Default>() {}
const fn with_eq<H: Hasher + Clone + Copy + Debug + Default + PartialEq + Eq>() {}

/// All hashers of the crate.
const _: () = {
    // declared: hashers
    with_eq::<FNV1aHasher32>();
    with_eq::<FNV1aHasher64>();
    with_eq::<DJB2Hasher>();
    with_eq::<SDBMHasher>();
    with_eq::<LoseLoseHasher>();
    with_eq::<Bricolage>();
    with_eq::<OAATHasher>();
    with_eq::<Lookup3Hasher>();
    with_default::<SpookyHasher>();
    with_default::<SpookyV1Hasher>();
    with_eq::<PassThroughHasher>();
    with_eq::<FxHasher>();
    with_eq::<FxHasher32>();
    with_eq::<FxHasher64>();
    with_eq::<Crc32Hasher>();
    with_eq::<Crc32cHasher>();
    with_eq::<Fnv1Hasher32>();
    with_eq::<Fnv1Hasher64>();
    with_eq::<Djb2AddHasher>();
    with_eq::<JoaatHasher>();
    with_eq::<ElfHasher>();
    with_eq::<NullHasher>();
    with_default::<Xxh32Hasher>();
    with_default::<Xxh64Hasher>();
    with_default::<Murmur3Hasher32>();
    with_default::<Murmur3Hasher128>();
    with_default::<SipHasher13>();
    with_default::<SipHasher24>();
    with_default::<Xxh3Hasher>();
    // end of declared
    with_default::<Xxh3Pieces>();
    with_default::<Poly61Hasher>();
    with_default::<Poly61Pair>();
    hasher::<MapHasher>();
    #[cfg(feature = "std")]
    hasher::<hashers_proved::lines::KeyedHasher>();
};

/// A copy is taken in the middle of a block.
#[test]
fn copies_of_hashers_under_seeds_go_on_by_themselves() {
    fn copied<H: Hasher + Copy>(mut hasher: H, whole: impl Fn(&[u8]) -> u64) {
        let text = [7; 300];
        hasher.write(&text[..133]);
        let copy = hasher;
        hasher.write(&text[133..]);
        assert_eq!((hasher.finish(), copy.finish()), (whole(&text), whole(&text[..133])));
    }
    let key = SipKey { k0: 5, k1: 6 };
    copied(Xxh3Hasher::new(5), |text| xxh3_64(5, text));
    copied(Xxh64Hasher::new(5), |text| xxh64(5, text));
    copied(SipHasher24::new(key), |text| siphash24(key, text));
}

/// A seed comes out of the hash of no bytes.
#[test]
fn debug_shows_neither_seeds_nor_hashes() {
    let told = format!("{:?}, {:?}", Xxh3Hasher::new(7), SipHasher13::new(SipKey { k0: 5, k1: 6 }));
    assert_eq!(told, "Xxh3Hasher { .. }, BlockHasher { .. }");
    let told = format!("{:?}, {:?}, {:?}", BuildXxh3 { seed: 7 }, BuildSpooky { seed1: 5, seed2: 6 }, SipKeys::with_keys(5, 6));
    assert_eq!(told, "BuildXxh3 { .. }, BuildSpooky { .. }, SipKeys { .. }");
}

/// What makes hashers goes into maps that are collected, or are made by `default()`.
fn collected<B: BuildHasher + Clone + Copy + Debug + Default>() {
    let ages: HashMap<String, u8, B> = [("Ada".to_string(), 36)].into_iter().collect();
    let mut none = HashMap::<String, u8, B>::default();
    assert_eq!((ages["Ada"], none.insert("Alan".to_string(), 41), none["Alan"]), (36, None, 41));
}

#[test]
fn maps_take_what_makes_hashers() {
    collected::<BuildXxh3>();
    collected::<BuildXxh3Pieces>();
    collected::<hashers_proved::xxhash::BuildXxh64>();
    collected::<BuildSpooky>();
    collected::<hashers_proved::build::BuildFresh<FNV1aHasher64>>();
    #[cfg(feature = "std")]
    {
        collected::<hashers_proved::map_keys::MapHashers>();
        collected::<hashers_proved::lines::RandomKeys>();
        collected::<SipKeys>();
        assert_ne!(SipKeys::random().hash_one(7), SipKeys::default().hash_one(7));
    }
    assert_eq!(SipKeys::with_keys(5, 6).hash_one(7u8), siphash13(SipKey { k0: 5, k1: 6 }, &[7]));
    assert_eq!(BuildXxh3::default().hash_one(7u8), xxh3_64(0, &[7]));
    assert_eq!(BuildSpooky::default().hash_one(7u8), spooky128(0, 0, &[7]).0);
    let of = BuildXxh3Pieces::default();
    assert_eq!((of.hash_one(255u64), BuildXxh3Pieces::with_seed(5).hash_one(255u64)), (936843873771430885, 1064666609712484258));
    assert_eq!((of.hash_one("Ada"), of.hash_one("a"), of.hash_one("")), (17444230683748858523, 18429831914763545798, 16516963733557364010));
    assert_eq!((of.hash_one(("Ada", 36u32)), of.hash_one(1u128 << 127)), (4658158038323642487, 3256113168528211055));
}

fn in_a_map<H: Hasher + Default>() {
    let mut map: HashMap<String, usize, BuildHasherDefault<H>> = HashMap::default();
    for i in 0..1000 {
        map.insert(format!("key{i}"), i);
    }
    let set: HashSet<usize, BuildHasherDefault<H>> = map.values().copied().collect();
    assert_eq!((map.len(), set.len()), (1000, 1000));
    for i in 0..1000 {
        assert_eq!(map.get(&format!("key{i}")), Some(&i));
        assert!(set.contains(&i));
    }
}

#[test]
fn maps_and_sets_take_each_hasher() {
    // declared: maps
    in_a_map::<FNV1aHasher32>();
    in_a_map::<FNV1aHasher64>();
    in_a_map::<DJB2Hasher>();
    in_a_map::<SDBMHasher>();
    in_a_map::<LoseLoseHasher>();
    in_a_map::<Bricolage>();
    in_a_map::<OAATHasher>();
    in_a_map::<Lookup3Hasher>();
    in_a_map::<SpookyHasher>();
    in_a_map::<SpookyV1Hasher>();
    in_a_map::<PassThroughHasher>();
    in_a_map::<FxHasher>();
    in_a_map::<FxHasher32>();
    in_a_map::<FxHasher64>();
    in_a_map::<Crc32Hasher>();
    in_a_map::<Crc32cHasher>();
    in_a_map::<Fnv1Hasher32>();
    in_a_map::<Fnv1Hasher64>();
    in_a_map::<Djb2AddHasher>();
    in_a_map::<JoaatHasher>();
    in_a_map::<ElfHasher>();
    in_a_map::<NullHasher>();
    in_a_map::<Xxh32Hasher>();
    in_a_map::<Xxh64Hasher>();
    in_a_map::<Murmur3Hasher32>();
    in_a_map::<Murmur3Hasher128>();
    in_a_map::<SipHasher13>();
    in_a_map::<SipHasher24>();
    in_a_map::<Xxh3Hasher>();
    // end of declared
}

/// A copy of a hasher goes on by itself, and each of two calls undoes the other from every state.
fn undone<H: Hasher + Default + Copy + Debug + PartialEq>(unwrite: fn(&mut H, &[u8])) {
    let mut hasher = H::default();
    (1u32, "text").hash(&mut hasher);
    let before = hasher;
    hasher.write(b"more bytes");
    assert_ne!(hasher, before);
    unwrite(&mut hasher, b"more bytes");
    assert_eq!(hasher, before);
    unwrite(&mut hasher, b"never written");
    hasher.write(b"never written");
    assert_eq!(hasher, before);
}

#[test]
fn unwrite_and_write_undo_one_another() {
    undone::<FNV1aHasher32>(FNV1aHasher32::unwrite);
    undone::<FNV1aHasher64>(FNV1aHasher64::unwrite);
    undone::<DJB2Hasher>(DJB2Hasher::unwrite);
    undone::<SDBMHasher>(SDBMHasher::unwrite);
    undone::<LoseLoseHasher>(LoseLoseHasher::unwrite);
    undone::<Bricolage>(Bricolage::unwrite);
    undone::<OAATHasher>(OAATHasher::unwrite);
    undone::<FxHasher>(FxHasher::unwrite);
    undone::<FxHasher32>(FxHasher32::unwrite);
    undone::<FxHasher64>(FxHasher64::unwrite);
}

#[test]
fn spooky_in_parts_is_that_of_the_whole() {
    let bytes: Vec<u8> = (0..500u32).map(|i| ((i * 89) >> 2) as u8).collect();
    for cut in 0..=bytes.len() {
        let mut hasher = SpookyHasher::new(1, 2);
        hasher.write(&bytes[..cut]);
        let copy = hasher;
        hasher.write(&bytes[cut..]);
        assert_eq!(hasher.finish128(), spooky128(1, 2, &bytes), "cut at {cut}");
        assert_eq!(hasher.finish128_v1(), spooky128_v1(1, 2, &bytes), "cut at {cut}");
        assert_eq!(hasher.finish(), hasher.finish128().0);
        assert_eq!(copy.finish128(), spooky128(1, 2, &bytes[..cut]), "a copy at {cut}");
    }
}

/// `io::copy`, numbers of one width, builders under a seed, and a fresh start.
#[cfg(feature = "std")]
#[test]
fn hashers_do_what_users_of_the_peers_expect() {
    use hashers_proved::{crc32::*, murmur3::*, xxhash::*};
    fn copied<H: Hasher + std::io::Write>(mut hasher: H) -> u64 {
        assert_eq!(std::io::copy(&mut &[7; 20_000][..], &mut hasher).unwrap(), 20_000);
        hasher.flush().unwrap();
        hasher.finish()
    }
    let text = [7; 20_000];
    assert_eq!((copied(Xxh3Hasher::new(5)), copied(Xxh64Hasher::new(5))), (xxh3_64(5, &text), xxh64(5, &text)));
    assert_eq!((copied(FNV1aHasher64::default()), copied(Crc32Hasher::default())), (fnv1a64(&text), crc32(&text)));
    assert_eq!((crc32_u32(b"123456789"), crc32c_u32(b"123456789"), fnv1a32_u32(b"a")), (0xcbf43926, 0xe3069283, 0xe40c292c));
    let mut hasher = Xxh3Hasher::new(0x13353e1);
    hasher.write(b"xxhash");
    assert_eq!(hasher.finish_u128(), 0x79ac33c96912c28697334731064933c1);
    assert_eq!(xxh3_u128(0x13353e1, b"xxhash"), hasher.finish_u128());
    hasher.reset(0);
    assert_eq!(hasher.finish_u128(), 0x99aa06d3014798d86001c324468d497f);
    let mut hasher = Murmur3Hasher128::new(9);
    hasher.reset(1);
    hasher.write(b"hello, world");
    assert_eq!(hasher.finish_u128(), 0x8b95f808840725c61597ed5422bd493b);
    let mut hasher = SpookyHasher::default();
    hasher.write(b"a");
    assert_eq!(hasher.finish_u128(), 0xe78054ab33652e30c23e6229fd6dd323);
    let fx = BuildHasherDefault::<FxHasher>::default();
    assert!(fx.hash_one(7u32) == 7u64.wrapping_mul(0x517cc1b727220a95) && fx.hash_one(7u16) != fx.hash_one(7u32));
    assert_eq!(BuildXxh64::with_seed(5).hash_one(7u8), xxh64(5, &[7]));
    assert_eq!(BuildXxh32::with_seed(5).hash_one(7u8), u64::from(xxh32(5, &[7])));
    assert_eq!(BuildMurmur3At32::with_seed(5).hash_one(7u8), u64::from(murmur3_32(5, &[7])));
    assert_eq!(BuildMurmur3At128::with_seed(5).hash_one(7u8), murmur3_128(5, &[7]).0);
    assert_eq!(BuildXxh3::with_seed(5).hash_one(7u8), xxh3_64(5, &[7]));
    assert_ne!(BuildXxh64::random().hash_one(7), BuildXxh64::random().hash_one(7));
    assert_ne!(BuildXxh3::random().hash_one(7), BuildXxh3::random().hash_one(7));
}

#[test]
fn hashers_keep_their_states_alone() {
    use std::mem::size_of;
    assert_eq!([size_of::<FNV1aHasher32>(), size_of::<DJB2Hasher>(), size_of::<SDBMHasher>(), size_of::<FxHasher32>()], [4; 4]);
    assert_eq!([size_of::<FNV1aHasher64>(), size_of::<LoseLoseHasher>(), size_of::<Bricolage>(), size_of::<OAATHasher>()], [8; 4]);
    assert_eq!([size_of::<Lookup3Hasher>(), size_of::<PassThroughHasher>(), size_of::<FxHasher>(), size_of::<FxHasher64>()], [8; 4]);
    assert_eq!((size_of::<NullHasher>(), size_of::<Crc32Hasher>()), (0, 4));
}
