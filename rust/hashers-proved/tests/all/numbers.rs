//! Numbers at keys, and keys of maps.
use hashers_proved::map_keys::{map_hash, MapHashers, MapKeys};
use hashers_proved::numbers::{number_hash, pair_hash};
use std::hash::{BuildHasher, Hasher};

const MULTIPLIER: u128 = 0x0123456789abcdef0fedcba987654321;
const MULTIPLIER2: u128 = 0x9e3779b97f4a7c15f39cc0605cedc835;
const ADDEND: u128 = 0xdeadbeefcafebabe8badf00ddeadc0de;
const OF_255: u64 = 58512787288153055;

#[test]
fn numbers_at_keys() {
    let wanted = [(0, 16045690984503098046), (1, 16127676513719584941), (255, OF_255), (1 << 32, 7519195941655316072), (u64::MAX, 17111502864317427696)];
    for (number, hash) in wanted {
        assert_eq!(number_hash(MULTIPLIER, ADDEND, number), hash);
    }
    let wanted = [
        (5 | 6 << 64, 11072931251686516973),
        (1 << 64, 8999661730116744916),
        (1 << 127, 15599377431494237913),
        (u128::MAX, 4818160938976508943),
        (1234567890123456789 | 9876543210987654321 << 64, 7471106933747824822),
    ];
    for (number, hash) in wanted {
        assert_eq!(pair_hash(MULTIPLIER, MULTIPLIER2, ADDEND, number), hash);
    }
}

/// The multipliers of these tests.
fn multipliers() -> [u128; 17] {
    let mut next = MULTIPLIER;
    std::array::from_fn(|_| {
        let it = next;
        next = next.wrapping_mul(MULTIPLIER2).wrapping_add(1);
        it
    })
}

fn keys() -> &'static MapKeys {
    Box::leak(Box::new(MapKeys::with_keys(multipliers(), ADDEND, 1234567)))
}

fn of() -> MapHashers<'static> {
    keys().hashers()
}

/// A key of up to eight bytes is one number, whatever its type.
#[test]
fn keys_of_one_number() {
    let hashes = [of().hash_one(255u8), of().hash_one(255u16), of().hash_one(255u32), of().hash_one(255usize), of().hash_one(255i64)];
    assert_eq!((hashes, of().hash_one("")), ([OF_255; 5], OF_255));
    assert_eq!(of().hash_one(usize::MAX), number_hash(MULTIPLIER, ADDEND, u64::MAX));
    assert_eq!(of().hash_one((5u32, 6u32)), number_hash(MULTIPLIER, ADDEND, 5 + (6 << 32)));
    assert_eq!(of().hash_one("seven77"), number_hash(MULTIPLIER, ADDEND, u64::from_le_bytes(*b"seven77\xff")));
}

/// One of up to sixteen bytes is a number of two words.
#[test]
fn keys_of_two_words() {
    for number in [5 | 6 << 64, 1 << 127, u128::MAX] {
        let hash = pair_hash(MULTIPLIER, multipliers()[1], ADDEND, number);
        assert_eq!((of().hash_one(number), of().hash_one(number as i128)), (hash, hash));
        assert_eq!(of().hash_one((number as u64, (number >> 64) as u64)), hash);
    }
    assert_eq!((of().hash_one((5u64, 6u32)), of().hash_one((5usize, 6u8))), (9619221137405589398, 9619221137405589398));
}

#[test]
fn longer_keys() {
    assert_eq!(of().hash_one((5u64, 6u64, 7u64)), 13045242297722287173);
    assert_eq!((of().hash_one(("Ada", 36u32)), of().hash_one(("Ada", 36u64 << 40))), (13422153889259647353, 2272154595059653516));
    assert_eq!((of().hash_one((1815u64, "Ada Lovelace")), of().hash_one((5u8, 1u128 << 127))), (1735720109138093803, 13221633870271036051));
    assert_eq!(of().hash_one("x".repeat(128)), 2230958468301649373);
    let text: Vec<u8> = (0..200).map(|at| (at * 37 % 256) as u8).collect();
    for (length, hash) in [
        (0, 16045690984503098046),
        (1, 16045690984503098046),
        (7, 4668439202918017217),
        (8, 1006952657870772363),
        (9, 4622286899896622519),
        (16, 13018532440386120669),
        (63, 1759821577383905018),
        (64, 15797489629508910292),
        (100, 13219829240463754681),
        (127, 4871536863150292029),
        (128, 695559789670581238),
        (129, 1833634219120750240),
        (135, 11500040796088320301),
        (136, 10432778923856156815),
        (200, 6365603775763803409),
    ] {
        assert_eq!(map_hash(keys(), &text[..length]), hash);
    }
}

/// Two hundred bytes and fewer, in writes of every width at every place, have the hash of the bytes at once.
#[test]
fn splits_do_not_show() {
    let text: Vec<u8> = (0..200).map(|at| (at * 91 % 251) as u8).collect();
    for length in [0, 1, 8, 15, 16, 17, 40, 127, 128, 129, 140, 200] {
        let bytes = &text[..length];
        let whole = map_hash(keys(), bytes);
        for cut in 0..=length {
            let mut hasher = of().build_hasher();
            hasher.write(&bytes[..cut]);
            hasher.write(&[]);
            let copy = hasher;
            bytes[cut..].iter().for_each(|byte| hasher.write_u8(*byte));
            assert_eq!((hasher.finish(), copy.finish()), (whole, map_hash(keys(), &bytes[..cut])));
        }
        for start in 0..length.min(16) {
            let mut hasher = of().build_hasher();
            hasher.write(&bytes[..start]);
            let mut rest = &bytes[start..];
            while let Some((number, more)) = rest.split_first_chunk() {
                hasher.write_u64(u64::from_le_bytes(*number));
                rest = more;
                if let Some((number, more)) = rest.split_first_chunk() {
                    hasher.write_u16(u16::from_le_bytes(*number));
                    rest = more;
                }
                if let Some((number, more)) = rest.split_first_chunk() {
                    hasher.write_u128(u128::from_le_bytes(*number));
                    rest = more;
                }
                if let Some((number, more)) = rest.split_first_chunk() {
                    hasher.write_u32(u32::from_le_bytes(*number));
                    rest = more;
                }
            }
            hasher.write(rest);
            assert_eq!(hasher.finish(), whole);
        }
    }
}

/// Whoever knows the keys finds numbers that all meet, as here in the low sixteen bits. So the keys are drawn at random.
#[test]
fn numbers_meet_at_known_keys() {
    let places = |multiplier| (0..1000u64).map(|turn| number_hash(multiplier, ADDEND, turn * 14745600) % 65536).collect::<Vec<_>>();
    let distinct = |mut places: Vec<u64>| {
        places.sort_unstable();
        places.dedup();
        places.len()
    };
    assert_eq!(distinct(places(MULTIPLIER)), 1);
    assert!(distinct(places(0x9e3779b97f4a7c15f39cc0605cedc835)) > 900);
}

/// Whoever sees hashes may compute the keys.
#[test]
fn debug_shows_neither_keys_nor_hashes() {
    let told = format!("{:?}, {:?}, {:?}", keys(), of(), of().build_hasher());
    assert_eq!(told, "MapKeys { .. }, MapHashers { .. }, MapHasher { .. }");
}

#[cfg(feature = "std")]
#[test]
fn maps_and_sets_at_keys() {
    use hashers_proved::map_keys::{KeyMap, KeySet};
    let mut ages: KeyMap<&str, u8> = KeyMap::default();
    ages.insert("Ada", 36);
    assert_eq!((ages.get("Ada"), ages.get("Alan")), (Some(&36), None));
    assert_eq!(std::mem::size_of::<MapHashers>(), 8);
    // all maps of the process have the same keys, and one with keys of its own has others
    assert_eq!(MapHashers::default().hash_one(7), MapHashers::default().hash_one(7));
    let own = MapKeys::random();
    assert_ne!(own.hashers().hash_one(7), MapHashers::default().hash_one(7));
    let collected: KeySet<u64> = (0..1000).map(|number| number << 40).collect();
    assert!((0..1000).all(|number| collected.contains(&(number << 40))) && collected.len() == 1000);
}
