//! What takes memory, reads or writes: tables, rings, chunks, filters and lines, each beside another way to the same answer.
use hashers_proved::bloom::{insert, Bloom, Unread};
use hashers_proved::buckets::Buckets;
use hashers_proved::cuts::{Cuts, Sizes, WrongSize};
use hashers_proved::fnv::{fnv1a64, FNV1aHasher64};
use hashers_proved::hash_bloom::commands::{empty_finds_nothing, found_after, found_in_union, new_after, Command};
use hashers_proved::hash_buckets::{self, obey_all, NoRoom};
use hashers_proved::hash_cuts::{self as proved_cuts, cut_reader, Sink, Unfinished};
use hashers_proved::hash_ring::points::{self, Point};
use hashers_proved::hash_ring::{self, Node, Refused};
use hashers_proved::jenkins::{spooky_hash::SpookyHasher, Lookup3Hasher};
use hashers_proved::lines::{has_end, line_end, without_end, Lines, RandomKeys};
use hashers_proved::null::NullHasher;
use hashers_proved::ring::Ring;
use hashers_proved::shim::{memory::Global, Vec as ShimVec};
use hashers_proved::text_set::{self, Texts};
use std::collections::btree_map::Entry;
use std::collections::{BTreeMap, HashMap, HashSet};
use std::hash::{BuildHasher, BuildHasherDefault, Hasher};
use std::io::{ErrorKind, Read, Write};
use std::panic::{catch_unwind, AssertUnwindSafe};

/// Numbers that look random, the same ones each time.
fn numbers(mut state: u64) -> impl FnMut() -> u64 {
    move || {
        state = state.wrapping_mul(6364136223846793005).wrapping_add(1442695040888963407);
        state >> 33
    }
}

#[test]
fn buckets_are_a_map() {
    let (mut pick, mut map) = (numbers(1), HashMap::new());
    let mut table = Buckets::<7, FNV1aHasher64>::default();
    for _ in 0..5000 {
        let (key, value) = ((pick() % 200).to_le_bytes(), pick());
        match pick() % 3 {
            0 => assert_eq!(table.insert(key, value), map.insert(key, value)),
            1 => assert_eq!(table.remove(key), map.remove(&key)),
            _ => assert_eq!(table.get(key), map.get(&key).copied()),
        }
        assert_eq!((table.len(), table.is_empty()), (map.len(), map.is_empty()));
        assert_eq!(table.contains_key(key), map.contains_key(&key));
    }
    for i in 0..7 {
        assert!(table.bucket(i).all(|(key, value)| (fnv1a64(key) % 7, map.get(key)) == (i as u64, Some(&value))));
        assert!(table.bucket(i).all(|(key, _)| table.bucket_of(key) == i));
    }
    assert_eq!((0..7).map(|i| table.bucket(i).len()).sum::<usize>(), map.len());
    let mut other: Buckets<7, FNV1aHasher64> = table.iter().collect();
    assert!(other == table && table.clone() == table && (&table).into_iter().count() == map.len());
    other.extend([("a", 1), ("b", 2)]);
    other.remove("b");
    assert!(other != table && other.len() == map.len() + 1);
    assert_eq!(format!("{:?}", Buckets::<3>::from_iter([("a", 1)])), r#"{"a": 1}"#);
}

#[test]
fn commands_are_obeyed_in_their_order() {
    let (mut pick, mut map, mut commands, mut replies) = (numbers(7), HashMap::new(), Vec::new(), Vec::new());
    for _ in 0..3000 {
        let (key, value) = ((pick() % 60).to_le_bytes().to_vec(), pick());
        let (command, reply) = match pick() % 3 {
            0 => (hash_buckets::Command::Insert(key.clone().into(), value), map.insert(key, value)),
            1 => (hash_buckets::Command::Remove(key.clone().into()), map.remove(&key)),
            _ => (hash_buckets::Command::Get(key.clone().into()), map.get(&key).copied()),
        };
        commands.push(command);
        replies.push(reply);
    }
    let mut table = hash_buckets::Buckets::<FNV1aHasher64, 7>::new(Global).unwrap();
    assert_eq!(obey_all(Global, &mut table, commands.into()).unwrap().as_slice(), replies);
    assert!(map.iter().all(|(key, value)| table.get(key) == Some(*value)) && table.len() == map.len() as u128);
    let refused = NoRoom { key: vec![1, 2].into(), value: 3 };
    assert_eq!(format!("{refused:?}"), "NoRoom { key: [1, 2], value: 3 }");
    assert_eq!(refused.into_parts().1, 3);
}

/// The owners of a key by the definition: the nodes of the points at or after the key's hash, round the ring.
fn owners(nodes: &BTreeMap<Vec<u8>, u64>, key: &[u8]) -> Vec<Vec<u8>> {
    let hash = |text: &[u8]| {
        let mut hasher = SpookyHasher::default();
        hasher.write(text);
        hasher.finish()
    };
    let mut points = Vec::new();
    for (name, weight) in nodes {
        points.extend((0..*weight).map(|number| (hash(&[name.as_slice(), &number.to_le_bytes()].concat()), name.clone())));
    }
    points.sort();
    let first = points.partition_point(|(place, _)| *place < hash(key));
    points.rotate_left(first);
    let mut found = Vec::new();
    for (_, name) in points {
        if !found.contains(&name) {
            found.push(name);
        }
    }
    found
}

#[test]
fn rings_have_the_owners_of_the_definition() {
    let (mut pick, mut nodes, mut ring) = (numbers(2), BTreeMap::new(), Ring::new());
    for turn in 0..40u64 {
        let name = format!("node{}", pick() % 12).into_bytes();
        if turn % 4 == 3 {
            assert_eq!(ring.remove(&name), nodes.remove(&name));
        } else if let Entry::Vacant(place) = nodes.entry(name.clone()) {
            assert!(ring.add(name, 5 + turn));
            place.insert(5 + turn);
        } else {
            assert!(!ring.add(name.clone(), 5) && ring.weight(&name) == nodes.get(&name).copied());
        }
        let whole: Ring = nodes.clone().into_iter().rev().collect();
        for key in 0..8u32 {
            let (key, wanted) = (key.to_le_bytes(), owners(&nodes, &key.to_le_bytes()));
            assert_eq!(ring.owner(key), wanted.first().map(Vec::as_slice));
            assert_eq!(ring.owners(key, 3), wanted[..wanted.len().min(3)]);
            assert_eq!(whole.owner(key), ring.owner(key));
        }
        assert!(ring.len() == nodes.len() && ring.is_empty() == nodes.is_empty() && ring == whole && ring.clone() == ring);
        assert!(ring.iter().eq(nodes.iter().map(|(name, weight)| (name.as_slice(), *weight))));
    }
    let twins = [5, 6].map(|weight| Node { name: b"twin".to_vec().into(), weight });
    let twins = hash_ring::Ring::<SpookyHasher>::from_nodes(Global, Vec::from(twins).into());
    assert!(matches!(twins, Err(Refused::IsThere(both)) if both.len() == 2));
    for key in 0..50u32 {
        let (key, wanted) = (key.to_le_bytes(), owners(&nodes, &key.to_le_bytes()));
        let second = ring.owner_below(key, |name| name != wanted[0].as_slice());
        assert_eq!(second, wanted.get(1).map(Vec::as_slice));
    }
    assert_eq!(ring.shares().into_iter().sum::<u128>(), 1 << 64);
    ring.extend([("node1", 3), ("new", 4), ("new", 5)]);
    assert_eq!((ring.weight("node1"), ring.weight("new"), ring.weight("none")), (Some(3), Some(5), None));
    assert_eq!(format!("{:?}", Ring::<Lookup3Hasher>::from_iter([("a", 7), ("a", 2)])), r#"{"a": 2}"#);
}

/// The points of nodes, each node's in order; `count` tells how many it has.
fn points_of(node: usize, place: impl Fn(usize, usize) -> u64, name: usize, count: usize) -> Vec<Point> {
    let mut made: Vec<_> = (0..count).map(|k| Point { place: place(name, k), node }).collect();
    points::sort(&mut made);
    assert!(made.is_sorted());
    made
}

/// A ring in an array, to which nodes come in any order and go again, beside one that is made at once.
#[test]
fn points_in_an_array_are_a_ring() {
    let (mut pick, mut names, mut ring) = (numbers(9), Vec::new(), Vec::new());
    // few places, so that many points meet
    let place = |name: usize, k: usize| (name * 7919 + k * 104_729) as u64 % 97;
    for _ in 0..200 {
        let name = pick() as usize % 20;
        match names.binary_search(&name) {
            Ok(at) => {
                names.remove(at);
                let kept = points::remove(&mut ring, at);
                ring.truncate(kept);
            }
            Err(at) => {
                let added = points_of(at, place, name, name + 1);
                names.insert(at, name);
                ring.extend_from_slice(&added);
                assert!(points::add(&mut ring, &added, at));
            }
        }
        let mut once: Vec<_> = names.iter().enumerate().flat_map(|(node, &name)| points_of(node, place, name, name + 1)).collect();
        points::sort(&mut once);
        assert!(once == ring);
        for at in [0, 1, 50, 96, 97, u64::MAX] {
            let first = ring.iter().position(|point| point.place >= at).unwrap_or(0);
            assert_eq!(points::owner_at(&ring, at), first);
            let mut wanted = Vec::new();
            ring[first..].iter().chain(&ring[..first]).for_each(|point| if !wanted.contains(&point.node) { wanted.push(point.node) });
            let (mut all, mut two) = ([77; 21], [77; 2]);
            assert_eq!((points::owners_at(&ring, at, &mut all), all[names.len()]), (names.len(), 77));
            assert_eq!((&all[..names.len()], points::owners_at(&ring, at, &mut two)), (&wanted[..], names.len().min(2)));
            assert_eq!(two[..names.len().min(2)], wanted[..names.len().min(2)]);
        }
    }
    let (one, two) = (Point { place: 1, node: 0 }, Point { place: 2, node: 0 });
    let (last, before) = (Point { place: 1, node: usize::MAX }, [one, two, one, two, one]);
    let mut now = before;
    assert!(!points::add(&mut now, &[], 0) && !points::add(&mut [one, two, one, one], &[two, one], 0) && !points::add(&mut [one], &[one, two], 0));
    assert!(now == before && !points::add(&mut [last], &[], 0) && points::add(&mut [], &[], 0));
}

/// Neither a node that is there nor one that comes before goes or changes.
#[test]
fn rings_stay_as_they_were_where_they_panic() {
    let mut ring = Ring::from_iter([("a", 5), ("b", 6)]);
    for nodes in [&[("a", 0)][..], &[("c", 0)], &[("c", 7), ("b", 8), ("a", 0)], &[("c", 7), ("b", u64::MAX)]] {
        let (before, extended) = (ring.clone(), AssertUnwindSafe(|| ring.extend(nodes.iter().copied())));
        assert!(catch_unwind(extended).is_err());
        assert_eq!((ring.owner("key"), &ring), (before.owner("key"), &before));
    }
    ring.extend([("c", 0), ("a", 9), ("c", 7)]);
    assert_eq!(ring, Ring::<SpookyHasher>::from_iter([("a", 9), ("b", 6), ("c", 7)]));
}

/// A ring of so many points that it looks for a place another way.
#[test]
fn large_rings_have_the_owners_of_small_ones() {
    let ring = Ring::<SpookyHasher>::from_iter([("one", 90_000), ("two", 60_000)]);
    let mut points = Vec::new();
    for (name, weight) in [(b"one", 90_000u64), (b"two", 60_000)] {
        points.extend((0..weight).map(|number| {
            let mut hasher = SpookyHasher::default();
            hasher.write(&[name.as_slice(), &number.to_le_bytes()].concat());
            (hasher.finish(), name)
        }));
    }
    points.sort();
    for at in (0..points.len()).step_by(997) {
        let (place, name) = points[at];
        assert_eq!(ring.owner_at(place), Some(name.as_slice()));
        let (_, after) = points[(at + 1) % points.len()];
        assert_eq!(ring.owner_at(place + 1), Some(after.as_slice()));
    }
}

/// Keeps the chunks.
struct Kept(Vec<Vec<u8>>);

impl Sink for Kept {
    type Error = ();

    fn take(&mut self, chunk: &[u8]) -> Result<(), ()> {
        self.0.push(chunk.to_vec());
        Ok(())
    }
}

#[test]
fn chunks_end_where_the_definition_has_them() {
    let mut pick = numbers(3);
    let text: Vec<u8> = (0..60000).map(|_| pick() as u8).collect();
    let sizes = Sizes { seed1: 7, seed2: 11, ..Sizes::around(300) };
    let refused = |sizes| Cuts::new(sizes).unwrap_err();
    assert_eq!((sizes.least, sizes.most, refused(Sizes { least: 63, ..sizes })), (75, 1200, WrongSize::Least(63)));
    assert_eq!(refused(Sizes { average: 74, ..sizes }).to_string(), "average is 74, below least, which is 75");
    assert_eq!(refused(Sizes { most: 299, ..sizes }).to_string(), "most is 299, below average, which is 300");
    let table = std::array::from_fn::<u64, 256, _>(|byte| {
        let mut hasher = SpookyHasher::new(7, 11);
        hasher.write(&[byte as u8]);
        hasher.finish128().0
    });
    let number = |byte: &u8| table[usize::from(*byte)];
    let hash_at = |at: usize| text[at - 64..at].iter().fold(0u64, |hash, byte| hash.wrapping_mul(2).wrapping_add(number(byte)));
    for (least, average, most) in [(64, 300, 900), (64, 64, 500), (100, 2000, 2000)] {
        let cuts = Cuts::new(Sizes { least, average, most, ..sizes }).unwrap().clone();
        let proved = proved_cuts::Cuts::new(least, average, most, 7, 11).unwrap();
        let (mut place, mut wanted) = (0, Vec::new());
        while place < text.len() {
            let end = text.len().min(place + most);
            let cut = (place + least..end).find(|at| u128::from(hash_at(*at)) * (average as u128) < 1 << 64).unwrap_or(end);
            wanted.push(text[place..cut].to_vec());
            place = cut;
        }
        assert_eq!(cuts.chunks(&text).collect::<Vec<_>>(), wanted);
        let (mut ends, mut few) = (vec![7; wanted.len() + 1], [7; 2]);
        assert_eq!((cuts.ends(&text, &mut ends), cuts.ends(&text, &mut few), cuts.ends(b"", &mut few)), (wanted.len(), 2, 0));
        let sums = wanted.iter().scan(0, |sum, chunk| {
            *sum += chunk.len() as u64;
            Some(*sum)
        });
        assert_eq!((ends[..2].to_vec(), sums.chain([7]).collect::<Vec<_>>()), (few.to_vec(), ends));
        let mut whole = Vec::new();
        let read = cuts.cut(Slow(&text, false), |chunk| {
            whole.push(chunk.to_vec());
            Ok(())
        });
        assert_eq!((read.unwrap(), whole), (60000, wanted.clone()));
        assert_eq!(cuts.cut(Broken, |_| Ok(())).unwrap_err().kind(), ErrorKind::TimedOut);
        assert_eq!(cuts.cut(&text[..], |_| Err(ErrorKind::StorageFull.into())).unwrap_err().kind(), ErrorKind::StorageFull);
        let mut kept = Kept(Vec::new());
        let Ok(taken) = cut_reader(Global, &proved, &mut text.as_slice(), u64::MAX, &mut kept) else { panic!() };
        assert_eq!((kept.0, taken.bytes, taken.ended), (wanted, 60000, true));
        let Ok(taken) = cut_reader(Global, &proved, &mut text.as_slice(), 59999, &mut Kept(Vec::new())) else { panic!() };
        assert_eq!((taken.bytes, taken.ended), (59999, false));
        assert!(matches!(cut_reader(Global, &proved, &mut Broken, 9, &mut Kept(Vec::new())), Err(Unfinished::Unread(_))));
    }
}

/// A reader that gives a hundred bytes after each read that a signal interrupts.
struct Slow<'a>(&'a [u8], bool);

impl Read for Slow<'_> {
    fn read(&mut self, to: &mut [u8]) -> std::io::Result<usize> {
        self.1 = !self.1;
        if self.1 {
            return Err(ErrorKind::Interrupted.into());
        }
        let count = to.len().min(100);
        self.0.read(&mut to[..count])
    }
}

/// A reader that fails.
struct Broken;

impl Read for Broken {
    fn read(&mut self, _: &mut [u8]) -> std::io::Result<usize> {
        Err(ErrorKind::TimedOut.into())
    }
}

type Filter = Bloom<FNV1aHasher64, SpookyHasher>;

#[test]
fn filters_are_stored_and_joined() {
    let (mut one, mut other) = (Filter::for_keys(100, 12), Filter::for_keys(100, 12));
    let mut words = vec![0u64; one.words().len()];
    for number in 0..50u32 {
        let before = one.contains(number.to_le_bytes());
        assert_eq!(one.insert(number.to_le_bytes()), !before);
        insert::<FNV1aHasher64, SpookyHasher>(&mut words, one.bits(), one.probes(), &number.to_le_bytes());
    }
    other.extend((50..100u32).map(u32::to_le_bytes));
    assert_eq!((one.words(), one.bits(), one.probes()), (words.as_slice(), 1200, 8));
    assert!((45..55).contains(&other.estimate().unwrap()));
    assert!(one.contains_pieces(&[&[7, 0], &[], &[0, 0]]) && !one.contains_pieces(&[&[7, 0], &[77, 0]]));
    let share = Filter::for_keys(100, 15);
    assert_eq!((share.bits(), share.estimate(), share.ones()), (1500, Some(0), 0));
    assert!(one.fits(&other) && !one.fits(&share) && !one.fits(&Filter::with_shape(1200, 7)) && one != other);
    let (mut joined, alone) = (one.clone(), one.clone());
    joined |= &other;
    one.union(&other);
    assert!(one == joined && one != alone && (0..100u32).all(|number| one.contains(number.to_le_bytes())));
    assert!((90..110).contains(&one.estimate().unwrap()));
    let mut file = Vec::new();
    one.write_to(&mut file, "fnv1a64 spooky").unwrap();
    assert_eq!(Filter::read_from(&file[..], "fnv1a64 spooky").unwrap(), one);
    assert!(matches!(Filter::read_from(&file[..], "fnv1a64 djb2"), Err(Unread::Pair)));
    file[14] = b'1';
    assert!(matches!(Filter::read_from(&file[..], "fnv1a64 spooky"), Err(Unread::Version)));
    file[14] = b'2';
    file[60] ^= 1;
    assert!(matches!(Filter::read_from(&file[..], "fnv1a64 spooky"), Err(Unread::Hash)));
    assert!(Bloom::<FNV1aHasher64, Lookup3Hasher>::from_words(vec![1u64 << 63], 63, 2).is_none());
    assert_eq!(Filter::from_words(one.clone().into_words(), 1200, 8), Some(one.clone()));
    assert!(hashers_proved::hash_bloom::Bloom::<FNV1aHasher64, SpookyHasher>::new(Global, u64::MAX, 1).is_err(), "there is no such memory");
    let mut full = Full(Vec::new(), false);
    assert_eq!(one.write_to(&mut full, "fnv1a64 spooky").map_err(|error| error.kind()), Err(ErrorKind::StorageFull));
    assert!(full.0.len() == 99 && file.starts_with(&full.0[..50]));
    one.clear();
    assert_eq!(format!("{one:?}"), "Bloom { bits: 1200, probes: 8, ones: 0 }");
    let proved = || hashers_proved::hash_bloom::Bloom::<FNV1aHasher64, SpookyHasher>::new(Global, 999, 3).unwrap();
    let stored = || vec![Command::Store, Command::Insert(b"a".to_vec().into())].into();
    assert!(!new_after(proved(), stored(), b"a") && new_after(proved(), stored(), b"b") && found_after(proved(), stored(), b"a"));
    let (mut one, mut other) = (proved(), proved());
    other.insert(b"a");
    assert!(!one.contains(b"a") && found_in_union(&mut one, &other, b"a"));
    // ln(zeros / bits) / (probes * ln(1 - 1 / bits)), by a program in another language: 90.38, 1.81 and 0; a full filter says nothing
    let told = |words: [u64; 2], bits, probes| Filter::from_words(words.to_vec(), bits, probes).unwrap().estimate();
    assert_eq!((told([u64::MAX, 1], 128, 1), told([1 << 9 | 31, 1], 100, 4)), (Some(91), Some(2)));
    assert_eq!((told([0, 0], 100, 4), told([u64::MAX, u64::MAX], 128, 3)), (Some(0), None));
    assert!(!empty_finds_nothing::<FNV1aHasher64, SpookyHasher>(Global, 999, 3, b"a").unwrap());
}

fn panics<T>(call: fn() -> T) -> bool {
    catch_unwind(call).is_err()
}

/// Calls that give no filter, no list and no ring.
#[test]
fn wrong_numbers_panic() {
    assert!(panics(|| Bloom::new(5, 0)) && panics(|| Bloom::new(1 << 60, 16)) && panics(|| Bloom::with_bits(0, 1)));
    assert!(panics(|| Bloom::with_bits(1, 0)) && panics(|| Bloom::for_share(1, 0)) && panics(|| Bloom::for_share(1, 23)));
    assert!(panics(|| Bloom::for_rate(1, 0.0)) && panics(|| Bloom::for_rate(1, 1.0)) && panics(|| Bloom::for_rate(u64::MAX, 0.01)));
    let rated = Bloom::for_rate(1000, 0.01);
    assert_eq!((rated.bits(), rated.probes(), Bloom::for_share(100, 10).bits()), (9586, 7, 1500));
    assert!(panics(|| Bloom::new(1, 8).union(&Bloom::new(2, 8))) && panics(|| Buckets::<2>::new().bucket(2).len()));
    assert!(panics(|| Ring::new().add("a", 1 << 60)) && panics(|| Ring::new().add("a", u64::MAX)));
    assert!(panics(|| Ring::new().add("a", 0)) && panics(|| Ring::<NullHasher>::from_iter([("a", 0)])) && panics(|| Lines::new()[0].len()));
}

/// Where there is no memory the program ends, as std's collections end it: a process of its own.
#[test]
fn the_end_tells_how_much_memory_there_is_not() {
    let calls: [(&str, fn(), u64); 3] = [
        ("Ring::add", || assert!(Ring::new().add("a", 1 << 45)), 1 << 49),
        ("Bloom::new", || assert!(!Bloom::new(1 << 50, 10).contains("a")), 10 << 47),
        ("Bloom::with_bits", || assert!(!Bloom::with_bits(u64::MAX, 1).contains("a")), 1 << 61),
    ];
    let called = std::env::var("HASHERS_WITHOUT_MEMORY").unwrap_or_default();
    for (name, call, bytes) in calls {
        if called == name {
            call();
        } else if called.is_empty() {
            let mut itself = std::process::Command::new(std::env::current_exe().unwrap());
            let itself = itself.args(["--exact", "memory::the_end_tells_how_much_memory_there_is_not"]);
            let end = itself.env("HASHERS_WITHOUT_MEMORY", name).output().unwrap();
            let said = String::from_utf8_lossy(&end.stderr);
            assert!(!end.status.success() && said.contains(&format!("memory allocation of {bytes} bytes failed")), "{name}: {said}");
        }
    }
}

/// A writer that takes 99 bytes, then fails, and takes more.
struct Full(Vec<u8>, bool);

impl std::io::Write for Full {
    fn write(&mut self, bytes: &[u8]) -> std::io::Result<usize> {
        if self.0.len() == 99 && !self.1 {
            self.1 = true;
            return Err(ErrorKind::StorageFull.into());
        }
        let count = if self.1 { bytes.len() } else { bytes.len().min(99 - self.0.len()) };
        self.0.extend_from_slice(&bytes[..count]);
        Ok(count)
    }

    fn flush(&mut self) -> std::io::Result<()> {
        Ok(())
    }
}

#[test]
fn texts_are_a_set_with_places() {
    let (mut pick, mut there, mut all) = (numbers(4), HashSet::new(), Vec::new());
    let mut texts = Lines::new();
    for _ in 0..20000 {
        let text = vec![b'x'; (pick() % 40) as usize].into_iter().chain((pick() % 300).to_le_bytes()).collect::<Vec<u8>>();
        let (place, is_new) = texts.insert_full(&text);
        assert_eq!(is_new, there.insert(text.clone()));
        if is_new {
            all.push(text.clone());
        }
        assert_eq!((all[place].as_slice(), texts.position(&text)), (text.as_slice(), Some(place)));
        assert_eq!((texts.get(place), &texts[place], texts.len()), (Some(&text[..]), &text[..], all.len()));
    }
    assert_eq!(texts.iter().collect::<Vec<_>>(), all);
    assert!(!texts.contains("none") && texts.get(all.len()).is_none() && !texts.is_empty());
    let mut other: Lines = all.iter().rev().collect();
    assert!(other != texts && texts.clone() == texts && (&texts).into_iter().eq(&all));
    other = all.iter().collect();
    assert!(other == texts && !other.insert(&all[0]));
    let mut read = Lines::with_hasher(BuildHasherDefault::<NullHasher>::default());
    assert_eq!(read.read(&b"b;a;b;;\n"[..], b';').unwrap(), 5);
    read.extend(["a", "c"]);
    assert_eq!(format!("{read:?}"), r#"{"b", "a", "", "\n", "c"}"#);
    let told = [text_set::Full::NoMemory, text_set::Full::TooManyTexts].map(|full| full.to_string());
    assert_eq!(told, ["there is no memory for a text more", "there are 2^32 - 1 texts, and a set has no more"]);
    assert_ne!(format!("{:?}", RandomKeys::default()), format!("{:?}", RandomKeys::with_keys(0, 0).build_hasher()));
}

/// A guess names the text's own place, or none where another text has the first slot of the search; and for a text that is not there, none.
#[test]
fn guesses_are_by_the_hash() {
    let mut right = 0;
    for key in 0..64 {
        let mut texts = Texts::new(Global, RandomKeys::with_keys(key, 7));
        for (text, place, is_new) in [("a", 0, true), ("b", 1, true), ("c", 2, true), ("b", 1, false)] {
            let guess = texts.guess(text.as_bytes());
            let seen = texts.see_at(text.as_bytes(), guess).unwrap();
            assert_eq!((seen.place, seen.is_new, texts.text_at(place)), (place, is_new, text.as_bytes()));
            assert!(guess.place == texts.len() || guess.place == place);
            right += i32::from(!is_new && guess.place == place);
            assert_eq!(texts.guess(b"none").place, texts.len());
        }
    }
    assert!(right > 32, "{right} of 64");
}

/// The hash of a text under two keys by its definition.
fn folded(first: u64, second: u64, text: &[u8]) -> u64 {
    let fold = |a: u64, b: u64| {
        let product = u128::from(a) * u128::from(b);
        product as u64 ^ (product >> 64) as u64
    };
    let read = |at: usize, count: usize| text[at..at + count].iter().rev().fold(0u64, |number, byte| number << 8 | u64::from(*byte));
    let (len, mut state, mut at) = (text.len(), first.wrapping_add(text.len() as u64), 0);
    match len {
        0 => return fold(state, second),
        1..=3 => return fold(state ^ (read(0, 1) | read(len / 2, 1) << 8 | read(len - 1, 1) << 16), second),
        4..=8 => return fold(state ^ (read(0, 4) | read(len - 4, 4) << 32), second),
        _ => {}
    }
    while len - at > 16 {
        state = fold(read(at, 8) ^ state, read(at + 8, 8) ^ second);
        at += 16;
    }
    fold(read(len.saturating_sub(16), 8) ^ state, read(len - 8, 8) ^ second)
}

#[test]
fn keyed_hashes_are_by_the_definition() {
    let mut pick = numbers(6);
    for len in 0..70 {
        let text: Vec<u8> = (0..len).map(|_| pick() as u8).collect();
        let (first, second) = (pick() << 32 | pick(), pick() << 32 | pick());
        let mut hasher = RandomKeys::with_keys(first, second).build_hasher();
        hasher.write(&text);
        assert_eq!(hasher.finish(), folded(first, second, &text));
    }
}

#[test]
fn texts_of_one_hash_are_told_apart() {
    let (mut texts, mut all) = (Texts::new(Global, BuildHasherDefault::<NullHasher>::default()), Vec::new());
    for number in 0..40u8 {
        let text = [number % 7, number / 20];
        let guess = texts.guess(&[number]);
        let (place, is_new) = match all.iter().position(|it| *it == text) {
            Some(place) => (place, false),
            None => (all.len(), true),
        };
        all.resize(all.len() + usize::from(is_new), text);
        let seen = texts.see_at(&text, guess).unwrap();
        assert_eq!((seen.place, seen.is_new, texts.len()), (place, is_new, all.len()));
        assert_eq!(texts.place_of(&[number, 9]), None);
    }
}

#[test]
fn lines_end_at_the_first_end() {
    let mut pick = numbers(5);
    for _ in 0..20000 {
        let text: Vec<u8> = (0..pick() % 50).map(|_| (pick() % 12 + 120) as u8).collect();
        let eol = (pick() % 12 + 120) as u8;
        assert_eq!(line_end(&text, eol), text.iter().position(|byte| *byte == eol));
        assert_eq!(has_end(&text, eol), text.last() == Some(&eol));
        assert_eq!(without_end(&text, eol), text.strip_suffix(&[eol]).unwrap_or(&text));
    }
}

#[test]
fn memory_that_is_not_there_is_refused() {
    let mut items = ShimVec::<u64>::new(Global);
    items.push(1).unwrap();
    assert!(items.reserve(usize::MAX / 8).is_err() && items.resize(usize::MAX / 4, 0).is_err());
    assert!(ShimVec::<u64>::with_capacity(Global, usize::MAX / 2).is_err());
    assert_eq!(items.as_slice(), [1]);
}

/// What is formatted goes behind the bytes, letters of several bytes too.
#[test]
fn formatted_behind_bytes() {
    let mut bytes = ShimVec::<u8>::new(Global);
    for number in 0..100 {
        write!(bytes, "{:é>4}{number:>7} ß", 'ä').unwrap();
    }
    let wanted: String = (0..100).map(|number| format!("éééä{number:>7} ß")).collect();
    assert_eq!(bytes.as_slice(), wanted.as_bytes());
}

/// The best numbers of probes at 1 to 32 bits a key, by the formula (1 - e^(-k/b))^k in another language.
const BEST: [u32; 32] =
    [1, 1, 2, 3, 3, 4, 5, 6, 6, 7, 8, 8, 9, 10, 10, 11, 12, 12, 13, 14, 15, 15, 16, 17, 17, 18, 19, 19, 20, 21, 21, 22];
/// The fewest bits a key whose share in the table of `for_keys` is at most one in 2^k, for k from 1 to 22.
const FEWEST: [u64; 22] = [2, 3, 5, 6, 8, 9, 11, 12, 13, 15, 16, 18, 19, 21, 22, 24, 25, 26, 28, 29, 31, 32];
/// Bits, probes, zeros, and the nearest number of keys, by a program in another language, with whole numbers of any size. The last is the
/// end of the range.
const NEAREST: [(u64, u32, u64, u64); 15] = [
    (1, 1, 1, 0), (2, 1, 1, 1), (2, 7, 1, 0), (64, 1, 1, 265), (64, 7, 32, 6), (64, 30, 1, 9), (1000, 1, 500, 693), (1000, 7, 1, 986),
    (1000, 1, 1000, 0), (1_000_000, 7, 500_000, 99_021), (1 << 20, 1, 1, 14_536_344), (1 << 20, 30, 1 << 19, 24_227),
    ((1 << 40) - 5, 7, 12_345, 2_875_204_186_746), (1 << 59, 1, 1 << 58, 399_572_145_162_582_990), (u64::MAX, 1, 1, u64::MAX),
];

#[test]
fn sizes_and_estimates() {
    type Proved = hashers_proved::hash_bloom::Bloom<SpookyHasher, Lookup3Hasher>;
    for (bits, best) in (1..).zip(BEST) {
        let filter = Proved::for_keys(Global, 1000, bits).unwrap();
        assert_eq!((filter.bits(), filter.probes()), (1000 * u64::from(bits), best));
    }
    for (share, fewest) in (1..).zip(FEWEST) {
        assert_eq!(Proved::for_share(Global, 1000, share).unwrap().bits(), 1000 * fewest);
    }
    for (bits, probes, zeros, keys) in NEAREST {
        assert_eq!(hashers_proved::hash_bloom::estimate::nearest_keys(bits, probes, zeros), keys);
    }
}
