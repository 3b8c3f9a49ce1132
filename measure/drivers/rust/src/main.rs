//! Times of the crate in rust/hashers-proved beside the original and the crates fnv, fxhash, rustc-hash and ahash, all inlined, by turns in
//! one process.
//! `times RUNS NAME..` prints a line for each name of its hashes of keys, of an input in pieces, and of numbers, then after an empty line each
//! a line for each sort of keys of maps, for each hash under a key, and for each sort of numbers as keys of maps. Cells follow a tab each, and
//! have the times of their sides in nanoseconds per key or piece: the least of RUNS runs, or for a million numbers of an eighth of them.
use hashers_proved as ours;
use std::cell::RefCell;
use std::collections::hash_map::{DefaultHasher, RandomState};
use std::collections::HashMap;
use std::hash::{BuildHasher, BuildHasherDefault, Hash, Hasher};
use std::hint::black_box;
use std::time::Instant;

include!(env!("HASHER_NAMES"));

std::arch::global_asm!(concat!(".globl placed\nplaced: .skip ", env!("MEASURE_RUST_BEHIND")));

extern "C" {
    /// Stands before all code, with the bytes of its own that this placement has.
    fn placed();
}

fn runs() -> usize {
    std::env::args().nth(1).and_then(|it| it.parse().ok()).expect("a number of runs")
}

/// The hashes of the keys of that size, folded in order.
#[inline(never)]
fn inlined<H: Hasher + Default>(keys: &[u8], size: usize) -> u64 {
    keys.chunks_exact(size).fold(0, |all: u64, key| {
        let mut hasher = H::default();
        hasher.write(key);
        all.rotate_left(1) ^ hasher.finish()
    })
}

/// Bytes by a xorshift.
fn bytes(count: usize) -> Vec<u8> {
    let mut state: u64 = 0x9e37_79b9_7f4a_7c15;
    (0..count)
        .map(|_| {
            state ^= state << 13;
            state ^= state >> 7;
            state ^= state << 17;
            (state >> 32) as u8
        })
        .collect()
}

type Work<'a> = Box<dyn Fn() -> u64 + 'a>;

/// The least time of each over `per` keys, by turns.
fn measure(works: &[Work], per: usize, turns: usize) -> Vec<f64> {
    least_of(runs(), works, per, turns)
}

fn least_of(runs: usize, works: &[Work], per: usize, turns: usize) -> Vec<f64> {
    let mut least = vec![f64::INFINITY; works.len()];
    for _ in 0..runs {
        for (work, least) in works.iter().zip(&mut least) {
            let start = Instant::now();
            for _ in 0..turns {
                black_box(work());
            }
            *least = least.min(start.elapsed().as_nanos() as f64 / (turns * per) as f64);
        }
    }
    least
}

fn row(name: &str, times: &[Vec<f64>]) {
    let cell = |sides: &Vec<f64>| sides.iter().map(|it| format!("{it:.3}")).collect::<Vec<_>>().join(" ");
    println!("{name}\t{}", times.iter().map(cell).collect::<Vec<_>>().join("\t"));
}

type OfKeys = fn(&[u8], usize) -> u64;

/// The size of keys or pieces, how many there are, and how often all of them are taken in one run.
type Shape = (usize, usize, usize);

const KEYS: [Shape; 8] =
    [(4, 512, 20), (8, 512, 20), (16, 512, 20), (32, 512, 20), (64, 512, 20), (300, 80, 20), (4096, 6, 20), (1 << 20, 1, 1)];
const KEYED: [Shape; 4] = [(8, 512, 20), (16, 512, 20), (64, 512, 20), (1 << 20, 1, 1)];
const PIECES: [Shape; 5] = [(1, 4096, 4), (7, 2048, 4), (16, 1024, 4), (61, 512, 4), (192, 128, 4)];
const WIDTHS: [Shape; 4] = [(1, 512, 20), (2, 512, 20), (4, 512, 20), (8, 512, 20)];

/// The times of the sides over keys or pieces of a shape.
fn times_of(sides: &[OfKeys], (size, count, turns): Shape) -> Vec<f64> {
    let keys = bytes(size * count);
    let works: Vec<Work> = sides.iter().map(|side| Box::new(|| side(&keys, black_box(size))) as Work).collect();
    measure(&works, count, turns)
}

/// A row: at each size our crate, the original, and the others.
fn keys_of<Ours: Hasher + Default, Theirs: Hasher + Default>(name: &str, others: &[OfKeys]) {
    let mut sides: Vec<OfKeys> = vec![inlined::<Ours>, inlined::<Theirs>];
    sides.extend(others);
    row(name, &KEYS.map(|shape| times_of(&sides, shape)));
}

/// The hash of a text in pieces of that size.
#[inline(never)]
fn in_pieces<H: Hasher + Default>(text: &[u8], size: usize) -> u64 {
    let mut hasher = H::default();
    text.chunks_exact(size).for_each(|piece| hasher.write(piece));
    hasher.finish()
}

fn pieces_of<Ours: Hasher + Default, Theirs: Hasher + Default>(name: &str) {
    row(name, &PIECES.map(|shape| times_of(&[in_pieces::<Ours>, in_pieces::<Theirs>], shape)));
}

/// The hashes of numbers, each taken by a hasher of its own, folded in order.
#[inline(always)]
fn of_each<H: Hasher + Default, const N: usize>(numbers: &[u8], write: impl Fn(&mut H, [u8; N])) -> u64 {
    numbers.as_chunks::<N>().0.iter().fold(0, |all: u64, number| {
        let mut hasher = H::default();
        write(&mut hasher, *number);
        all.rotate_left(1) ^ hasher.finish()
    })
}

/// The same of numbers of that size, by the write of its width.
#[inline(never)]
fn by_width<H: Hasher + Default>(numbers: &[u8], size: usize) -> u64 {
    match size {
        1 => of_each::<H, 1>(numbers, |hasher, it| hasher.write_u8(it[0])),
        2 => of_each::<H, 2>(numbers, |hasher, it| hasher.write_u16(u16::from_le_bytes(it))),
        4 => of_each::<H, 4>(numbers, |hasher, it| hasher.write_u32(u32::from_le_bytes(it))),
        _ => of_each::<H, 8>(numbers, |hasher, it| hasher.write_u64(u64::from_le_bytes(it))),
    }
}

/// The hash of numbers of 64 bits that one hasher takes.
#[inline(never)]
fn in_a_row<H: Hasher + Default>(numbers: &[u8], _size: usize) -> u64 {
    let mut hasher = H::default();
    numbers.as_chunks().0.iter().for_each(|it| hasher.write_u64(u64::from_le_bytes(*it)));
    hasher.finish()
}

fn widths_of<Ours: Hasher + Default, Theirs: Hasher + Default>(name: &str) {
    let mut times = WIDTHS.map(|shape| times_of(&[by_width::<Ours>, by_width::<Theirs>], shape)).to_vec();
    times.push(times_of(&[in_a_row::<Ours>, in_a_row::<Theirs>], WIDTHS[3]));
    row(name, &times);
}

fn lookups<'a, K: Hash + Eq + Clone, H: Hasher + Default + 'a>(keys: &'a [K]) -> Work<'a> {
    let map: HashMap<K, usize, BuildHasherDefault<H>> = keys.iter().cloned().zip(0..).collect();
    Box::new(move || keys.iter().fold(0, |sum, key| sum ^ map[key] as u64))
}

/// A row of lookups in std's map, all by turns.
fn maps<K: Hash + Eq + Clone>(name: &str, keys: &[K]) {
    let works = [
        lookups::<K, ours::fnv::FNV1aHasher64>(keys),
        lookups::<K, hashers::fnv::FNV1aHasher64>(keys),
        lookups::<K, fnv::FnvHasher>(keys),
        lookups::<K, ours::fx_hash::FxHasher>(keys),
        lookups::<K, hashers::fx_hash::FxHasher>(keys),
        lookups::<K, fxhash::FxHasher64>(keys),
        lookups::<K, rustc_hash::FxHasher>(keys),
        lookups::<K, ahash::AHasher>(keys),
        lookups::<K, DefaultHasher>(keys),
        lookups::<K, ours::keyed::Poly61Hasher>(keys),
        lookups::<K, ours::blocks::Xxh64Hasher>(keys),
        lookups::<K, ours::xxh3::Xxh3Hasher>(keys),
        lookups::<K, ours::blocks::SipHasher13>(keys),
    ];
    let times = measure(&works, keys.len(), 20);
    let alone = times[7..].iter().map(|time| vec![*time]);
    row(name, &[times[..3].to_vec(), times[3..7].to_vec()].into_iter().chain(alone).collect::<Vec<_>>());
}

/// The hashes by poly61 at a key, which is taken modulo the prime at each call.
fn at_key(keys: &[u8], size: usize) -> u64 {
    keys.chunks_exact(size).fold(0, |all: u64, key| all.rotate_left(1) ^ ours::keyed::poly61(black_box(1234567890123456789), key))
}

/// The hashes by XXH3 in one call each, under a seed that the compiler doesn't know.
fn xxh3_under_a_seed(keys: &[u8], size: usize) -> u64 {
    keys.chunks_exact(size).fold(0, |all: u64, key| all.rotate_left(1) ^ ours::xxh3::xxh3_64(black_box(1234567890123456789), key))
}

/// A row for each hash that takes a key or seeds.
fn under_keys() {
    let all: [(&str, OfKeys); 6] = [
        ("poly61", at_key),
        ("spooky", inlined::<ours::jenkins::spooky_hash::SpookyHasher>),
        ("xxh3", xxh3_under_a_seed),
        ("siphash13", inlined::<ours::blocks::SipHasher13>),
        ("ahash", inlined::<ahash::AHasher>),
        ("SipHash of std", inlined::<DefaultHasher>),
    ];
    let times = KEYED.map(|shape| times_of(&all.map(|(_, side)| side), shape));
    for (place, (name, _)) in all.iter().enumerate() {
        row(name, &times.iter().map(|at_size| vec![at_size[place]]).collect::<Vec<_>>());
    }
}

/// Lookups of all keys in a map, and inserts of all into one that is empty and has room.
fn lookup_and_insert<'a, K: Hash + Eq + Copy, S: BuildHasher + Clone + 'a>(keys: &'a [K], hashers: S) -> [Work<'a>; 2] {
    let mut full: HashMap<K, usize, S> = HashMap::with_hasher(hashers.clone());
    full.extend(keys.iter().copied().zip(0..));
    let empty = RefCell::new(HashMap::with_capacity_and_hasher(keys.len(), hashers));
    let insert = move || {
        let mut map = empty.borrow_mut();
        map.clear();
        keys.iter().zip(0usize..).for_each(|(key, place)| drop(map.insert(*key, place)));
        map.len() as u64
    };
    [Box::new(move || keys.iter().fold(0, |sum, key| sum ^ full[key] as u64)), Box::new(insert)]
}

/// A row of keys of std's map, under random keys but for fx: of each hash a lookup and an insert. Each placement makes
/// the maps in another order, since large ones are a fifth faster or slower by the pages of memory that they get.
fn numbers_of<'a, K: Hash + Eq + Copy>(name: &str, keys: &'a [K]) {
    let sides: [&dyn Fn() -> [Work<'a>; 2]; 5] = [
        &|| lookup_and_insert(keys, ours::map_keys::MapHashers::default()),
        &|| lookup_and_insert(keys, BuildHasherDefault::<fxhash::FxHasher64>::default()),
        &|| lookup_and_insert(keys, ahash::RandomState::new()),
        &|| lookup_and_insert(keys, RandomState::new()),
        &|| lookup_and_insert(keys, ours::xxh3::BuildXxh3Pieces::random()),
    ];
    let first = env!("MEASURE_RUST_BEHIND").parse::<usize>().unwrap() / 16 % sides.len();
    let order: Vec<usize> = (0..sides.len()).map(|at| (first + at) % sides.len()).collect();
    let works: Vec<Work> = order.iter().flat_map(|side| sides[*side]()).collect();
    let (runs, turns) = if keys.len() > 1000 { (1 + runs() / 8, 1) } else { (runs(), 20) };
    let times = least_of(runs, &works, keys.len(), turns);
    let mut cells = vec![vec![]; sides.len()];
    order.iter().zip(times.chunks(2)).for_each(|(side, cell)| cells[*side] = cell.to_vec());
    row(name, &cells);
}

/// Numbers as keys. A million multiples of 2^32 are left out: under fx all have one place, so their map takes hours to fill.
fn numbers_as_keys() {
    let million: Vec<u64> = bytes(8_000_000).chunks_exact(8).map(|it| u64::from_le_bytes(it.try_into().unwrap())).collect();
    let thousand = &million[..1000];
    let low = |numbers: &[u64]| numbers.iter().map(|it| *it as u32).collect::<Vec<u32>>();
    numbers_of("1,000 random u64", thousand);
    numbers_of("1,000 u64: 0, 1, 2..", &(0..1000u64).collect::<Vec<_>>());
    numbers_of("1,000 multiples of 2^32", &(0..1000u64).map(|it| it << 32).collect::<Vec<_>>());
    numbers_of("1,000 random u32", &low(thousand));
    numbers_of("1,000 random pairs of u64", &thousand.iter().map(|it| (*it, it.rotate_left(32))).collect::<Vec<_>>());
    numbers_of("1,000,000 random u64", &million);
    numbers_of("1,000,000 random u32", &low(&million));
    numbers_of("1,000 of three u64", &thousand.iter().map(|it| (*it, it.rotate_left(32), !it)).collect::<Vec<_>>());
    let letters_of = |count: fn(u64) -> usize| thousand.iter().map(|it| format!("{it:016x}").repeat(13)[..count(*it)].to_string()).collect();
    let counts: [(&str, fn(u64) -> usize); 10] = [
        ("4", |_| 4), ("8", |_| 8), ("15", |_| 15), ("16", |_| 16), ("24", |_| 24), ("40", |_| 40), ("100", |_| 100), ("200", |_| 200),
        ("5 to 12", |it| 5 + (it >> 40) as usize % 8), ("4 to 60", |it| 4 + (it >> 40) as usize % 57),
    ];
    for (name, count) in counts {
        let texts: Vec<String> = letters_of(count);
        numbers_of(&format!("1,000 texts of {name} letters"), &texts.iter().map(String::as_str).collect::<Vec<_>>());
    }
    let texts: Vec<String> = letters_of(|_| 6);
    numbers_of("1,000 of 6 letters and a u32", &texts.iter().zip(thousand).map(|(it, of)| (it.as_str(), *of as u32)).collect::<Vec<_>>());
}

/// The hashers of other crates beside the hash of that name: the same hash, and beside fx ahash, which is another one.
fn others(name: &str) -> Vec<OfKeys> {
    match name {
        "fnv1a64" => vec![inlined::<fnv::FnvHasher>],
        "fxhash" => vec![inlined::<fxhash::FxHasher64>, inlined::<rustc_hash::FxHasher>, inlined::<ahash::AHasher>],
        "fxhash32" => vec![inlined::<fxhash::FxHasher32>],
        _ => vec![],
    }
}

macro_rules! rows {
    ($($name:ident $($hasher:ident)::+ $alike_from:literal)*) => {
        /// A row for each of these names in each of three tables.
        fn rows(chosen: &[String]) {
            let is_chosen = |name| chosen.iter().any(|it| it == name);
            $(if is_chosen(stringify!($name)) {
                keys_of::<ours::$($hasher)::+, hashers::$($hasher)::+>(stringify!($name), &others(stringify!($name)));
            })*
            println!();
            $(if is_chosen(stringify!($name)) {
                pieces_of::<ours::$($hasher)::+, hashers::$($hasher)::+>(stringify!($name));
            })*
            println!();
            $(if is_chosen(stringify!($name)) {
                widths_of::<ours::$($hasher)::+, hashers::$($hasher)::+>(stringify!($name));
            })*
        }
    };
}

with_names!(rows);

fn main() {
    black_box(placed as unsafe extern "C" fn());
    rows(&std::env::args().skip(2).collect::<Vec<_>>());
    println!();
    let numbers: Vec<u64> = bytes(8000).chunks_exact(8).map(|it| u64::from_le_bytes(it.try_into().unwrap())).collect();
    maps("u64", &numbers);
    for letters in [4, 16, 40] {
        maps(&format!("{letters} letters"), &numbers.iter().map(|it| format!("{it:016x}").repeat(3)[..letters].to_string()).collect::<Vec<_>>());
    }
    println!();
    under_keys();
    println!();
    numbers_as_keys();
}
