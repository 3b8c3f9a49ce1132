//! Reads lines `NAME HEX,HEX,..`, and prints for each the hash after the pieces, by a hasher. On the way it asserts, from the same bytes:
//! what the function of the name answers to a single piece; that `unwrite` undoes `write` and the reverse; that `unfinish` finds the state;
//! that the generic functions of `laws` answer the same; and that combined hashes are those of the joined text. `NAME@NUMBER,..` is a
//! function of the module `keyed`: at keys, or from a state, a hash and a length; or a seed or a key of `blocks`, `xxh3` or `map_keys`.
use hashers_proved::blocks::*;
use hashers_proved::jenkins::spooky_hash::*;
use hashers_proved::keyed::*;
use hashers_proved::laws::{self, HasherWrite, Piecewise, Streamed, Undo};
use hashers_proved::map_keys::{map_hash, MapKeys};
use hashers_proved::promises::{xxh3_64_of_writes, xxh3_128_of_writes};
use hashers_proved::xxh3::*;
use hashers_proved::{fnv::*, fx_hash::*, jenkins::*, more::*, null::*, oz::*, pigeon::*};
use std::fmt::Debug;
use std::hash::{BuildHasher, Hasher};
use std::io::{BufRead, Write};

type Pieces = [Vec<u8>];

fn fed<H: Piecewise>(pieces: &Pieces, whole: fn(&[u8]) -> u64) -> u64 {
    let mut h = H::default();
    for p in pieces {
        h.write(p);
    }
    let slices: Vec<&[u8]> = pieces.iter().map(|p| p.as_slice()).collect();
    let mut again = H::fresh();
    laws::run_pieces(&mut again, &slices);
    assert_eq!(again.answer(), h.finish());
    let fork = h.fork();
    assert_eq!(fork.finish(), h.finish());
    if let [one] = pieces {
        assert_eq!(whole(one), h.finish());
        assert_eq!(laws::hash_of::<H>(one), h.finish());
        assert_eq!(laws::bucket_of::<H>(one, 1009), h.finish() % 1009);
    }
    h.finish()
}

fn streamed<H: Streamed>(pieces: &Pieces, whole: fn(&[u8]) -> u64) -> u64 {
    let answer = fed::<H>(pieces, whole);
    let joined = pieces.concat();
    assert_eq!(whole(&joined), answer);
    let slices: Vec<&[u8]> = pieces.iter().map(|p| p.as_slice()).collect();
    assert_eq!(laws::answer_of_pieces::<H>(&slices), answer);
    let writes: Vec<HasherWrite> = slices.iter().map(|p| HasherWrite::Bytes(p)).collect();
    assert_eq!(laws::answer_of_writes::<H>(&writes), answer);
    by_a_reader::<H>(&joined, answer);
    answer
}

/// The hash of what a reader gives, read by 7 bytes.
#[cfg(feature = "std")]
fn by_a_reader<H: Streamed>(text: &[u8], answer: u64) {
    let mut h = H::fresh();
    let taken = hashers_proved::reader::hash_stream::<H, _, 7>(&mut h, &mut &text[..], u64::MAX).unwrap();
    assert_eq!((taken.bytes, taken.ended, h.answer()), (text.len() as u64, true, answer));
}

#[cfg(not(feature = "std"))]
fn by_a_reader<H: Streamed>(_text: &[u8], _answer: u64) {}

fn undone<H: Undo>(pieces: &Pieces) {
    // forth and back
    let mut h = H::fresh();
    let mut states = vec![];
    for p in pieces {
        states.push(h.answer());
        h.feed(p);
    }
    let end = h.answer();
    for p in pieces.iter().rev() {
        h.unwrite(p);
        assert_eq!(Some(h.answer()), states.pop());
    }
    // back and forth, from a state that the pieces did not lead to
    let mut h = H::unfinish(end).unwrap();
    assert_eq!(h.answer(), end);
    for p in pieces.iter().rev() {
        h.unwrite(p);
    }
    for p in pieces {
        h.feed(p);
    }
    assert_eq!(h.answer(), end);
    let numbers = [HasherWrite::U16(0xfedc), HasherWrite::U64(end)];
    let writes: Vec<HasherWrite> = pieces.iter().map(|p| HasherWrite::Bytes(p)).chain(numbers).collect();
    laws::run_writes(&mut h, &writes);
    laws::unrun_writes(&mut h, &writes);
    assert_eq!(h.answer(), end);
}

fn combined(pieces: &Pieces, whole: fn(&[u8]) -> u64, combine: fn(u64, u64, u64) -> u64) {
    let hash = pieces.iter().fold(whole(b""), |hash, p| combine(hash, whole(p), p.len() as u64));
    assert_eq!(hash, whole(&pieces.concat()));
}

fn answer(name: &str, p: &Pieces) -> u64 {
    // what is asked of a hasher to which cuts don't show, and of one whose writes are undone; and where cuts show
    macro_rules! whole {
        ($h:ty, $f:expr) => {
            streamed::<$h>(p, $f)
        };
        ($h:ty, $f:expr, $c:expr) => {{
            combined(p, $f, $c);
            streamed::<$h>(p, $f)
        }};
    }
    macro_rules! undo {
        ($h:ty, $($f:expr),*) => {{
            undone::<$h>(p);
            whole!($h, $($f),*)
        }};
    }
    macro_rules! pieces {
        ($h:ty, $f:expr) => {
            fed::<$h>(p, $f)
        };
    }
    macro_rules! words {
        ($h:ty, $f:expr) => {{
            undone::<$h>(p);
            fed::<$h>(p, $f)
        }};
    }
    match name {
        // declared: answers
        "fnv1a32" => undo!(FNV1aHasher32, fnv1a32),
        "fnv1a64" => undo!(FNV1aHasher64, fnv1a64),
        "djb2" => undo!(DJB2Hasher, djb2),
        "sdbm" => undo!(SDBMHasher, sdbm, sdbm_combine),
        "loselose" => undo!(LoseLoseHasher, loselose, loselose_combine),
        "bricolage" => undo!(Bricolage, bricolage),
        "oaat" => undo!(OAATHasher, oaat),
        "lookup3" => pieces!(Lookup3Hasher, lookup3),
        "spooky" => whole!(SpookyHasher, spooky),
        "spooky_v1" => whole!(SpookyV1Hasher, spooky_v1),
        "passthrough" => whole!(PassThroughHasher, passthrough, passthrough_combine),
        "fxhash" => words!(FxHasher, fxhash),
        "fxhash32" => words!(FxHasher32, fxhash32),
        "fxhash64" => words!(FxHasher64, fxhash64),
        "crc32" => undo!(Crc32Hasher, crc32, crc32_combine),
        "crc32c" => undo!(Crc32cHasher, crc32c, crc32c_combine),
        "fnv1_32" => undo!(Fnv1Hasher32, fnv1_32),
        "fnv1_64" => undo!(Fnv1Hasher64, fnv1_64),
        "djb2_add" => undo!(Djb2AddHasher, djb2_add),
        "joaat" => undo!(JoaatHasher, joaat),
        "elf" => whole!(ElfHasher, elf),
        "null" => whole!(NullHasher, null),
        "xxh32" => whole!(Xxh32Hasher, |text| u64::from(xxh32(0, text))),
        "xxh64" => whole!(Xxh64Hasher, |text| xxh64(0, text)),
        "murmur3_32" => whole!(Murmur3Hasher32, |text| u64::from(murmur3_32(0, text))),
        "murmur3" => whole!(Murmur3Hasher128, |text| murmur3_128(0, text).0),
        "siphash13" => whole!(SipHasher13, |text| siphash13(SipKey { k0: 0, k1: 0 }, text)),
        "siphash24" => whole!(SipHasher24, |text| siphash24(SipKey { k0: 0, k1: 0 }, text)),
        "xxh3" => whole!(Xxh3Hasher, |text| xxh3_64(0, text)),
        // end of declared
        _ => panic!("no such name: {name}"),
    }
}

/// The hash at a key, by a hasher and its copy, by the generic functions, and by the function.
fn at_a_key(key: u64, pieces: &Pieces) -> u64 {
    let mut h = Poly61Hasher::new(key);
    let mut again = h.fork();
    for p in pieces {
        h.write(p);
        again = again.fork();
        again.feed(p);
    }
    assert_eq!((again.answer(), poly61(key, &pieces.concat())), (h.finish(), h.finish()));
    h.finish()
}

/// A hash by the block under a seed or a key, by a hasher, by the function of pieces, and by that of a text.
fn by_the_block<R: BlockRule<N, Hash: PartialEq + Debug>, const N: usize>(seed: R::Seed, p: &Pieces) -> R::Hash {
    let (text, pieces) = (p.concat(), p.iter().map(Vec::as_slice).collect::<Vec<_>>());
    let mut h = BlockHasher::<R, N>::new(seed);
    pieces.iter().for_each(|p| h.write(p));
    assert_eq!([h.hash(); 2], [BlockHasher::<R, N>::hash_of(seed, &text), BlockHasher::<R, N>::new(seed).hash_with(&pieces)]);
    h.hash()
}

/// XXH3 of 64 and of 128 bits under a seed, by a hasher, by the functions of writes, and by those of a text.
fn under_a_seed(seed: u64, p: &Pieces) -> (String, String) {
    let (text, writes) = (p.concat(), p.iter().map(|piece| HasherWrite::Bytes(piece)).collect::<Vec<_>>());
    let mut h = Xxh3Hasher::new(seed);
    p.iter().for_each(|piece| h.write(piece));
    let (low, high) = h.finish128();
    assert_eq!((h.finish(), h.finish()), (xxh3_64(seed, &text), xxh3_64_of_writes(seed, &writes)));
    assert_eq!([(low, high); 2], [xxh3_128(seed, &text), xxh3_128_of_writes(seed, &writes)]);
    (h.finish().to_string(), (u128::from(high) << 64 | u128::from(low)).to_string())
}

fn at_two_keys(first: u64, second: u64, pieces: &Pieces) -> String {
    let mut pair = Poly61Pair::new(first, second);
    pieces.iter().for_each(|p| pair.write(p));
    assert_eq!(poly61_pair(first, second, &pieces.concat()), pair.finish());
    format!("{},{}", pair.finish().0, pair.finish().1)
}

/// A key of a map in pieces, each in one write of its width, and of all its bytes.
fn map_key(keys: MapKeys, pieces: &Pieces) -> u64 {
    let mut h = keys.hashers().build_hasher();
    for p in pieces {
        match p[..] {
            [a] => h.write_u8(a),
            [a, b] => h.write_u16(u16::from_le_bytes([a, b])),
            [a, b, c, d] => h.write_u32(u32::from_le_bytes([a, b, c, d])),
            _ if p.len() == 8 => h.write_u64(u64::from_le_bytes(p[..].try_into().unwrap())),
            _ if p.len() == 16 => h.write_u128(u128::from_le_bytes(p[..].try_into().unwrap())),
            _ => h.write(p),
        }
    }
    assert_eq!(map_hash(&keys, &pieces.concat()), h.finish());
    h.finish()
}

fn keyed(name: &str, numbers: &[u64], p: &Pieces) -> String {
    match (name, numbers) {
        ("poly61", &[key]) => {
            streamed::<Poly61Hasher>(p, Poly61Hasher::whole);
            at_a_key(key, p).to_string()
        }
        ("xxh32", &[seed]) => by_the_block::<Xxh32Rule, 16>(seed as u32, p).to_string(),
        ("xxh64", &[seed]) => by_the_block::<Xxh64Rule, 32>(seed, p).to_string(),
        ("murmur3_32", &[seed]) => by_the_block::<Murmur3Rule32, 4>(seed as u32, p).to_string(),
        ("murmur3_128", &[seed]) => {
            let (first, second) = by_the_block::<Murmur3Rule128, 16>(seed, p);
            format!("{first},{second}")
        }
        ("siphash13", &[k0, k1]) => by_the_block::<SipRule<1, 3>, 8>(SipKey { k0, k1 }, p).to_string(),
        ("siphash24", &[k0, k1]) => by_the_block::<SipRule<2, 4>, 8>(SipKey { k0, k1 }, p).to_string(),
        ("xxh3", &[seed]) => under_a_seed(seed, p).0,
        ("xxh128", &[seed]) => under_a_seed(seed, p).1,
        ("map_keys", &[ref wide @ .., key]) if wide.len() == 36 => {
            let wide = |place: usize| u128::from(wide[2 * place]) << 64 | u128::from(wide[2 * place + 1]);
            map_key(MapKeys::with_keys(std::array::from_fn(wide), wide(17), key), p).to_string()
        }
        ("poly61_pair", &[first, second]) => at_two_keys(first, second, p),
        ("poly61_state", &[key]) => poly61_state(key, &p.concat()).map_or("None".to_string(), |it| it.to_string()),
        ("poly61_combine", &[key, state, hash, length]) => poly61_combine(key, state, hash, length).to_string(),
        _ => panic!("no such name: {name}, or other numbers: {numbers:?}"),
    }
}

fn hex(s: &str) -> Vec<u8> {
    (0..s.len() / 2).map(|i| u8::from_str_radix(&s[2 * i..2 * i + 2], 16).unwrap()).collect()
}

fn main() {
    let mut out = std::io::BufWriter::new(std::io::stdout().lock());
    for line in std::io::stdin().lock().lines() {
        let line = line.unwrap();
        let (name, rest) = line.split_once(' ').unwrap();
        let pieces: Vec<Vec<u8>> = rest.split(',').map(hex).collect();
        let told = match name.split_once('@') {
            Some((name, numbers)) => keyed(name, &numbers.split(',').map(|it| it.parse().unwrap()).collect::<Vec<_>>(), &pieces),
            None => answer(name, &pieces).to_string(),
        };
        writeln!(out, "{told}").unwrap();
    }
}
