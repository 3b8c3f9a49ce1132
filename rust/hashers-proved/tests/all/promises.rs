//! What the generic functions promise, called from states and with pieces that show it, and SpookyHash under seeds by its mixing rounds.
use hashers_proved::build::{feed_key, BuildFresh};
use hashers_proved::jenkins::spooky_hash::{spooky128, SpookyHasher};
use hashers_proved::laws::{self, HasherWrite, Piecewise, Undo};
use hashers_proved::promises::{self, WayBack};
use hashers_proved::reader::{hash_reader, hash_stream};
use hashers_proved::{blocks, xxh3};
use hashers_proved::{fnv::*, fx_hash::*, jenkins::*, null::*, oz::*, pigeon::*, rounds};
use std::hash::{BuildHasher, Hash, Hasher};

const WRITES: [HasherWrite; 6] = [
    HasherWrite::Bytes(b"some bytes"),
    HasherWrite::U8(7),
    HasherWrite::U16(513),
    HasherWrite::U32(70000),
    HasherWrite::U64(1 << 40),
    HasherWrite::Usize(9),
];

fn bytes_of(write: &HasherWrite) -> Vec<u8> {
    match *write {
        HasherWrite::Bytes(bytes) => bytes.to_vec(),
        HasherWrite::U8(number) => number.to_le_bytes().to_vec(),
        HasherWrite::U16(number) => number.to_le_bytes().to_vec(),
        HasherWrite::U32(number) => number.to_le_bytes().to_vec(),
        HasherWrite::U64(number) => number.to_le_bytes().to_vec(),
        HasherWrite::Usize(number) => (number as u64).to_le_bytes().to_vec(),
    }
}

fn in_pieces<H: Hasher + Default>(pieces: &[Vec<u8>]) -> u64 {
    let mut hasher = H::default();
    pieces.iter().for_each(|piece| hasher.write(piece));
    hasher.finish()
}

#[test]
fn answers_to_writes() {
    let pieces: Vec<Vec<u8>> = WRITES.iter().map(bytes_of).collect();
    let text = pieces.concat();
    let of_text: [(u64, u64); 9] = [
        (promises::fnv1a32_of_writes(&WRITES), fnv1a32(&text)),
        (promises::fnv1a64_of_writes(&WRITES), fnv1a64(&text)),
        (promises::djb2_of_writes(&WRITES), djb2(&text)),
        (promises::sdbm_of_writes(&WRITES), sdbm(&text)),
        (promises::loselose_of_writes(&WRITES), loselose(&text)),
        (promises::bricolage_of_writes(&WRITES), bricolage(&text)),
        (promises::oaat_of_writes(&WRITES), oaat(&text)),
        (promises::null_of_writes(&WRITES), 0),
        (promises::passthrough_of_writes(&WRITES), passthrough(&text)),
    ];
    let of_pieces = [
        (promises::lookup3_of_writes(&WRITES), in_pieces::<Lookup3Hasher>(&pieces)),
        (promises::fxhash_of_writes(&WRITES), in_pieces::<FxHasher>(&pieces)),
        (promises::fxhash32_of_writes(&WRITES), in_pieces::<FxHasher32>(&pieces)),
        (promises::fxhash64_of_writes(&WRITES), in_pieces::<FxHasher64>(&pieces)),
    ];
    for (number, (found, wanted)) in of_text.into_iter().chain(of_pieces).enumerate() {
        assert_eq!(found, wanted, "row {number}");
    }
    assert_eq!(promises::spooky_of_writes(1, 2, &WRITES), spooky128(1, 2, &text));
    assert_eq!(promises::xxh3_64_of_writes(1, &WRITES), xxh3::xxh3_64(1, &text));
    assert_eq!(promises::xxh3_128_of_writes(1, &WRITES), xxh3::xxh3_128(1, &text));
    assert_eq!(promises::xxh32_of_writes(1, &WRITES), blocks::xxh32(1, &text));
    assert_eq!(promises::xxh64_of_writes(1, &WRITES), blocks::xxh64(1, &text));
    assert_eq!(promises::murmur3_32_of_writes(1, &WRITES), blocks::murmur3_32(1, &text));
    assert_eq!(promises::murmur3_128_of_writes(1, &WRITES), blocks::murmur3_128(1, &text));
    let key = blocks::SipKey { k0: 1, k1: 2 };
    assert_eq!(promises::siphash13_of_writes(key, &WRITES), blocks::siphash13(key, &text));
    assert_eq!(promises::siphash24_of_writes(key, &WRITES), blocks::siphash24(key, &text));
    let mut parts = SpookyHasher::new(1, 2);
    parts.write(&text);
    assert_eq!(promises::spooky_v1_of_writes(1, 2, &WRITES), parts.finish128_v1());
    let mut h = PassThroughHasher::default();
    h.write(b"before");
    assert_eq!(promises::passthrough_goes_on(&mut h, &WRITES), (passthrough(b"before"), passthrough(&[b"before", &text[..]].concat())));
}

/// The writes lead away from where the hashers were, and back.
fn undone<H: Undo + Copy>(promise: fn(&mut H, &mut H, &[HasherWrite]) -> WayBack) {
    let pieces: Vec<Vec<u8>> = WRITES.iter().map(bytes_of).collect();
    let (mut a, mut b) = (H::default(), H::default());
    a.write(b"one way");
    b.write(b"the other way");
    let (first, second) = (a, b);
    let way = promise(&mut a, &mut b, &WRITES);
    assert_eq!((a.finish(), b.finish(), way.before), (first.finish(), second.finish(), first.finish()));
    let mut there = first;
    pieces.iter().for_each(|piece| there.write(piece));
    let mut back = second;
    pieces.iter().rev().for_each(|piece| back.unwrite(piece));
    assert_eq!((way.there, way.back), (there.finish(), back.finish()));
}

#[test]
fn writes_are_undone() {
    undone(promises::fnv1a32_undone);
    undone(promises::fnv1a64_undone);
    undone(promises::djb2_undone);
    undone(promises::sdbm_undone);
    undone(promises::loselose_undone);
    undone(promises::bricolage_undone);
    undone(promises::oaat_undone);
    undone(promises::fxhash_undone);
    undone(promises::fxhash32_undone);
    undone(promises::fxhash64_undone);
}

#[test]
fn words_are_undone() {
    let word = 0xfedc_ba98_7654_3210;
    let (mut a, mut b) = (FxHasher64::unfinish(5).unwrap(), FxHasher64::unfinish(6).unwrap());
    let way = promises::fxhash64_word_undone(&mut a, &mut b, word);
    assert_eq!((a.finish(), b.finish()), (5, 6));
    let mut there = FxHasher64::unfinish(5).unwrap();
    there.write(&word.to_le_bytes());
    let mut back = FxHasher64::unfinish(6).unwrap();
    back.unwrite(&word.to_le_bytes());
    assert_eq!((way.before, way.there, way.back), (5, there.finish(), back.finish()));
    let (mut a, mut b) = (FxHasher32::unfinish(5).unwrap(), FxHasher32::unfinish(6).unwrap());
    let way = promises::fxhash32_word_undone(&mut a, &mut b, word as u32);
    assert_eq!((a.finish(), b.finish()), (5, 6));
    let mut there = FxHasher32::unfinish(5).unwrap();
    there.write(&(word as u32).to_le_bytes());
    assert_eq!((way.before, way.there), (5, there.finish()));
}

#[test]
fn whole_words_are_one_write() {
    let pieces: [&[u8]; 4] = [b"8 bytes.", b"", b"sixteen bytes, 16", b"the end"];
    let pieces = [pieces[0], pieces[1], &pieces[2][..16], pieces[3]];
    let text = pieces.concat();
    let (mut any, mut long, mut short) = (FxHasher::default(), FxHasher64::default(), FxHasher32::default());
    run_all(&mut any, &mut long, &mut short, &pieces);
    assert_eq!((any.finish(), long.finish(), short.finish()), (fxhash(&text), fxhash64(&text), fxhash32(&text)));
}

fn run_all(any: &mut FxHasher, long: &mut FxHasher64, short: &mut FxHasher32, pieces: &[&[u8]]) {
    use hashers_proved::fx_hash::pieces::{run_words, run_words32, run_words64};
    run_words(any, pieces);
    run_words64(long, pieces);
    run_words32(short, pieces);
}

#[test]
fn one_word_apart() {
    use hashers_proved::fx_hash::pieces::{apart_by_one_word_fx32, apart_by_one_word_fx64};
    let x: [&[u8]; 3] = [b"one word", b"and then", b"a third."];
    for (y, one) in [
        ([b"one word".as_slice(), b"and then", b"a third."], false),
        ([b"one ward", b"and then", b"a third."], true),
        ([b"one ward", b"end then", b"a third."], false),
        ([b"one ward", b"and then", b"a third!"], false),
        ([b"one word", b"end then", b"a third!"], false),
        ([b"one word", b"and then", b"a third!"], true),
    ] {
        assert_eq!((apart_by_one_word_fx64(&x, &y), apart_by_one_word_fx32(&x, &y)), (one, one), "{y:?}");
    }
}

#[test]
fn two_hashers_run_as_a_pair() {
    let (mut a, mut b) = (FNV1aHasher64::unfinish(1).unwrap(), FNV1aHasher64::unfinish(2).unwrap());
    let (mut c, mut d) = (a, b);
    laws::run_pair(&mut a, &mut b, &[b"some", b"", b"bytes"]);
    c.write(b"somebytes");
    d.write(b"somebytes");
    assert_eq!((a, b), (c, d));
    let (mut a, mut b) = (Lookup3Hasher::new(1, 2), Lookup3Hasher::new(3, 4));
    let (mut c, mut d) = (a, b);
    two_texts::same_answers_later(&mut a, &mut b, &[b"some", b"bytes"]);
    for piece in [b"some".as_slice(), b"bytes"] {
        c.write(piece);
        d.write(piece);
    }
    assert_eq!((a, b), (c, d));
}

#[test]
fn a_key_is_fed_once() {
    let mut h = FNV1aHasher64::unfinish(5).unwrap();
    let mut wanted = h;
    feed_key(&mut h, ("key", 7u8));
    ("key", 7u8).hash(&mut wanted);
    assert_eq!(h, wanted);
    assert_eq!(BuildFresh::<DJB2Hasher>::new().hash_one(7u8), djb2(&[7]));
    assert_eq!(BuildSpooky { seed1: 1, seed2: 2 }.hash_one(7u8), spooky128(1, 2, &[7]).0);
}

/// Counts bytes, and writes, with nothing but what `Piecewise` asks for.
#[derive(Clone, Copy, Default)]
struct Counter {
    bytes: u32,
    writes: u32,
}

impl Hasher for Counter {
    fn write(&mut self, bytes: &[u8]) {
        self.bytes += bytes.len() as u32;
        self.writes += 1;
    }
    fn finish(&self) -> u64 {
        u64::from(self.writes) << 32 | u64::from(self.bytes)
    }
}

impl Piecewise for Counter {
    fn state_in_range(&self) {}
    fn fork(&self) -> Counter {
        *self
    }
}

#[test]
fn a_hasher_of_ones_own() {
    let mut h = Counter::fresh();
    h.feed(b"some");
    assert_eq!(h.answer(), (1 << 32) + 4);
    laws::run_pieces(&mut h, &[b"", b"bytes"]);
    assert_eq!((h.answer(), h.fork().finish()), ((3 << 32) + 9, (3 << 32) + 9));
    assert_eq!((laws::hash_of::<Counter>(b"some bytes"), Counter::whole(b"")), ((1 << 32) + 10, 1 << 32));
    assert_eq!(BuildFresh::<Counter>::new().hash_one(7u64), (1 << 32) + 8);
}

/// A hasher is written to once for each piece, and not where the input ends; and a reader is asked for whole pieces.
#[test]
fn a_write_for_each_piece() {
    struct Asked<'a>(&'a [u8], usize, u32);
    impl std::io::Read for Asked<'_> {
        fn read(&mut self, buf: &mut [u8]) -> std::io::Result<usize> {
            self.2 += 1;
            let room = buf.len().min(self.1);
            self.0.read(&mut buf[..room])
        }
    }
    /// Of no hash, so splits show in none.
    #[derive(Default)]
    struct Writes(u32);
    impl Hasher for Writes {
        fn write(&mut self, _: &[u8]) {
            self.0 += 1;
        }
        fn finish(&self) -> u64 {
            0
        }
    }
    impl Piecewise for Writes {
        fn state_in_range(&self) {}
        fn fork(&self) -> Writes {
            Writes(self.0)
        }
    }
    impl laws::Streamed for Writes {}
    for (bytes, writes) in [(0, 0), (1, 1), (4096, 1), (4097, 2), (8192, 2), (20_000, 5)] {
        let (mut h, mut r) = (Writes(0), Asked(&[7; 20_000][..bytes], 1000, 0));
        for _again in 0..2 {
            assert!(hash_stream::<_, _, 4096>(&mut h, &mut r, u64::MAX).is_ok());
            assert_eq!(h.0, writes);
        }
    }
    for (limit, ended, reads) in [(u64::MAX, true, 6), (20_000, false, 5), (12_345, false, 4)] {
        let bytes = limit.min(20_000);
        for call in [hash_stream::<SpookyHasher, Asked, 4096>, hash_reader::<SpookyHasher, Asked, 4096>] {
            let (mut h, mut r) = (SpookyHasher::default(), Asked(&[7; 20_000], usize::MAX, 0));
            let taken = call(&mut h, &mut r, limit).unwrap();
            assert_eq!((taken.bytes, taken.ended, r.2), (bytes, ended, reads));
            assert_eq!(h.finish128(), spooky128(0, 0, &[7; 20_000][..bytes as usize]));
        }
    }
}

fn words<const N: usize>(text: &[u8]) -> [u64; N] {
    std::array::from_fn(|i| u64::from_le_bytes(text[8 * i..8 * i + 8].try_into().unwrap()))
}

/// SpookyHash by its definition and the mixing rounds, and the four words of a short text.
fn spooky_by_rounds(text: &[u8], seed1: u64, seed2: u64) -> ((u64, u64), Option<[u64; 4]>) {
    const FILL: u64 = 0xdead_beef_dead_beef;
    if text.len() < 192 {
        let mut h = [seed1, seed2, FILL, FILL];
        for chunk in [text, &[0; 192]].concat()[..192].chunks(32) {
            let w: [u64; 4] = words(chunk);
            h = [h[0], h[1], h[2].wrapping_add(w[0]), h[3].wrapping_add(w[1])];
            rounds::short_mix(&mut h);
            h = [h[0].wrapping_add(w[2]), h[1].wrapping_add(w[3]), h[2], h[3]];
        }
        h[3] = h[3].wrapping_add((text.len() as u64) << 56);
        rounds::short_end(&mut h);
        return ((h[0], h[1]), Some(h));
    }
    let mut s = [seed1, seed2, FILL].repeat(4).try_into().unwrap();
    let (blocks, tail) = text.split_at(text.len() / 96 * 96);
    blocks.chunks(96).for_each(|block| rounds::spooky_mix(&words(block), &mut s));
    let mut last = [tail, &[0; 96]].concat()[..96].to_vec();
    last[95] = tail.len() as u8;
    rounds::spooky_end(&words(&last), &mut s);
    ((s[0], s[1]), None)
}

/// Two texts of two blocks with one hash of 128 bits, as words. They were found by inverting the mixing: a block can be chosen so that the
/// words after it are those that another block leaves.
#[test]
fn two_texts_of_one_spooky() {
    let first = [
        0x5ad5e34e76a9d903, 0x57f6366aa70d4c6d, 0x18558a7d75b57c1b, 0xb07969d34d8b7ec5, 0x66779cc750c6c626, 0x0b78689cee20986a,
        0x5081200b61b01e6e, 0x7e643c36b0f76692, 0x48c6dadc70dd49f1, 0xbca35d3407608aec, 0xc80bd6de580dbad3, 0x606c302afcf35e97,
        0xad72d8b597504926, 0xb9c5f47996bbdb5b, 0x3401ff14a3ae6902, 0x9352d3bf48013725, 0x754db212aaacad9a, 0xed42cb39e5f076d3,
        0x2b0c2979e09f631f, 0x5a2cda49846abfd2, 0x079ff8eb42bd09bd, 0xf1a4b9f53d12968b, 0xc309bd72c57be3a1, 0x55f37723bccb8c92u64,
    ];
    let mut second = first;
    second[12..].copy_from_slice(&[
        0xad72d8b59757878b, 0xb9c5f47a3f03435b, 0xa8316107834315ed, 0x8e67c6a4a5f1f18d, 0x0aa34f7be4b79d63, 0x3477e93489a3c17e,
        0x7e9cd980f475323a, 0x47178295f028c4ed, 0x92d53bb87aed2786, 0xb0a6bd5e848c39aa, 0xc309bd72c57be3a1, 0x55f37723bccb8c93,
    ]);
    let [first, second] = [first, second].map(|words| words.map(u64::to_le_bytes).concat());
    let hash = (261879537176555314, 203859705809428571);
    assert_eq!((spooky128(0, 0, &first), spooky128(0, 0, &second)), (hash, hash));
    assert_ne!(spooky128(1, 0, &first), spooky128(1, 0, &second));
}

#[test]
fn spooky_under_seeds() {
    let text: Vec<u8> = (0..600u32).map(|i| ((i * 89) >> 2) as u8).collect();
    for length in 0..=text.len() {
        let text = &text[..length];
        let (hash, four) = spooky_by_rounds(text, 3, 5);
        assert_eq!(spooky128(3, 5, text), hash, "{length} bytes");
        for cut in [0, length / 2, length - length % 96, length.saturating_sub(1)] {
            let mut h = SpookyHasher::new(3, 5);
            h.write(&text[..cut]);
            h.write(&text[cut..]);
            assert_eq!((h.finish128(), h.short_words()), (hash, four), "{length} bytes cut at {cut}");
            assert_eq!(h.long_words().map(|it| (it[0], it[1])), (length >= 192).then_some(hash));
            assert_eq!(h.fork().finish128(), hash);
        }
    }
}
