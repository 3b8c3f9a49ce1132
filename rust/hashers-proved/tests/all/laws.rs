//! The laws, windows, promises and rounds on random values, against definitions written here.
use hashers_proved::reader::hash_reader;
use hashers_proved::jenkins::spooky_hash::SpookyHasher;
use hashers_proved::jenkins::{oaat, BuildSpooky, Lookup3Hasher, OAATHasher};
use hashers_proved::laws::{self, ByteStep, HasherWrite, Piecewise, Undo};
use hashers_proved::{fnv::*, fx_hash::*, more, more::*, null::*, oz::*, pigeon::*, promises, rounds};
use std::hash::{BuildHasher, Hasher};
use std::io::{Error, Read};

struct Random(u64);

impl Random {
    fn next(&mut self) -> u64 {
        self.0 ^= self.0 << 13;
        self.0 ^= self.0 >> 7;
        self.0 ^= self.0 << 17;
        self.0
    }
    fn below(&mut self, n: u64) -> usize {
        (self.next() % n) as usize
    }
    fn bytes(&mut self, n: usize) -> Vec<u8> {
        (0..n).map(|_| self.next() as u8).collect()
    }
}

/// Whether the texts have one length and differ, but only within so many places, and only in bits that the mask has not.
fn differ_within(places: usize, mask: u8, x: &[u8], y: &[u8]) -> bool {
    if x.len() != y.len() || x == y || x.iter().zip(y).any(|(a, b)| (a ^ b) & mask != 0) {
        return false;
    }
    let apart: Vec<usize> = (0..x.len()).filter(|&i| x[i] != y[i]).collect();
    apart[apart.len() - 1] - apart[0] < places
}

fn differ_within_bits(bits: usize, x: &[u8], y: &[u8]) -> bool {
    if x.len() != y.len() || x == y {
        return false;
    }
    let apart: Vec<usize> = (0..8 * x.len()).filter(|&i| (x[i / 8] ^ y[i / 8]) >> (i % 8) & 1 == 1).collect();
    apart[apart.len() - 1] - apart[0] < bits
}

fn words64(t: &[u8]) -> Vec<u64> {
    let (eights, rest) = t.split_at(t.len() / 8 * 8);
    let mut words: Vec<u64> = eights.chunks(8).map(|c| u64::from_le_bytes(c.try_into().unwrap())).collect();
    let (four, bytes) = rest.split_at(rest.len() / 4 * 4);
    words.extend(four.chunks(4).map(|c| u32::from_le_bytes(c.try_into().unwrap()) as u64));
    words.extend(bytes.iter().map(|&b| b as u64));
    words
}

fn words32(t: &[u8]) -> Vec<u64> {
    let (fours, bytes) = t.split_at(t.len() / 4 * 4);
    fours.chunks(4).map(|c| u32::from_le_bytes(c.try_into().unwrap()) as u64).chain(bytes.iter().map(|&b| b as u64)).collect()
}

fn one_apart<T: PartialEq>(x: Vec<T>, y: Vec<T>) -> bool {
    x.len() == y.len() && x.iter().zip(&y).filter(|(a, b)| a != b).count() == 1
}

/// Two texts that are alike at most places.
fn pair(r: &mut Random) -> (Vec<u8>, Vec<u8>) {
    let n = r.below(40);
    let x = r.bytes(n);
    let mut y = x.clone();
    let from = r.below(n as u64 + 1);
    let to = n.min(from + r.below(9));
    for byte in &mut y[from..to] {
        let mask = [0x1f, 0xff, 1 << r.below(8)][r.below(3)];
        *byte ^= r.next() as u8 & mask;
    }
    if r.below(20) == 0 {
        y.push(0);
    }
    (x, y)
}

#[test]
fn windows() {
    let mut r = Random(88172645463325252);
    let mut said = [0; 9];
    for _ in 0..20_000 {
        let (x, y) = pair(&mut r);
        let rows: [(bool, bool, bool); 9] = [
            (laws::apart_djb2(&x, &y), differ_within(6, 0xE0, &x, &y), djb2(&x) != djb2(&y)),
            (laws::apart_sdbm(&x, &y), differ_within(3, 0, &x, &y), sdbm(&x) != sdbm(&y)),
            (laws::apart_fnv64(&x, &y), differ_within(3, 0, &x, &y), fnv1a64(&x) != fnv1a64(&y)),
            (laws::apart_fnv32(&x, &y), differ_within(2, 0, &x, &y), fnv1a32(&x) != fnv1a32(&y)),
            (more::windows::apart_crc32(&x, &y), differ_within(4, 0, &x, &y), crc32(&x) != crc32(&y)),
            (more::windows::apart_crc32c_bits(&x, &y), differ_within_bits(32, &x, &y), crc32c(&x) != crc32c(&y)),
            (more::windows::apart_fnv1_64(&x, &y), differ_within(3, 0, &x, &y), fnv1_64(&x) != fnv1_64(&y)),
            (more::windows::apart_djb2_add(&x, &y), differ_within(6, 0xE0, &x, &y), djb2_add(&x) != djb2_add(&y)),
            (laws::apart_by_one::<OAATHasher>(&x, &y), differ_within(1, 0, &x, &y), oaat(&x) != oaat(&y)),
        ];
        for (n, (answer, wanted, apart)) in rows.into_iter().enumerate() {
            assert_eq!(answer, wanted, "row {n}: {x:?} {y:?}");
            assert!(!answer || apart, "row {n}: {x:?} {y:?}");
            said[n] += answer as u32;
        }
        assert_eq!(laws::apart_by_one_word_fx64(&[&x], &[&y]), x.len() == y.len() && one_apart(words64(&x), words64(&y)));
        assert_eq!(laws::apart_by_one_word_fx32(&[&x, b"a"], &[&y, b"a"]), x.len() == y.len() && one_apart(words32(&x), words32(&y)));
        assert_eq!(laws::apart_by_one_fx(&[b"a", &x], &[b"a", &y]), differ_within(1, 0, &x, &y));
        let filled = y.len() > x.len() && y.len() < 192 && y[..x.len()] == x && y[x.len()..].iter().all(|&b| b == 0);
        assert_eq!(laws::apart_by_zeros(&x, &y), filled);
    }
    assert!(said.iter().all(|&n| n > 150), "{said:?}");
    assert!(laws::same_word(b"abcdef", b"abcdef") && !laws::same_word(b"abcdef", b"abcdeg"));
}

/// The windows of the mixing hashes, by all places where two texts of one length differ: where they are exact, the words differ.
#[test]
fn windows_of_mixing() {
    let mut r = Random(2463534242);
    let mut said = [0; 2];
    for _ in 0..20_000 {
        let n = 1 + r.below(330);
        let x = r.bytes(n);
        let mut y = x.clone();
        for from in [r.below(n as u64), r.below(n as u64)] {
            let to = n.min(from + r.below(100));
            y[from..to].iter_mut().for_each(|byte| *byte ^= 1 << r.below(8));
            if r.below(2) == 0 {
                break;
            }
        }
        let places: Vec<usize> = (0..n).filter(|&i| x[i] != y[i]).collect();
        let alike = |of: &dyn Fn(usize) -> usize| !places.is_empty() && places.iter().all(|&i| of(i) == of(places[0]));
        let (block, stretch) = (alike(&|i| i / 12), alike(&|i| (i + 16) / 32));
        assert_eq!((laws::differ_in_one_block(&x, &y), laws::differ_in_one_stretch(&x, &y)), (block, stretch), "{x:?} {y:?}");
        let apart = [laws::apart_by_block(&x, &y), laws::apart_by_stretch(&x, &y)];
        assert_eq!(apart, [block, stretch && n < 192], "{x:?} {y:?}");
        let (h, [a, b]) = (Lookup3Hasher::new(7, 11), [&x, &y].map(|text| {
            let mut h = SpookyHasher::new(1, 2);
            h.write(text);
            h.short_words()
        }));
        assert!(!apart[0] || h.piece_words(&x) != h.piece_words(&y));
        assert!(!apart[1] || a != b);
        apart.iter().zip(&mut said).for_each(|(answer, count)| *count += *answer as u32);
    }
    assert!(said.iter().all(|&n| n > 500), "{said:?}");
}

#[test]
fn rounds_and_their_inverses() {
    let mut r = Random(1181783497276652981);
    for _ in 0..2000 {
        let (a, b): ([u64; 12], [u64; 12]) = (std::array::from_fn(|_| r.next()), std::array::from_fn(|_| r.next()));
        let (mut x, mut y) = (a, b);
        let (there, back) = promises::spooky_mix_undone(&b, &mut x, &mut y);
        assert_eq!((x, y), (a, b));
        assert!(there != a && back != b);
        let (there, back) = promises::spooky_end_partial_undone(&mut x, &mut y);
        assert_eq!((x, y), (a, b));
        assert!(there != a && back != b);
        let (c, d): ([u64; 4], [u64; 4]) = (std::array::from_fn(|_| r.next()), std::array::from_fn(|_| r.next()));
        let (mut x, mut y) = (c, d);
        promises::short_mix_undone(&mut x, &mut y);
        promises::short_end_undone(&mut x, &mut y);
        assert_eq!((x, y), (c, d));
        let (e, f): ([u32; 3], [u32; 3]) = (std::array::from_fn(|_| r.next() as u32), std::array::from_fn(|_| r.next() as u32));
        let (mut x, mut y) = (e, f);
        promises::lookup3_mix_undone(&mut x, &mut y);
        promises::lookup3_final_undone(&mut x, &mut y);
        assert_eq!((x, y), (e, f));
        let word = r.next();
        assert_eq!(rounds::unshuffle64(rounds::shuffle64(word)), word);
        assert_eq!(rounds::shuffle64(rounds::unshuffle64(word)), word);
        let bits = 1 + r.below(63) as u32;
        assert_eq!(rounds::unxorshift(rounds::xorshift(word, bits), bits), word);
        let n = 96 * r.below(4);
        let text = r.bytes(n);
        let mut s = a;
        rounds::spooky_blocks(&text, &mut s, &mut rounds::Turns::new());
        rounds::spooky_unblocks(&text, &mut s);
        assert_eq!(s, a);
        let some = r.bytes(4);
        for n in 0..=4 {
            assert_eq!(rounds::le32(&some[..n]), some[..n].iter().rev().fold(0, |v, &b| v << 8 | b as u32));
        }
    }
}

fn back<H: ByteStep>(r: &mut Random) {
    let n = r.below(30);
    let (text, state) = (r.bytes(n), r.next());
    let mut h = match H::unfinish(state) {
        Some(h) => h,
        None => H::fresh(),
    };
    let before = h.answer();
    for &byte in &text {
        h.step(byte);
    }
    let mut whole = H::unfinish(before).unwrap();
    whole.feed(&text);
    assert_eq!(whole.answer(), h.answer());
    for &byte in text.iter().rev() {
        h.unstep(byte);
    }
    assert_eq!(h.answer(), before);
}

#[test]
fn steps_and_writes() {
    let mut r = Random(2463534242);
    for _ in 0..3000 {
        // declared: undone by bytes
        back::<FNV1aHasher32>(&mut r);
        back::<FNV1aHasher64>(&mut r);
        back::<DJB2Hasher>(&mut r);
        back::<SDBMHasher>(&mut r);
        back::<LoseLoseHasher>(&mut r);
        back::<Bricolage>(&mut r);
        back::<OAATHasher>(&mut r);
        back::<Crc32Hasher>(&mut r);
        back::<Crc32cHasher>(&mut r);
        back::<Fnv1Hasher32>(&mut r);
        back::<Fnv1Hasher64>(&mut r);
        back::<Djb2AddHasher>(&mut r);
        back::<JoaatHasher>(&mut r);
        // end of declared
        let text = r.bytes(5);
        let first = [HasherWrite::U8(7), HasherWrite::Bytes(&text), HasherWrite::U16(513)];
        let last = [HasherWrite::U32(r.next() as u32), HasherWrite::Usize(9), HasherWrite::U64(r.next())];
        let writes = [first, last].concat();
        let (mut a, mut b) = (FxHasher::unfinish(r.next()).unwrap(), FxHasher::unfinish(r.next()).unwrap());
        let (x, y) = (a.finish(), b.finish());
        promises::fxhash_undone(&mut a, &mut b, &writes);
        promises::fxhash_word_undone(&mut a, &mut b, r.next());
        assert_eq!((a.finish(), b.finish()), (x, y));
        let (mut a, mut b) = (FNV1aHasher64::unfinish(x).unwrap(), FNV1aHasher64::unfinish(y).unwrap());
        let way = promises::fnv1a64_undone(&mut a, &mut b, &writes);
        assert_eq!((a.finish(), b.finish(), way.before), (x, y, x));
        let mut there = FNV1aHasher64::unfinish(x).unwrap();
        there.write_u8(7);
        there.write(&text);
        there.write_u16(513);
        laws::run_writes(&mut there, &writes[3..]);
        assert_eq!(there.finish(), way.there);
        assert_eq!(promises::fnv1a64_of_writes(&writes[..2]), fnv1a64(&[&[7], text.as_slice()].concat()));
        assert_eq!(passthrough_from(x, &text), text.iter().fold(x, |v, &b| v << 8 | b as u64));
        assert_eq!(BuildSpooky { seed1: x, seed2: y }.hash_one(7u64), {
            let mut h = SpookyHasher::new(x, y);
            h.write_u64(7);
            h.finish()
        });
        let mut h = Lookup3Hasher::new(x as u32, y as u32);
        assert_eq!(h.finish(), (x & 0xffffffff) | (y << 32));
        h.write(b"");
        assert_eq!(h.fork().finish(), (x & 0xffffffff) | (y << 32));
    }
}

/// Twelve zeros lead lookup3 to known words, by the steps of its two mixes; and for each hash one word, block, stretch or end leads there.
#[test]
fn what_leads_to_a_hash() {
    let fresh = Lookup3Hasher::default();
    assert_eq!(fresh.piece_words(&[0; 12]), [0x65852e52, 0x14c3a0e3, 0xfb293fc1]);
    assert_eq!(laws::block_for(&fresh, 0x14c3a0e3fb293fc1, 0x65852e52), [0; 12]);
    let mut r = Random(362436069);
    for _ in 0..2000 {
        let (n, m, hash) = (r.below(144), r.below(16), r.next());
        let (front, back) = (r.bytes(n / 16 * 16), r.bytes(m));
        let mut h = Lookup3Hasher::new(r.next() as u32, r.next() as u32);
        h.write(&laws::block_for(&h, hash, 5));
        assert_eq!(h.finish(), hash);
        if n / 16 % 2 == 1 {
            let words = std::array::from_fn(|_| r.next());
            let mut h = SpookyHasher::new(5, 6);
            h.write(&[&front[..], &laws::stretch_for(5, 6, &front, &back, words), &back].concat());
            assert_eq!(h.short_words(), Some(words), "{} and {m} bytes", front.len());
        }
        let (mut long, mut short) = (FxHasher64::unfinish(r.next()).unwrap(), FxHasher32::unfinish(r.next() >> 32).unwrap());
        long.write_u64(long.word_for(hash));
        short.write_u32(short.word_for(hash as u32));
        assert_eq!((long.finish(), short.finish()), (hash, hash as u32 as u64));
        let wanted = hash >> 32;
        assert_eq!(crc32(&[&back[..], &crc32_ending(crc32(&back), wanted)].concat()), wanted);
        assert_eq!(crc32c(&[&back[..], &crc32c_ending(crc32c(&back), wanted)].concat()), wanted);
    }
    assert_eq!((FxHasher64::default().word_for(16160435425421689461), FxHasher32::default().word_for(3555066485)), (97, 97));
    assert_eq!((crc32_ending(crc32(b"12345"), 0xCBF43926), crc32c_ending(crc32c(b"12345"), 0xE3069283)), (*b"6789", *b"6789"));
}

/// Gives at most so many bytes a read, and then fails.
struct Faulty<'a>(&'a [u8], usize, bool);

impl Read for Faulty<'_> {
    fn read(&mut self, buf: &mut [u8]) -> Result<usize, Error> {
        if self.0.is_empty() && self.2 {
            return Err(Error::other("no more"));
        }
        let n = self.1.min(buf.len()).min(self.0.len());
        buf[..n].copy_from_slice(&self.0[..n]);
        self.0 = &self.0[n..];
        Ok(n)
    }
}

#[test]
fn readers() {
    let mut r = Random(42);
    for _ in 0..3000 {
        let n = r.below(100);
        let text = r.bytes(n);
        let limit = r.below(120) as u64;
        let fails = r.below(2) == 0;
        let mut reader = Faulty(&text, 1 + r.below(40), fails);
        let mut h = Lookup3Hasher::default();
        let taken = hash_reader::<_, _, 16>(&mut h, &mut reader, limit);
        let read = (limit as usize).min(n);
        let mut wanted = Lookup3Hasher::default();
        text[..read].chunks(16).for_each(|piece| wanted.write(piece));
        assert_eq!(h.finish(), wanted.finish());
        match taken {
            Ok(taken) => assert_eq!((taken.bytes, taken.ended), (read as u64, read < limit as usize)),
            Err(fault) => {
                assert!(fails && fault.bytes == read as u64 && read < limit as usize);
                assert_eq!(fault.to_string(), format!("a read failed after {read} bytes: no more"));
                assert_eq!(format!("{fault:?}"), format!("a read failed after {read} bytes: {:?}", fault.error));
                assert_eq!(Error::from(fault).to_string(), "no more");
            }
        }
        assert_eq!(reader.0.len(), n - read);
    }
}

#[test]
fn a_limit_of_nothing_reads_nothing() {
    struct Never;
    impl Read for Never {
        fn read(&mut self, _buf: &mut [u8]) -> Result<usize, Error> {
            panic!("a read")
        }
    }
    let mut h = FNV1aHasher64::default();
    let taken = hash_reader::<_, _, 16>(&mut h, &mut Never, 0).unwrap();
    assert_eq!((taken.bytes, taken.ended, h.finish()), (0, false, fnv1a64(b"")));
    let taken = hashers_proved::reader::hash_stream::<_, _, 16>(&mut h, &mut b"abcd".as_slice(), 3).unwrap();
    assert_eq!((taken.bytes, taken.ended, h.finish()), (3, false, fnv1a64(b"abc")));
}

/// Of a hasher of 32 bits no state answers more, and each number below is some state's answer.
fn unfinishes_32_bits<H: Undo>() {
    assert!(H::unfinish(1 << 32).is_none() && H::unfinish((1 << 32) + 5).is_none() && H::unfinish(u64::MAX).is_none());
    for answer in [0, 5, u64::from(u32::MAX)] {
        assert_eq!(H::unfinish(answer).unwrap().answer(), answer);
    }
}

#[test]
fn hashers_of_32_bits_unfinish_no_more() {
    // declared: undone of 32 bits
    unfinishes_32_bits::<FNV1aHasher32>();
    unfinishes_32_bits::<DJB2Hasher>();
    unfinishes_32_bits::<SDBMHasher>();
    unfinishes_32_bits::<FxHasher32>();
    unfinishes_32_bits::<Crc32Hasher>();
    unfinishes_32_bits::<Crc32cHasher>();
    unfinishes_32_bits::<Fnv1Hasher32>();
    unfinishes_32_bits::<Djb2AddHasher>();
    unfinishes_32_bits::<JoaatHasher>();
    // end of declared
}
