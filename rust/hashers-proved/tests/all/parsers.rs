//! The parsers of lists and of filters' files, over random and mutated inputs: whatever comes, they answer, and what they accept is read
//! back from what is written of it.
use hashers_proved::bloom::{Bloom, Unread};
use hashers_proved::hash_lines::forms::parse_form;
use hashers_proved::hash_kinds::table::Kind;
use hashers_proved::hash_lines::line::{push_line, Form};
use hashers_proved::hash_lines::parse::{parse_line, HashLine};
use hashers_proved::hash_lines::sums::{Sum, Wide};
use hashers_proved::shim::memory::{Global, Vec as Bytes};
use std::io::ErrorKind;

const KINDS: [Sum; 4] = [Sum::Table(Kind::Crc32), Sum::Table(Kind::Xxh64), Sum::Table(Kind::Xxh3), Sum::Wide(Wide::Spooky)];
/// Where inputs begin: lines of ours and of other programs, whole and broken.
const SEEDS: [&str; 12] = ["crc32 (a) = 0f1e2d3c", "\\xxh64 (a\\nb) = 0f1e2d3c4b5a6978", "0f1e2d3c4b5a69780f1e2d3c4b5a6978  name", "0f1e2d3c *name",
                           "\\0F1E2D3C  a\\\\b", " XXH64(a)= 0f1e2d3c4b5a6978", "name with (a) = in it 0F1E2D3C", "; comment", "", "0f1e2d3c  ",
                           "xxh3 () = 0f1e2d3c4b5a6978", "xxh3 (a) = ) = 0f1e2d3c4b5a6978\r"];

/// Random numbers, the same in each run.
struct Random(u64);

impl Random {
    fn below(&mut self, most: usize) -> usize {
        self.0 ^= self.0 << 13;
        self.0 ^= self.0 >> 7;
        self.0 ^= self.0 << 17;
        (self.0 % most as u64) as usize
    }

    /// The bytes with a few of them changed, left out, put in or said twice.
    fn mutated(&mut self, bytes: &[u8]) -> Vec<u8> {
        let mut changed = bytes.to_vec();
        for _ in 0..self.below(4) {
            let at = self.below(changed.len() + 1);
            match self.below(4) {
                0 => changed.insert(at, b"\\()= *;\n\0\xff0aF"[self.below(13)]),
                1 => changed.truncate(at),
                2 => drop(changed.splice(at..at, changed[..at].to_vec())),
                _ if at < changed.len() => changed[at] ^= 1 << self.below(8),
                _ => changed.push(self.below(256) as u8),
            }
            changed.truncate(4096);
        }
        changed
    }
}

/// What is written of an entry is read as that entry, in both forms, unless nothing names its hash.
fn is_read_back(entry: &HashLine, default: Sum) {
    for form in [Form::Tagged, Form::Untagged] {
        let mut line = Bytes::new(Global);
        push_line(&mut line, form, true, entry.kind, entry.name.as_slice(), entry.number).unwrap();
        let again = parse_line(Global, &KINDS, default, line.as_slice()).unwrap();
        let is_known = matches!(form, Form::Tagged) || entry.kind.name() == default.name();
        assert!(!is_known || again.is_some_and(|it| (it.number, it.kind.name(), it.name.as_slice())
            == (entry.number, entry.kind.name(), entry.name.as_slice())), "{}", line.as_slice().escape_ascii());
    }
}

#[test]
fn lines_are_read_back() {
    let mut random = Random(88172645463325252);
    let mut read = 0;
    for round in 0..200_000 {
        let line = random.mutated(SEEDS[round % SEEDS.len()].as_bytes());
        let default = KINDS[random.below(KINDS.len())];
        let entry = match parse_line(Global, &KINDS, default, &line).unwrap() {
            None => parse_form(Global, &KINDS, default, round % 2 == 0, &line).unwrap(),
            found => found,
        };
        if let Some(entry) = entry {
            assert!(!entry.name.as_slice().is_empty(), "{}", line.escape_ascii());
            is_read_back(&entry, default);
            read += 1;
        }
    }
    assert!(read > 10_000, "{read} lines were read");
}

#[test]
fn filter_files_are_read_back_or_refused() {
    let mut random = Random(88172645463325252);
    let mut filter: Bloom = Bloom::new(20, 10);
    filter.extend(["Ada", "Grace"]);
    let mut file = Vec::new();
    filter.write_to(&mut file, "spooky lookup3").unwrap();
    let read = |file: &[u8]| -> Result<Bloom, _> { Bloom::read_from(file, "spooky lookup3") };
    for at in 0..file.len() {
        assert!(matches!(read(&file[..at]), Err(Unread::Failed(error)) if error.kind() == ErrorKind::UnexpectedEof));
        for bit in 0..8 {
            let mut changed = file.clone();
            changed[at] ^= 1 << bit;
            let Err(why) = read(&changed) else { panic!("bit {bit} of byte {at}") };
            assert!(match at {
                0..=13 | 32 | 41 => matches!(why, Unread::Form),
                14 | 15 => matches!(why, Unread::Version),
                42..=56 => matches!(why, Unread::Pair),
                16..=40 => matches!(why, Unread::Form | Unread::Hash | Unread::Failed(_)),
                _ => matches!(why, Unread::Hash),
            }, "bit {bit} of byte {at}");
        }
    }
    for _ in 0..20_000 {
        let changed = random.mutated(&file);
        let read: Result<Bloom, _> = Bloom::read_from(&changed[..], "spooky lookup3");
        assert_eq!(read.is_ok(), changed.starts_with(&file), "{}", changed.escape_ascii());
        if let Ok(read) = read {
            assert!(read.contains("Ada") && read.contains("Grace") && !read.contains("Edsger"));
        }
    }
}

/// The file of the filter of 100 bits and 4 probes that has the key `key`, as a program in another language writes it.
const FILE: &[u8] = b"hashers-bloom 2 0000000000000064 00000004 spooky lookup3\n\0\x80\0\0\0\0\x08\0\x01\0\0\0\x08\0\0\0\x18\xdd\xda\x85\x86\x26\x35\xae";

/// How a read of a filter's file ends.
fn ended(r: impl std::io::Read, pair: &str) -> &'static str {
    match Bloom::<hashers_proved::jenkins::spooky_hash::SpookyHasher, hashers_proved::jenkins::Lookup3Hasher>::read_from(r, pair) {
        Ok(filter) => ["lost its key", "read"][usize::from(filter.contains("key"))],
        Err(Unread::Form) => "form",
        Err(Unread::Version) => "version",
        Err(Unread::Pair) => "pair",
        Err(Unread::Hash) => "hash",
        Err(Unread::Failed(error)) if error.kind() == ErrorKind::UnexpectedEof => "cut",
        Err(Unread::Failed(_)) => "fault",
    }
}

/// Those with the pair `p` have the right hash, and are files of no filter: no bit, no probe, a bit beyond.
#[test]
fn filter_files_of_another_program() {
    let mut changed = FILE.to_vec();
    changed[69] = 0x0a;
    for (file, pair, why) in [
        (FILE, "spooky lookup3", "read"),
        (FILE, "spooky lookup", "pair"),
        (FILE, "spooky lookup3 ", "pair"),
        (FILE, "lookup3 spooky", "pair"),
        (&FILE[..80], "spooky lookup3", "cut"),
        (&changed, "spooky lookup3", "hash"),
        (b"hashers-bloom 2 000000000000006A 00000004 spooky lookup3\n", "spooky lookup3", "form"),
        (b"hashers-bloom 1 0000000000000064 00000004 spooky lookup3\n", "spooky lookup3", "version"),
        (b"hashers-bloom 2 ffffffffffffffff 00000004 spooky lookup3\n12345678", "spooky lookup3", "cut"),
        (b"hashers-bloom 2 0000000000000000 00000004 p\n\xe3\xeb\x29\x17\x93\xc9\xf5\x31", "p", "form"),
        (b"hashers-bloom 2 0000000000000001 00000000 p\n\x01\0\0\0\0\0\0\0\xb5\x60\x1e\x07\xa3\xcd\xaa\x7e", "p", "form"),
        (b"hashers-bloom 2 0000000000000001 00000001 p\n\x02\0\0\0\0\0\0\0\x93\x72\x61\x3b\x65\x30\x6b\x5c", "p", "form"),
    ] {
        assert_eq!(ended(file, pair), why, "{}", file.escape_ascii());
    }
}

/// Reads of a byte, each interrupted once, of which the one behind so many bytes fails.
#[test]
fn slow_and_failing_readers() {
    struct Slow<'a>(&'a [u8], usize, bool);
    impl std::io::Read for Slow<'_> {
        fn read(&mut self, to: &mut [u8]) -> std::io::Result<usize> {
            self.2 = !self.2;
            if self.2 {
                return Err(ErrorKind::Interrupted.into());
            }
            let Some(left) = self.1.checked_sub(1) else { return Err(ErrorKind::BrokenPipe.into()) };
            self.1 = left;
            let one = to.len().min(1);
            self.0.read(&mut to[..one])
        }
    }
    for good in 0..=FILE.len() {
        assert_eq!(ended(Slow(FILE, good, false), "spooky lookup3"), if good < FILE.len() { "fault" } else { "read" });
    }
}
