//! All hashes of one text that comes in parts.
use crate::seeds::Seeds;
use hashers_proved::blocks::{SipKey, *};
use hashers_proved::hash_kinds::table::{Kind, KINDS};
use hashers_proved::hash_names::table::Ported;
use hashers_proved::hash_kinds::wide::WideHash;
use hashers_proved::jenkins::{spooky_hash::*, *};
use hashers_proved::keyed::Poly61Hasher;
use hashers_proved::xxh3::Xxh3Hasher;
use hashers_proved::{fnv::*, fx_hash::*, more::*, null::*, oz::*, pigeon::*};
use std::hash::Hasher;

/// How many bytes a piece has where cuts show.
const PIECE: usize = 4096;

/// A hasher that goes on.
trait Running {
    fn write(&mut self, piece: &[u8]);
    fn answer(&self) -> u128;
}

/// Its number of 64 bits.
struct Narrow<H>(H);

/// Its number of 128 bits.
struct Wide<H>(H);

impl<H: Hasher> Running for Narrow<H> {
    fn write(&mut self, piece: &[u8]) {
        self.0.write(piece);
    }

    fn answer(&self) -> u128 {
        self.0.finish().into()
    }
}

impl<H: WideHash> Running for Wide<H> {
    fn write(&mut self, piece: &[u8]) {
        self.0.write(piece);
    }

    fn answer(&self) -> u128 {
        self.0.wide()
    }
}

type Run = Box<dyn Running>;

fn fresh<H: Hasher + Default + 'static>() -> Run {
    Box::new(Narrow(H::default()))
}

fn started<H: Hasher + 'static>(hasher: H) -> Run {
    Box::new(Narrow(hasher))
}

/// The hasher of that name; `None` where the seed is too great for it.
fn run_of(kind: Kind, seeds: &Seeds) -> Option<Run> {
    let seed = seeds.seed;
    let key = SipKey { k0: seeds.key.0, k1: seeds.key.1 };
    Some(match kind {
        // declared: hashers
        Kind::Ported(Ported::Fnv1a32) => fresh::<FNV1aHasher32>(),
        Kind::Ported(Ported::Fnv1a64) => fresh::<FNV1aHasher64>(),
        Kind::Ported(Ported::Djb2) => fresh::<DJB2Hasher>(),
        Kind::Ported(Ported::Sdbm) => fresh::<SDBMHasher>(),
        Kind::Ported(Ported::LoseLose) => fresh::<LoseLoseHasher>(),
        Kind::Ported(Ported::Bricolage) => fresh::<Bricolage>(),
        Kind::Ported(Ported::Oaat) => fresh::<OAATHasher>(),
        Kind::Ported(Ported::Lookup3) => fresh::<Lookup3Hasher>(),
        Kind::Ported(Ported::Spooky) => started(SpookyHasher::new(seed, seeds.second)),
        Kind::Ported(Ported::SpookyV1) => started(SpookyV1Hasher::new(seed, seeds.second)),
        Kind::Ported(Ported::PassThrough) => fresh::<PassThroughHasher>(),
        Kind::Ported(Ported::FxHash) => fresh::<FxHasher>(),
        Kind::Ported(Ported::FxHash32) => fresh::<FxHasher32>(),
        Kind::Ported(Ported::FxHash64) => fresh::<FxHasher64>(),
        Kind::Crc32 => fresh::<Crc32Hasher>(),
        Kind::Crc32c => fresh::<Crc32cHasher>(),
        Kind::Fnv1At32 => fresh::<Fnv1Hasher32>(),
        Kind::Fnv1At64 => fresh::<Fnv1Hasher64>(),
        Kind::Djb2Add => fresh::<Djb2AddHasher>(),
        Kind::Joaat => fresh::<JoaatHasher>(),
        Kind::Elf => fresh::<ElfHasher>(),
        Kind::Ported(Ported::Null) => fresh::<NullHasher>(),
        Kind::Xxh32 => started(Xxh32Hasher::new(u32::try_from(seed).ok()?)),
        Kind::Xxh64 => started(Xxh64Hasher::new(seed)),
        Kind::Murmur3At32 => started(Murmur3Hasher32::new(u32::try_from(seed).ok()?)),
        Kind::Murmur3 => started(Murmur3Hasher128::new(seed)),
        Kind::SipHash13 => started(SipHasher13::new(key)),
        Kind::SipHash24 => started(SipHasher24::new(key)),
        Kind::Xxh3 => started(Xxh3Hasher::new(seed)),
        // end of declared
    })
}

/// What a hash starts from.
fn under(kind: Kind) -> &'static str {
    match kind {
        // declared: starts
        Kind::Ported(Ported::Spooky) => "both seeds",
        Kind::Ported(Ported::SpookyV1) => "both seeds",
        Kind::Xxh32 => "the seed, below 2^32",
        Kind::Xxh64 => "the seed",
        Kind::Murmur3At32 => "the seed, below 2^32",
        Kind::Murmur3 => "the seed",
        Kind::SipHash13 => "SipHash’s key",
        Kind::SipHash24 => "SipHash’s key",
        Kind::Xxh3 => "the seed",
        // end of declared
        _ => "",
    }
}

struct Row {
    name: &'static str,
    bits: u32,
    under: &'static str,
    run: Option<Run>,
}

/// A hasher for each row.
#[derive(Default)]
pub struct Hashes {
    rows: Vec<Row>,
}

impl Hashes {
    /// Those of the one table, the three that have 128 bits, and poly61.
    pub fn under(seeds: &Seeds) -> Hashes {
        let of_the_table =
            KINDS.map(|kind| Row { name: kind.row().name, bits: kind.row().bits, under: under(kind), run: run_of(kind, seeds) });
        let seed = seeds.seed;
        let wide = |name, under, run| Row { name, bits: 128, under, run: Some(run) };
        let poly61 = seeds.poly61.map(|key| started(Poly61Hasher::new(key)));
        let others = [
            wide("spooky128", "both seeds", Box::new(Wide(SpookyHasher::new(seed, seeds.second))) as Run),
            wide("murmur3_128", "the seed", Box::new(Wide(Murmur3Hasher128::new(seed)))),
            wide("xxh128", "the seed", Box::new(Wide(Xxh3Hasher::new(seed)))),
            Row { name: "poly61", bits: 64, under: "its key", run: poly61 },
        ];
        Hashes { rows: of_the_table.into_iter().chain(others).collect() }
    }

    pub fn write(&mut self, part: &[u8]) {
        for run in self.rows.iter_mut().filter_map(|row| row.run.as_mut()) {
            part.chunks(PIECE).for_each(|piece| run.write(piece));
        }
    }

    /// A line for each: its name, its bits, and under what it is computed.
    pub fn rows(&self) -> String {
        let lines: Vec<String> = self.rows.iter().map(|row| format!("{}\t{}\t{}", row.name, row.bits, row.under)).collect();
        lines.join("\n")
    }

    /// A line for each: the hash so far, in decimal and in hexadecimal; both empty where there is none.
    pub fn answers(&self) -> String {
        let digits = |row: &Row| row.bits.div_ceil(4) as usize;
        let told = |row: &Row, run: &Run| format!("{}\t{:0width$x}", run.answer(), run.answer(), width = digits(row));
        let lines: Vec<String> = self.rows.iter().map(|row| row.run.as_ref().map_or("\t".to_string(), |run| told(row, run))).collect();
        lines.join("\n")
    }
}
