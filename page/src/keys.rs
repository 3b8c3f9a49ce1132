//! How hashes spread keys, by what the program `spread` is made of.
use crate::clock::Measured;
use crate::{Said, NO_MEMORY};
use hashers_proved::hash_kinds::table::{Kind, KINDS};
use hashers_proved::shim::std::alloc::{AllocError, Global};
use hashers_proved::shim::{self, io::BufReader};
use hashers_proved::text_set::{RandomKeys, Texts};
use hashers_tools::spread_core::advice::{advise, Advice};
use hashers_tools::spread_core::call::{call_of, kinds_of, settings_of, unknown_name};
use hashers_tools::spread_core::chance::Chance;
use hashers_tools::spread_core::counts::Spread;
use hashers_tools::spread_core::failure::Failure;
use hashers_tools::spread_core::keys::{read_keys, Layout};
use hashers_tools::spread_core::named::{hash_by, Hashed};
use hashers_tools::spread_core::rows::{row_of, TableRow};
use hashers_tools::spread_core::sizes::sizes_of;
use hashers_tools::spread::table::Frame;

/// How many bytes are read at once at most.
const BUFFER: usize = 65536;

/// How many bars a histogram has at most, but for the last, which has the rest.
const BARS: u64 = 12;

/// Keys, each once, and what was made of them.
pub struct Keys {
    /// The part of a line that has no end yet.
    tail: Vec<u8>,
    hashed: Hashed,
    kinds: shim::Vec<Kind>,
    /// For each of these.
    measured: Vec<Measured>,
    frame: Option<Frame>,
    rows: Vec<TableRow>,
}

fn no_memory(_: AllocError) -> String {
    NO_MEMORY.to_string()
}

impl Keys {
    pub fn under(first: u64, second: u64) -> Keys {
        let keys = Texts::new(Global, RandomKeys::with_keys(first, second));
        let hashed = Hashed { keys, hashes: shim::Vec::new(Global) };
        Keys { tail: Vec::new(), hashed, kinds: shim::Vec::new(Global), measured: Vec::new(), frame: None, rows: Vec::new() }
    }

    fn read(&mut self, lines: &[u8]) -> Result<(), String> {
        let mut reader = BufReader::with_capacity(Global, lines.len().clamp(1, BUFFER), lines).map_err(|_| NO_MEMORY.to_string())?;
        read_keys(Global, &mut self.hashed.keys, Layout::Lines(b'\n'), &mut reader).map_err(|fault| match fault {
            Failure::NoMemory => NO_MEMORY.to_string(),
            _ => "There are too many different keys.".to_string(),
        })
    }

    /// Takes the whole lines in; says how many keys there are.
    pub fn take(&mut self, part: &[u8]) -> Said {
        let whole = part.iter().rposition(|byte| *byte == b'\n').map_or(0, |at| at + 1);
        self.tail.try_reserve(part.len()).map_err(|_| NO_MEMORY.to_string())?;
        if whole > 0 {
            self.tail.extend_from_slice(&part[..whole]);
            let lines = std::mem::take(&mut self.tail);
            self.read(&lines)?;
        }
        self.tail.extend_from_slice(&part[whole..]);
        Ok(self.hashed.keys.len().to_string())
    }

    /// Takes the last line in, and makes the frame of the table that is asked for.
    pub fn end(&mut self, words: &[u8]) -> Said {
        let tail = std::mem::take(&mut self.tail);
        self.read(&tail)?;
        if self.hashed.keys.is_empty() {
            return Err("There are no keys. Enter one per line.".to_string());
        }
        let (kinds, buckets, times) = asked(words)?;
        self.measured = vec![Measured::NOTHING; kinds.len()];
        self.kinds = kinds;
        let keys = self.hashed.keys.len() as u64;
        let sizes = sizes_of(keys, buckets);
        self.frame = Some(Frame { keys, sizes, times });
        let second = sizes.second.map_or(String::new(), |size| size.to_string());
        let mut said = format!("{keys}\t{}\t{second}", sizes.first);
        self.kinds.iter().for_each(|kind| said += &format!("\n{}", kind.row().name));
        Ok(said)
    }

    /// Measures how long the hash of that place takes, once more.
    pub fn measure(&mut self, place: usize) -> Said {
        let kind = *self.kinds.get(place).ok_or("There is no such row.")?;
        self.measured[place].again(kind, &mut self.hashed).map_err(no_memory)?;
        Ok(String::new())
    }

    /// A line of cells: the name; the row's numbers, as `spread` has them; nanoseconds; whether the spread is as even as chance at each
    /// number of buckets; and what chance has of equal pairs. Then the histograms.
    pub fn row(&mut self, place: usize) -> Said {
        let frame = self.frame.ok_or("Nothing was begun.")?;
        let kind = *self.kinds.get(place).ok_or("There is no such row.")?;
        let time = frame.times.then(|| self.measured[place].for_a_key(self.hashed.keys.len()));
        let row = row_of(Global, kind, frame.sizes, time, &mut self.hashed).map_err(no_memory)?;
        let mut said = frame.row(Global, &row).map_err(no_memory)?.as_str().split_whitespace().collect::<Vec<_>>().join("\t");
        said += &format!("\n{}", verdict(&frame, &row));
        hash_by(kind, 1, &mut self.hashed).map_err(no_memory)?;
        for spread in [Some(row.counts.first), row.counts.second].into_iter().flatten() {
            said += &histogram(&self.hashed.hashes, frame.keys, &spread)?;
        }
        self.rows.push(row);
        Ok(said)
    }

    /// The table as `spread` writes it, and which hash it recommends.
    pub fn table(&mut self) -> Said {
        let frame = self.frame.ok_or("Nothing was begun.")?;
        let mut said = frame.head(Global).map_err(no_memory)?.as_str().to_string();
        for row in &self.rows {
            said += frame.row(Global, row).map_err(no_memory)?.as_str();
        }
        for bits in [0, 28, 32, 64] {
            if self.rows.iter().any(|row| row.kind.row().bits == bits) {
                said += frame.chance(Global, bits).map_err(no_memory)?.as_str();
            }
        }
        let advice = if frame.times { Some(advise(frame.keys, &self.rows)) } else { None };
        if let Some(advice) = advice {
            said += advice.line(Global).map_err(no_memory)?.as_str();
        }
        let best = if let Some(Advice::Take(kind)) = advice { kind.row().name } else { "" };
        Ok(said + best)
    }
}

/// The hashes, the number of buckets and whether times are measured, by the words of a call; the name `all` is all names.
fn asked(words: &[u8]) -> Result<(shim::Vec<Kind>, Option<u64>, bool), String> {
    let mut texts = shim::Vec::new(Global);
    for word in words.split(|byte| *byte == b'\n').filter(|word| !word.is_empty()) {
        let names: Vec<&[u8]> = if word == b"all" { KINDS.iter().map(|kind| kind.row().name.as_bytes()).collect() } else { vec![word] };
        for name in names {
            let mut text = shim::Vec::new(Global);
            text.extend_from_slice(name).map_err(no_memory)?;
            texts.push(text).map_err(|_| NO_MEMORY.to_string())?;
        }
    }
    let call = call_of(Global, &texts).map_err(no_memory)?;
    let settings = settings_of(&call).map_err(|_| "The number of buckets must be a whole number from 1 to 4294967295.".to_string())?;
    if let Some(name) = unknown_name(Global, &call).map_err(no_memory)? {
        return Err(format!("There is no hash “{}”.", String::from_utf8_lossy(name)));
    }
    let kinds = kinds_of(Global, &call).map_err(no_memory)?;
    Ok((kinds, settings.buckets.map(|buckets| buckets.get() as u64), settings.times))
}

/// Whether the spread is as even as chance at each number of buckets, and what chance has of equal pairs.
fn verdict(frame: &Frame, row: &TableRow) -> String {
    let spreads = [Some(row.counts.first), row.counts.second].into_iter().flatten();
    let words: Vec<&str> = spreads
        .map(|spread| {
            let chance = Chance::of(frame.keys, spread.buckets);
            let more = spread.squares as f64 > chance.squares;
            if chance.is_near(spread.squares) {
                "as chance"
            } else if more {
                "worse"
            } else {
                "more even"
            }
        })
        .collect();
    let equal = hashers_tools::spread_core::chance::equal_pairs(frame.keys, row.kind.row().bits);
    format!("{equal:.3}\t{}", words.join("\t"))
}

/// A line for each bar: how many keys a bucket has, as a number or a range; how many buckets have so many; and how many by chance. Above
/// them a line with the number of buckets.
fn histogram(hashes: &[u64], keys: u64, spread: &Spread) -> Said {
    let mut counts: Vec<u32> = Vec::new();
    counts.try_reserve_exact(spread.buckets as usize).map_err(|_| NO_MEMORY.to_string())?;
    counts.resize(spread.buckets as usize, 0);
    hashes.iter().for_each(|hash| counts[(hash % spread.buckets) as usize] += 1);
    let mean = keys as f64 / spread.buckets as f64;
    let chance = Chance::of(keys, spread.buckets).fullest;
    let least = (mean - (chance as f64 - mean)).max(0.0) as u64;
    let width = (chance - least) / BARS + 1;
    let mut said = format!("\nbuckets\t{}", spread.buckets);
    let mut bar = |name: String, from: u64, behind: u64| {
        let found = counts.iter().filter(|count| (from..behind).contains(&u64::from(**count))).count();
        let wanted = spread.buckets as f64 * share(mean, from, behind.min(chance * 4 + 64));
        said += &format!("\n{name}\t{found}\t{wanted:.1}");
    };
    if least > 0 {
        bar(format!("below {least}"), 0, least);
    }
    let mut from = least;
    while from <= chance {
        let name = if width == 1 { from.to_string() } else { format!("{from} to {}", from + width - 1) };
        bar(name, from, from + width);
        from += width;
    }
    bar(format!("{from}+"), from, u64::MAX);
    Ok(said)
}

/// The share of the counts from one up to another by Poisson's rule under that mean.
fn share(mean: f64, from: u64, behind: u64) -> f64 {
    let mut log = -mean;
    let mut total = 0.0;
    for count in 0..behind {
        if count > 0 {
            log += (mean / count as f64).ln();
        }
        if count >= from {
            total += log.exp();
        }
    }
    total
}
