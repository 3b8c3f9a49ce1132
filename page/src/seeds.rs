//! Seeds and keys, as a user writes them.

/// What hashes start from.
#[derive(Default)]
pub struct Seeds {
    /// The seed of XXH32, XXH64, XXH3 and MurmurHash3, and the first of SpookyHash.
    pub seed: u64,
    /// The second of SpookyHash.
    pub second: u64,
    /// SipHash's key, as two words.
    pub key: (u64, u64),
    /// The key of poly61, if there is one.
    pub poly61: Option<u64>,
}

/// The number that a word writes, in decimal or behind 0x in hexadecimal.
fn number(word: &str) -> Option<u64> {
    match word.strip_prefix("0x").or_else(|| word.strip_prefix("0X")) {
        Some(digits) if digits.bytes().all(|digit| digit.is_ascii_hexdigit()) => u64::from_str_radix(digits, 16).ok(),
        None if word.bytes().all(|digit| digit.is_ascii_digit()) => word.parse().ok(),
        _ => None,
    }
}

/// The number in a field, or 0 where it is empty.
fn read_number(field: &str, name: &str) -> Result<u64, String> {
    if field.is_empty() {
        return Ok(0);
    }
    number(field).ok_or_else(|| format!("{name} must be a whole number below 2^64, such as 42 or 0x2a, not “{field}”."))
}

/// The two words of sixteen bytes in hexadecimal, each little-endian.
fn read_key(field: &str) -> Result<(u64, u64), String> {
    if field.is_empty() {
        return Ok((0, 0));
    }
    let well = field.len() == 32 && field.bytes().all(|digit| digit.is_ascii_hexdigit());
    match u128::from_str_radix(field, 16) {
        Ok(bytes) if well => Ok(((bytes >> 64) as u64).swap_bytes()).map(|first| (first, (bytes as u64).swap_bytes())),
        _ => Err(format!("SipHash’s key must be 16 bytes, as 32 hexadecimal digits, not “{field}”.")),
    }
}

impl Seeds {
    /// Those in four lines; a line may be empty, and then means 0.
    pub fn read(lines: &[u8]) -> Result<Seeds, String> {
        let text = String::from_utf8_lossy(lines);
        let mut fields = text.split('\n').map(str::trim).chain(std::iter::repeat(""));
        let mut next = || fields.next().unwrap_or("");
        let (seed, second, key, poly61) = (next(), next(), next(), next());
        Ok(Seeds {
            seed: read_number(seed, "The seed")?,
            second: read_number(second, "The second seed")?,
            key: read_key(key)?,
            poly61: if poly61.is_empty() { None } else { Some(read_number(poly61, "The key of poly61")?) },
        })
    }
}
