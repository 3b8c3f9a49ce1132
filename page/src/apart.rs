//! Two texts: where they differ, and which hashes are proved to tell them apart.
use crate::hashes::Hashes;
use crate::seeds::Seeds;
use hashers_proved::laws::{apart_by_one_word_fx32, apart_by_one_word_fx64, first_difference};
use hashers_proved::{blocks::*, jenkins::*, laws::*, more::windows::*, more::*, oz::*, pigeon::*, xxh3::*};

/// A test of two texts, and the window: where texts differ of which it says that their hashes do.
type Law = (fn(&[u8], &[u8]) -> bool, &'static str);

fn apart_fx64(x: &[u8], y: &[u8]) -> bool {
    apart_by_one_word_fx64(&[x], &[y])
}

fn apart_fx32(x: &[u8], y: &[u8]) -> bool {
    apart_by_one_word_fx32(&[x], &[y])
}

/// The laws of the hash of that name.
fn laws_of(name: &str) -> &'static [Law] {
    match name {
        // declared: laws
        "fnv1a32" => &[(apart_fnv32, "2 bytes")],
        "fnv1a64" => &[(apart_fnv64, "3 bytes")],
        "djb2" => &[(apart_djb2, "6 low"), (apart_by_one::<DJB2Hasher>, "1 byte")],
        "sdbm" => &[(apart_sdbm, "3 bytes")],
        "loselose" => &[(apart_by_one::<LoseLoseHasher>, "1 byte")],
        "bricolage" => &[(apart_by_one::<Bricolage>, "1 byte")],
        "oaat" => &[(apart_by_one::<OAATHasher>, "1 byte")],
        "fxhash" => &[(apart_fx64, "fx 8")],
        "fxhash32" => &[(apart_fx32, "fx 4")],
        "fxhash64" => &[(apart_fx64, "fx 8")],
        "crc32" => &[(apart_crc32_bits, "32 bits")],
        "crc32c" => &[(apart_crc32c_bits, "32 bits")],
        "fnv1_32" => &[(apart_fnv1_32, "2 bytes")],
        "fnv1_64" => &[(apart_fnv1_64, "3 bytes")],
        "djb2_add" => &[(apart_djb2_add, "6 low"), (apart_by_one::<Djb2AddHasher>, "1 byte")],
        "joaat" => &[(apart_by_one::<JoaatHasher>, "1 byte")],
        "xxh32" => &[(apart_by_word_xxh32, "word 4")],
        "xxh64" => &[(apart_by_word_xxh64, "last 8")],
        "murmur3_32" => &[(apart_by_word_murmur3_32, "word 4, end")],
        "xxh3" => &[(apart_xxh3, "up to 8")],
        "murmur3_128" => &[(apart_by_block_murmur3_128, "block 16, end")],
        "xxh128" => &[(apart_xxh128, "up to 16")],
        // end of declared
        _ => &[],
    }
}

/// When two texts differ only there.
fn sentence_of(window: &str) -> &'static str {
    match window {
        // declared: windows
        "1 byte" => "They have one length and differ in one byte.",
        "2 bytes" => "They have one length and differ only within 2 adjacent bytes.",
        "3 bytes" => "They have one length and differ only within 3 adjacent bytes.",
        "6 low" => "They have one length and differ only within 6 adjacent bytes, and there only in the low 5 bits.",
        "32 bits" => "They have one length and differ only within 32 adjacent bits.",
        "fx 8" => "They have one length and differ only in one word of fx: 8 bytes, and after these 4 and then single ones.",
        "fx 4" => "They have one length and differ only in one word of fx: 4 bytes, and after these single ones.",
        "word 4" => "They have one length and differ only in one aligned word of 4 bytes.",
        "word 4, end" => "They have one length and differ only in one aligned word of 4 bytes, or after these words.",
        "last 8" => "They have one length and differ only in one aligned word of 8 bytes, after the whole blocks of 32.",
        "block 16, end" => "They have one length and differ only in one aligned block of 16 bytes, or after these blocks.",
        "up to 8" => "They differ, and both have 1 to 3 bytes, or one length of 4 to 8 bytes.",
        "up to 16" => "They differ, and have one length of at most 16 bytes.",
        "any" => "",
        // end of declared
        _ => "",
    }
}

fn hashes_of(text: &[u8]) -> Hashes {
    let mut hashes = Hashes::under(&Seeds::default());
    hashes.write(text);
    hashes
}

fn bytes(count: usize) -> String {
    format!("{count} byte{}", if count == 1 { "" } else { "s" })
}

/// Where they differ, in a sentence.
fn difference(x: &[u8], y: &[u8]) -> String {
    if x == y {
        return format!("The texts are equal: {}.", bytes(x.len()));
    }
    let common = x.len().min(y.len());
    let (front, other) = (&x[..common], &y[..common]);
    let lengths = if x.len() == y.len() {
        format!("Both have {}.", bytes(common))
    } else {
        format!("The first has {}, the second {}.", bytes(x.len()), bytes(y.len()))
    };
    let Some(first) = first_difference(front, other) else {
        return format!("{lengths} The longer one begins with the shorter one.");
    };
    let apart = front.iter().zip(other).filter(|(a, b)| a != b).count();
    let last = front.iter().zip(other).rposition(|(a, b)| a != b).unwrap_or(first);
    let where_to =
        if apart == 1 { format!("in one byte, number {first}") } else { format!("in {apart} bytes, between number {first} and {last}") };
    format!("{lengths} They differ {where_to}, counted from 0.")
}

/// The places of the bytes that differ, each with both bytes in hexadecimal: the first of them.
fn places(x: &[u8], y: &[u8]) -> String {
    let byte = |text: &[u8], at: usize| text.get(at).map_or("none".to_string(), |byte| format!("{byte:02x}"));
    let apart = (0..x.len().max(y.len())).filter(|at| x.get(*at) != y.get(*at));
    let cells: Vec<String> = apart.take(16).map(|at| format!("{at}: {} {}", byte(x, at), byte(y, at))).collect();
    cells.join("\t")
}

/// The sentence, the places, and a line for each hash: its name, whether a law tells the texts apart, the law, and the two hashes.
pub fn compare(x: &[u8], y: &[u8]) -> String {
    let (one, other) = (hashes_of(x), hashes_of(y));
    let mut said = format!("{}\n{}", difference(x, y), places(x, y));
    let (rows, answers, others) = (one.rows(), one.answers(), other.answers());
    for ((row, answer), other) in rows.lines().zip(answers.split('\n')).zip(others.split('\n')) {
        let name = row.split('\t').next().unwrap_or("");
        let hex = |cells: &str| cells.split('\t').next_back().unwrap_or("").to_string();
        if hex(answer).is_empty() {
            continue;
        }
        let law = laws_of(name).iter().find(|law| law.0(x, y));
        let (sure, sentence) = law.map_or(("no", ""), |law| ("yes", sentence_of(law.1)));
        said += &format!("\n{name}\t{sure}\t{sentence}\t{}\t{}", hex(answer), hex(other));
    }
    said
}
