//! Copies of a few bytes, by parts of fixed lengths: each is a move or two of the machine.

// What follows is the proved text of crates/hash_words/src/copies.rt without its contracts.

/// Writes the bytes into a buffer from the place `at` on.
///
/// The caller has to see to it that:
///
/// ```text
/// at + N ≤ length buffer.old
/// ```
///
/// Proved:
///
/// ```text
/// buffer.new ≡ put_at at bytes.entry buffer.old
/// ```
#[inline(always)]
pub fn put_array<const N: usize>(buffer: &mut [u8], at: usize, bytes: [u8; N]) {
    buffer[at..at + N].copy_from_slice(&bytes);
}

// Writes the first N bytes of a text.
/// The caller has to see to it that:
///
/// ```text
/// fits: at + length text.now ≤ length buffer.old
/// enough: N ≤ length text.now
/// ```
///
/// Proved:
///
/// ```text
/// buffer.new ≡ put_at at (take N text.now) buffer.old
/// ```
#[inline(always)]
fn put_first<const N: usize>(buffer: &mut [u8], at: usize, text: &[u8]) {
    if let Some(first) = text.first_chunk::<N>() {
        put_array(buffer, at, *first);
    }
}

// Writes the last N bytes of a text where all of it would put them.
/// The caller has to see to it that:
///
/// ```text
/// fits: at + length text.now ≤ length buffer.old
/// enough: N ≤ length text.now
/// ```
///
/// Proved:
///
/// ```text
/// buffer.new ≡ put_at (at + (length text.now - N)) (drop (length text.now - N) text.now) buffer.old
/// ```
#[inline(always)]
fn put_last<const N: usize>(buffer: &mut [u8], at: usize, text: &[u8]) {
    if let Some(last) = text.last_chunk::<N>() {
        put_array(buffer, at + (text.len() - N), *last);
    }
}

// Writes a text of N to 2 * N bytes by its first and its last N.
/// The caller has to see to it that:
///
/// ```text
/// fits: at + length text.now ≤ length buffer.old
/// enough: N ≤ length text.now
/// few: length text.now ≤ 2 * N
/// ```
///
/// Proved:
///
/// ```text
/// buffer.new ≡ put_at at text.now buffer.old
/// ```
#[inline(always)]
fn put_ends<const N: usize>(buffer: &mut [u8], at: usize, text: &[u8]) {
    put_first::<N>(buffer, at, text);
    put_last::<N>(buffer, at, text);
}

/// Writes a text into a buffer from the place `at` on: up to 256 bytes by parts of fixed lengths, and a longer one as a whole.
///
/// The caller has to see to it that:
///
/// ```text
/// at + length text.now ≤ length buffer.old
/// ```
///
/// Proved:
///
/// ```text
/// buffer.new ≡ put_at at text.now buffer.old
/// ```
#[inline(always)]
pub fn put<const N: usize>(buffer: &mut [u8; N], at: usize, text: &[u8]) {
    let len = text.len();
    let buffer = &mut buffer[..];
    // a buffer that is smaller needs no code for such texts
    if N > 256 && len > 256 {
        buffer[at..at + len].copy_from_slice(text);
        return;
    }
    if len == 0 {
        return;
    }
    if len >= 16 {
        if len >= 64 {
            if len >= 128 {
                put_ends::<128>(buffer, at, text)
            } else {
                put_ends::<64>(buffer, at, text)
            }
        } else if len >= 32 {
            put_ends::<32>(buffer, at, text)
        } else {
            put_ends::<16>(buffer, at, text)
        }
    } else if len >= 4 {
        if len >= 8 {
            put_ends::<8>(buffer, at, text)
        } else {
            put_ends::<4>(buffer, at, text)
        }
    } else if len >= 2 {
        put_ends::<2>(buffer, at, text)
    } else {
        put_ends::<1>(buffer, at, text)
    }
}
