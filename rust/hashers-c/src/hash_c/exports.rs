//! The calls of `c/hashers.h` over the erased functions, written by rust/erase. This file alone has unsafe code.
use super::block::BlockState;
use super::chunks::Cutting;
use super::numbers::{MapKey, NumberKey};
use super::spooky::{SpookyState, Words};
use super::*;
use hashers_proved::hash_keyed::poly61::Poly61Place;
use hashers_proved::hash_ring::points::Point;
use hashers_proved::hash_xxh3::Xxh3Place;

/// So many items from there on. Where there are none, any pointer will do.
unsafe fn slice<'a, T>(at: *const T, count: usize) -> &'a [T] {
    if count == 0 {
        return &[];
    }
    // SAFETY: the caller says that so many items can be read there, which nobody writes during the call.
    unsafe { core::slice::from_raw_parts(at, count) }
}

/// The same, to be written.
unsafe fn slice_mut<'a, T>(at: *mut T, count: usize) -> &'a mut [T] {
    if count == 0 {
        return &mut [];
    }
    // SAFETY: the caller says that so many items can be written there, which nothing else reaches during the call.
    unsafe { core::slice::from_raw_parts_mut(at, count) }
}

/// See `hashers.h`.
///
/// # Safety
///
/// Each pointer and its count are so many items that nothing else writes during the call.
#[no_mangle]
pub unsafe extern "C" fn hashers_xxh32_seeded(text: *const u8, text_count: usize, seed: u32) -> u64 {
    // SAFETY: as said above.
    unsafe { block::hashers_xxh32_seeded(slice(text, text_count), seed) }
}

/// See `hashers.h`.
///
/// # Safety
///
/// Each pointer and its count are so many items that nothing else writes during the call.
#[no_mangle]
pub unsafe extern "C" fn hashers_xxh64_seeded(text: *const u8, text_count: usize, seed: u64) -> u64 {
    // SAFETY: as said above.
    unsafe { block::hashers_xxh64_seeded(slice(text, text_count), seed) }
}

/// See `hashers.h`.
///
/// # Safety
///
/// Each pointer and its count are so many items that nothing else writes during the call.
#[no_mangle]
pub unsafe extern "C" fn hashers_murmur3_32_seeded(text: *const u8, text_count: usize, seed: u32) -> u64 {
    // SAFETY: as said above.
    unsafe { block::hashers_murmur3_32_seeded(slice(text, text_count), seed) }
}

/// See `hashers.h`.
///
/// # Safety
///
/// Each pointer and its count are so many items that nothing else writes during the call.
#[no_mangle]
pub unsafe extern "C" fn hashers_murmur3_128(text: *const u8, text_count: usize, seed: u64) -> Words {
    // SAFETY: as said above.
    unsafe { block::hashers_murmur3_128(slice(text, text_count), seed) }
}

/// See `hashers.h`.
///
/// # Safety
///
/// Each pointer and its count are so many items that nothing else writes during the call.
#[no_mangle]
pub unsafe extern "C" fn hashers_siphash13_keyed(text: *const u8, text_count: usize, k0: u64, k1: u64) -> u64 {
    // SAFETY: as said above.
    unsafe { block::hashers_siphash13_keyed(slice(text, text_count), k0, k1) }
}

/// See `hashers.h`.
///
/// # Safety
///
/// Each pointer and its count are so many items that nothing else writes during the call.
#[no_mangle]
pub unsafe extern "C" fn hashers_siphash24_keyed(text: *const u8, text_count: usize, k0: u64, k1: u64) -> u64 {
    // SAFETY: as said above.
    unsafe { block::hashers_siphash24_keyed(slice(text, text_count), k0, k1) }
}

/// See `hashers.h`.
#[no_mangle]
pub extern "C" fn hashers_xxh32_begin(seed: u32) -> BlockState {
    block::hashers_xxh32_begin(seed)
}

/// See `hashers.h`.
///
/// # Safety
///
/// Each pointer and its count are so many items that nothing else writes during the call.
#[no_mangle]
pub unsafe extern "C" fn hashers_xxh32_write(state: &mut BlockState, bytes: *const u8, bytes_count: usize) {
    // SAFETY: as said above.
    unsafe { block::hashers_xxh32_write(state, slice(bytes, bytes_count)) }
}

/// See `hashers.h`.
#[no_mangle]
pub extern "C" fn hashers_xxh32_finish(state: &BlockState) -> u64 {
    block::hashers_xxh32_finish(state)
}

/// See `hashers.h`.
#[no_mangle]
pub extern "C" fn hashers_xxh64_begin(seed: u64) -> BlockState {
    block::hashers_xxh64_begin(seed)
}

/// See `hashers.h`.
///
/// # Safety
///
/// Each pointer and its count are so many items that nothing else writes during the call.
#[no_mangle]
pub unsafe extern "C" fn hashers_xxh64_write(state: &mut BlockState, bytes: *const u8, bytes_count: usize) {
    // SAFETY: as said above.
    unsafe { block::hashers_xxh64_write(state, slice(bytes, bytes_count)) }
}

/// See `hashers.h`.
#[no_mangle]
pub extern "C" fn hashers_xxh64_finish(state: &BlockState) -> u64 {
    block::hashers_xxh64_finish(state)
}

/// See `hashers.h`.
#[no_mangle]
pub extern "C" fn hashers_murmur3_32_begin(seed: u32) -> BlockState {
    block::hashers_murmur3_32_begin(seed)
}

/// See `hashers.h`.
///
/// # Safety
///
/// Each pointer and its count are so many items that nothing else writes during the call.
#[no_mangle]
pub unsafe extern "C" fn hashers_murmur3_32_write(state: &mut BlockState, bytes: *const u8, bytes_count: usize) {
    // SAFETY: as said above.
    unsafe { block::hashers_murmur3_32_write(state, slice(bytes, bytes_count)) }
}

/// See `hashers.h`.
#[no_mangle]
pub extern "C" fn hashers_murmur3_32_finish(state: &BlockState) -> u64 {
    block::hashers_murmur3_32_finish(state)
}

/// See `hashers.h`.
#[no_mangle]
pub extern "C" fn hashers_murmur3_begin(seed: u64) -> BlockState {
    block::hashers_murmur3_begin(seed)
}

/// See `hashers.h`.
///
/// # Safety
///
/// Each pointer and its count are so many items that nothing else writes during the call.
#[no_mangle]
pub unsafe extern "C" fn hashers_murmur3_write(state: &mut BlockState, bytes: *const u8, bytes_count: usize) {
    // SAFETY: as said above.
    unsafe { block::hashers_murmur3_write(state, slice(bytes, bytes_count)) }
}

/// See `hashers.h`.
#[no_mangle]
pub extern "C" fn hashers_murmur3_finish(state: &BlockState) -> Words {
    block::hashers_murmur3_finish(state)
}

/// See `hashers.h`.
#[no_mangle]
pub extern "C" fn hashers_siphash13_begin(k0: u64, k1: u64) -> BlockState {
    block::hashers_siphash13_begin(k0, k1)
}

/// See `hashers.h`.
///
/// # Safety
///
/// Each pointer and its count are so many items that nothing else writes during the call.
#[no_mangle]
pub unsafe extern "C" fn hashers_siphash13_write(state: &mut BlockState, bytes: *const u8, bytes_count: usize) {
    // SAFETY: as said above.
    unsafe { block::hashers_siphash13_write(state, slice(bytes, bytes_count)) }
}

/// See `hashers.h`.
#[no_mangle]
pub extern "C" fn hashers_siphash13_finish(state: &BlockState) -> u64 {
    block::hashers_siphash13_finish(state)
}

/// See `hashers.h`.
#[no_mangle]
pub extern "C" fn hashers_siphash24_begin(k0: u64, k1: u64) -> BlockState {
    block::hashers_siphash24_begin(k0, k1)
}

/// See `hashers.h`.
///
/// # Safety
///
/// Each pointer and its count are so many items that nothing else writes during the call.
#[no_mangle]
pub unsafe extern "C" fn hashers_siphash24_write(state: &mut BlockState, bytes: *const u8, bytes_count: usize) {
    // SAFETY: as said above.
    unsafe { block::hashers_siphash24_write(state, slice(bytes, bytes_count)) }
}

/// See `hashers.h`.
#[no_mangle]
pub extern "C" fn hashers_siphash24_finish(state: &BlockState) -> u64 {
    block::hashers_siphash24_finish(state)
}

/// See `hashers.h`.
///
/// # Safety
///
/// Each pointer and its count are so many items that nothing else writes during the call.
#[no_mangle]
pub unsafe extern "C" fn hashers_bloom_spooky_lookup3_insert(
    words: *mut u64,
    words_count: usize,
    bits: u64,
    probes: u32,
    key: *const u8,
    key_count: usize,
) -> bool {
    // SAFETY: as said above.
    unsafe { bloom::hashers_bloom_spooky_lookup3_insert(slice_mut(words, words_count), bits, probes, slice(key, key_count)) }
}

/// See `hashers.h`.
///
/// # Safety
///
/// Each pointer and its count are so many items that nothing else writes during the call.
#[no_mangle]
pub unsafe extern "C" fn hashers_bloom_spooky_lookup3_contains(
    words: *const u64,
    words_count: usize,
    bits: u64,
    probes: u32,
    key: *const u8,
    key_count: usize,
) -> bool {
    // SAFETY: as said above.
    unsafe { bloom::hashers_bloom_spooky_lookup3_contains(slice(words, words_count), bits, probes, slice(key, key_count)) }
}

/// See `hashers.h`.
///
/// # Safety
///
/// Each pointer and its count are so many items that nothing else writes during the call.
#[no_mangle]
pub unsafe extern "C" fn hashers_bloom_fnv1a64_lookup3_insert(
    words: *mut u64,
    words_count: usize,
    bits: u64,
    probes: u32,
    key: *const u8,
    key_count: usize,
) -> bool {
    // SAFETY: as said above.
    unsafe { bloom::hashers_bloom_fnv1a64_lookup3_insert(slice_mut(words, words_count), bits, probes, slice(key, key_count)) }
}

/// See `hashers.h`.
///
/// # Safety
///
/// Each pointer and its count are so many items that nothing else writes during the call.
#[no_mangle]
pub unsafe extern "C" fn hashers_bloom_fnv1a64_lookup3_contains(
    words: *const u64,
    words_count: usize,
    bits: u64,
    probes: u32,
    key: *const u8,
    key_count: usize,
) -> bool {
    // SAFETY: as said above.
    unsafe { bloom::hashers_bloom_fnv1a64_lookup3_contains(slice(words, words_count), bits, probes, slice(key, key_count)) }
}

/// See `hashers.h`.
///
/// # Safety
///
/// Each pointer and its count are so many items that nothing else writes during the call.
#[no_mangle]
pub unsafe extern "C" fn hashers_bloom_union(words: *mut u64, words_count: usize, others: *const u64, others_count: usize) -> bool {
    // SAFETY: as said above.
    unsafe { bloom::hashers_bloom_union(slice_mut(words, words_count), slice(others, others_count)) }
}

/// See `hashers.h`.
///
/// # Safety
///
/// Each pointer and its count are so many items that nothing else writes during the call.
#[no_mangle]
pub unsafe extern "C" fn hashers_chunk_ends(
    text: *const u8,
    text_count: usize,
    cutting: &Cutting,
    ends: *mut u64,
    ends_count: usize,
) -> usize {
    // SAFETY: as said above.
    unsafe { chunks::hashers_chunk_ends(slice(text, text_count), cutting, slice_mut(ends, ends_count)) }
}

/// See `hashers.h`.
///
/// # Safety
///
/// Each pointer and its count are so many items that nothing else writes during the call.
#[no_mangle]
pub unsafe extern "C" fn hashers_column32(
    kind: u32,
    bytes: *const u8,
    bytes_count: usize,
    offsets: *const u32,
    offsets_count: usize,
    hashes: *mut u64,
    hashes_count: usize,
) -> bool {
    // SAFETY: as said above.
    unsafe { columns::hashers_column32(kind, slice(bytes, bytes_count), slice(offsets, offsets_count), slice_mut(hashes, hashes_count)) }
}

/// See `hashers.h`.
///
/// # Safety
///
/// Each pointer and its count are so many items that nothing else writes during the call.
#[no_mangle]
pub unsafe extern "C" fn hashers_column64(
    kind: u32,
    bytes: *const u8,
    bytes_count: usize,
    offsets: *const u64,
    offsets_count: usize,
    hashes: *mut u64,
    hashes_count: usize,
) -> bool {
    // SAFETY: as said above.
    unsafe { columns::hashers_column64(kind, slice(bytes, bytes_count), slice(offsets, offsets_count), slice_mut(hashes, hashes_count)) }
}

/// See `hashers.h`.
#[no_mangle]
pub extern "C" fn hashers_sdbm_combine(hash1: u64, hash2: u64, n2: u64) -> u64 {
    combine::hashers_sdbm_combine(hash1, hash2, n2)
}

/// See `hashers.h`.
#[no_mangle]
pub extern "C" fn hashers_loselose_combine(hash1: u64, hash2: u64, n2: u64) -> u64 {
    combine::hashers_loselose_combine(hash1, hash2, n2)
}

/// See `hashers.h`.
#[no_mangle]
pub extern "C" fn hashers_passthrough_combine(hash1: u64, hash2: u64, n2: u64) -> u64 {
    combine::hashers_passthrough_combine(hash1, hash2, n2)
}

/// See `hashers.h`.
#[no_mangle]
pub extern "C" fn hashers_crc32_combine(hash1: u64, hash2: u64, n2: u64) -> u64 {
    combine::hashers_crc32_combine(hash1, hash2, n2)
}

/// See `hashers.h`.
#[no_mangle]
pub extern "C" fn hashers_crc32c_combine(hash1: u64, hash2: u64, n2: u64) -> u64 {
    combine::hashers_crc32c_combine(hash1, hash2, n2)
}

/// See `hashers.h`.
#[no_mangle]
pub extern "C" fn hashers_crc32_ending(hash: u64, answer: u64) -> u32 {
    ending::hashers_crc32_ending(hash, answer)
}

/// See `hashers.h`.
///
/// # Safety
///
/// Each pointer and its count are so many items that nothing else writes during the call.
#[no_mangle]
pub unsafe extern "C" fn hashers_poly61(key: u64, text: *const u8, text_count: usize) -> u64 {
    // SAFETY: as said above.
    unsafe { keyed::hashers_poly61(key, slice(text, text_count)) }
}

/// See `hashers.h`.
///
/// # Safety
///
/// Each pointer and its count are so many items that nothing else writes during the call.
#[no_mangle]
pub unsafe extern "C" fn hashers_poly61_pair(key1: u64, key2: u64, text: *const u8, text_count: usize) -> Words {
    // SAFETY: as said above.
    unsafe { keyed::hashers_poly61_pair(key1, key2, slice(text, text_count)) }
}

/// See `hashers.h`.
///
/// # Safety
///
/// Each pointer and its count are so many items that nothing else writes during the call.
#[no_mangle]
pub unsafe extern "C" fn hashers_poly61_state(key: u64, text: *const u8, text_count: usize) -> u64 {
    // SAFETY: as said above.
    unsafe { keyed::hashers_poly61_state(key, slice(text, text_count)) }
}

/// See `hashers.h`.
#[no_mangle]
pub extern "C" fn hashers_poly61_combine(key: u64, state1: u64, hash2: u64, n2: u64) -> u64 {
    keyed::hashers_poly61_combine(key, state1, hash2, n2)
}

/// See `hashers.h`.
#[no_mangle]
pub extern "C" fn hashers_poly61_begin(key: u64) -> Poly61Place {
    keyed::hashers_poly61_begin(key)
}

/// See `hashers.h`.
///
/// # Safety
///
/// Each pointer and its count are so many items that nothing else writes during the call.
#[no_mangle]
pub unsafe extern "C" fn hashers_poly61_write(place: &mut Poly61Place, bytes: *const u8, bytes_count: usize) {
    // SAFETY: as said above.
    unsafe { keyed::hashers_poly61_write(place, slice(bytes, bytes_count)) }
}

/// See `hashers.h`.
#[no_mangle]
pub extern "C" fn hashers_poly61_finish(place: &Poly61Place) -> u64 {
    keyed::hashers_poly61_finish(place)
}

/// See `hashers.h`.
///
/// # Safety
///
/// Each pointer and its count are so many items that nothing else writes during the call.
#[no_mangle]
pub unsafe extern "C" fn hashers_kind(name: *const u8, name_count: usize) -> u32 {
    // SAFETY: as said above.
    unsafe { kinds::hashers_kind(slice(name, name_count)) }
}

/// See `hashers.h`.
///
/// # Safety
///
/// Each pointer and its count are so many items that nothing else writes during the call.
#[no_mangle]
pub unsafe extern "C" fn hashers_name(kind: u32, name: *mut u8, name_count: usize) -> usize {
    // SAFETY: as said above.
    unsafe { kinds::hashers_name(kind, slice_mut(name, name_count)) }
}

/// See `hashers.h`.
///
/// # Safety
///
/// Each pointer and its count are so many items that nothing else writes during the call.
#[no_mangle]
pub unsafe extern "C" fn hashers_hash(kind: u32, text: *const u8, text_count: usize) -> u64 {
    // SAFETY: as said above.
    unsafe { kinds::hashers_hash(kind, slice(text, text_count)) }
}

/// See `hashers.h`.
///
/// # Safety
///
/// Each pointer and its count are so many items that nothing else writes during the call.
#[no_mangle]
pub unsafe extern "C" fn hashers_lines(kind: u32, bytes: *const u8, bytes_count: usize, hashes: *mut u64, hashes_count: usize) -> usize {
    // SAFETY: as said above.
    unsafe { lines::hashers_lines(kind, slice(bytes, bytes_count), slice_mut(hashes, hashes_count)) }
}

/// See `hashers.h`.
#[no_mangle]
pub extern "C" fn hashers_version() -> u32 {
    super::hashers_version()
}

/// See `hashers.h`.
#[no_mangle]
pub extern "C" fn hashers_number_hash(key: &NumberKey, number: u64) -> u64 {
    numbers::hashers_number_hash(key, number)
}

/// See `hashers.h`.
///
/// # Safety
///
/// Each pointer and its count are so many items that nothing else writes during the call.
#[no_mangle]
pub unsafe extern "C" fn hashers_number_column(
    key: &NumberKey,
    numbers: *const u64,
    numbers_count: usize,
    hashes: *mut u64,
    hashes_count: usize,
) -> bool {
    // SAFETY: as said above.
    unsafe { numbers::hashers_number_column(key, slice(numbers, numbers_count), slice_mut(hashes, hashes_count)) }
}

/// See `hashers.h`.
///
/// # Safety
///
/// Each pointer and its count are so many items that nothing else writes during the call.
#[no_mangle]
pub unsafe extern "C" fn hashers_map_hash(key: &MapKey, bytes: *const u8, bytes_count: usize) -> u64 {
    // SAFETY: as said above.
    unsafe { numbers::hashers_map_hash(key, slice(bytes, bytes_count)) }
}

/// See `hashers.h`.
///
/// # Safety
///
/// Each pointer and its count are so many items that nothing else writes during the call.
#[no_mangle]
pub unsafe extern "C" fn hashers_fnv1a32_write(hash: u64, bytes: *const u8, bytes_count: usize) -> u64 {
    // SAFETY: as said above.
    unsafe { parts::hashers_fnv1a32_write(hash, slice(bytes, bytes_count)) }
}

/// See `hashers.h`.
///
/// # Safety
///
/// Each pointer and its count are so many items that nothing else writes during the call.
#[no_mangle]
pub unsafe extern "C" fn hashers_fnv1a32_unwrite(hash: u64, bytes: *const u8, bytes_count: usize) -> u64 {
    // SAFETY: as said above.
    unsafe { parts::hashers_fnv1a32_unwrite(hash, slice(bytes, bytes_count)) }
}

/// See `hashers.h`.
///
/// # Safety
///
/// Each pointer and its count are so many items that nothing else writes during the call.
#[no_mangle]
pub unsafe extern "C" fn hashers_fnv1a64_write(hash: u64, bytes: *const u8, bytes_count: usize) -> u64 {
    // SAFETY: as said above.
    unsafe { parts::hashers_fnv1a64_write(hash, slice(bytes, bytes_count)) }
}

/// See `hashers.h`.
///
/// # Safety
///
/// Each pointer and its count are so many items that nothing else writes during the call.
#[no_mangle]
pub unsafe extern "C" fn hashers_fnv1a64_unwrite(hash: u64, bytes: *const u8, bytes_count: usize) -> u64 {
    // SAFETY: as said above.
    unsafe { parts::hashers_fnv1a64_unwrite(hash, slice(bytes, bytes_count)) }
}

/// See `hashers.h`.
///
/// # Safety
///
/// Each pointer and its count are so many items that nothing else writes during the call.
#[no_mangle]
pub unsafe extern "C" fn hashers_djb2_write(hash: u64, bytes: *const u8, bytes_count: usize) -> u64 {
    // SAFETY: as said above.
    unsafe { parts::hashers_djb2_write(hash, slice(bytes, bytes_count)) }
}

/// See `hashers.h`.
///
/// # Safety
///
/// Each pointer and its count are so many items that nothing else writes during the call.
#[no_mangle]
pub unsafe extern "C" fn hashers_djb2_unwrite(hash: u64, bytes: *const u8, bytes_count: usize) -> u64 {
    // SAFETY: as said above.
    unsafe { parts::hashers_djb2_unwrite(hash, slice(bytes, bytes_count)) }
}

/// See `hashers.h`.
///
/// # Safety
///
/// Each pointer and its count are so many items that nothing else writes during the call.
#[no_mangle]
pub unsafe extern "C" fn hashers_sdbm_write(hash: u64, bytes: *const u8, bytes_count: usize) -> u64 {
    // SAFETY: as said above.
    unsafe { parts::hashers_sdbm_write(hash, slice(bytes, bytes_count)) }
}

/// See `hashers.h`.
///
/// # Safety
///
/// Each pointer and its count are so many items that nothing else writes during the call.
#[no_mangle]
pub unsafe extern "C" fn hashers_sdbm_unwrite(hash: u64, bytes: *const u8, bytes_count: usize) -> u64 {
    // SAFETY: as said above.
    unsafe { parts::hashers_sdbm_unwrite(hash, slice(bytes, bytes_count)) }
}

/// See `hashers.h`.
///
/// # Safety
///
/// Each pointer and its count are so many items that nothing else writes during the call.
#[no_mangle]
pub unsafe extern "C" fn hashers_loselose_write(hash: u64, bytes: *const u8, bytes_count: usize) -> u64 {
    // SAFETY: as said above.
    unsafe { parts::hashers_loselose_write(hash, slice(bytes, bytes_count)) }
}

/// See `hashers.h`.
///
/// # Safety
///
/// Each pointer and its count are so many items that nothing else writes during the call.
#[no_mangle]
pub unsafe extern "C" fn hashers_loselose_unwrite(hash: u64, bytes: *const u8, bytes_count: usize) -> u64 {
    // SAFETY: as said above.
    unsafe { parts::hashers_loselose_unwrite(hash, slice(bytes, bytes_count)) }
}

/// See `hashers.h`.
///
/// # Safety
///
/// Each pointer and its count are so many items that nothing else writes during the call.
#[no_mangle]
pub unsafe extern "C" fn hashers_bricolage_write(hash: u64, bytes: *const u8, bytes_count: usize) -> u64 {
    // SAFETY: as said above.
    unsafe { parts::hashers_bricolage_write(hash, slice(bytes, bytes_count)) }
}

/// See `hashers.h`.
///
/// # Safety
///
/// Each pointer and its count are so many items that nothing else writes during the call.
#[no_mangle]
pub unsafe extern "C" fn hashers_bricolage_unwrite(hash: u64, bytes: *const u8, bytes_count: usize) -> u64 {
    // SAFETY: as said above.
    unsafe { parts::hashers_bricolage_unwrite(hash, slice(bytes, bytes_count)) }
}

/// See `hashers.h`.
///
/// # Safety
///
/// Each pointer and its count are so many items that nothing else writes during the call.
#[no_mangle]
pub unsafe extern "C" fn hashers_fxhash_write(hash: u64, bytes: *const u8, bytes_count: usize) -> u64 {
    // SAFETY: as said above.
    unsafe { parts::hashers_fxhash_write(hash, slice(bytes, bytes_count)) }
}

/// See `hashers.h`.
///
/// # Safety
///
/// Each pointer and its count are so many items that nothing else writes during the call.
#[no_mangle]
pub unsafe extern "C" fn hashers_fxhash_unwrite(hash: u64, bytes: *const u8, bytes_count: usize) -> u64 {
    // SAFETY: as said above.
    unsafe { parts::hashers_fxhash_unwrite(hash, slice(bytes, bytes_count)) }
}

/// See `hashers.h`.
///
/// # Safety
///
/// Each pointer and its count are so many items that nothing else writes during the call.
#[no_mangle]
pub unsafe extern "C" fn hashers_fxhash32_write(hash: u64, bytes: *const u8, bytes_count: usize) -> u64 {
    // SAFETY: as said above.
    unsafe { parts::hashers_fxhash32_write(hash, slice(bytes, bytes_count)) }
}

/// See `hashers.h`.
///
/// # Safety
///
/// Each pointer and its count are so many items that nothing else writes during the call.
#[no_mangle]
pub unsafe extern "C" fn hashers_fxhash32_unwrite(hash: u64, bytes: *const u8, bytes_count: usize) -> u64 {
    // SAFETY: as said above.
    unsafe { parts::hashers_fxhash32_unwrite(hash, slice(bytes, bytes_count)) }
}

/// See `hashers.h`.
///
/// # Safety
///
/// Each pointer and its count are so many items that nothing else writes during the call.
#[no_mangle]
pub unsafe extern "C" fn hashers_fxhash64_write(hash: u64, bytes: *const u8, bytes_count: usize) -> u64 {
    // SAFETY: as said above.
    unsafe { parts::hashers_fxhash64_write(hash, slice(bytes, bytes_count)) }
}

/// See `hashers.h`.
///
/// # Safety
///
/// Each pointer and its count are so many items that nothing else writes during the call.
#[no_mangle]
pub unsafe extern "C" fn hashers_fxhash64_unwrite(hash: u64, bytes: *const u8, bytes_count: usize) -> u64 {
    // SAFETY: as said above.
    unsafe { parts::hashers_fxhash64_unwrite(hash, slice(bytes, bytes_count)) }
}

/// See `hashers.h`.
///
/// # Safety
///
/// Each pointer and its count are so many items that nothing else writes during the call.
#[no_mangle]
pub unsafe extern "C" fn hashers_fnv1_32_write(hash: u64, bytes: *const u8, bytes_count: usize) -> u64 {
    // SAFETY: as said above.
    unsafe { parts::hashers_fnv1_32_write(hash, slice(bytes, bytes_count)) }
}

/// See `hashers.h`.
///
/// # Safety
///
/// Each pointer and its count are so many items that nothing else writes during the call.
#[no_mangle]
pub unsafe extern "C" fn hashers_fnv1_32_unwrite(hash: u64, bytes: *const u8, bytes_count: usize) -> u64 {
    // SAFETY: as said above.
    unsafe { parts::hashers_fnv1_32_unwrite(hash, slice(bytes, bytes_count)) }
}

/// See `hashers.h`.
///
/// # Safety
///
/// Each pointer and its count are so many items that nothing else writes during the call.
#[no_mangle]
pub unsafe extern "C" fn hashers_fnv1_64_write(hash: u64, bytes: *const u8, bytes_count: usize) -> u64 {
    // SAFETY: as said above.
    unsafe { parts::hashers_fnv1_64_write(hash, slice(bytes, bytes_count)) }
}

/// See `hashers.h`.
///
/// # Safety
///
/// Each pointer and its count are so many items that nothing else writes during the call.
#[no_mangle]
pub unsafe extern "C" fn hashers_fnv1_64_unwrite(hash: u64, bytes: *const u8, bytes_count: usize) -> u64 {
    // SAFETY: as said above.
    unsafe { parts::hashers_fnv1_64_unwrite(hash, slice(bytes, bytes_count)) }
}

/// See `hashers.h`.
///
/// # Safety
///
/// Each pointer and its count are so many items that nothing else writes during the call.
#[no_mangle]
pub unsafe extern "C" fn hashers_djb2_add_write(hash: u64, bytes: *const u8, bytes_count: usize) -> u64 {
    // SAFETY: as said above.
    unsafe { parts::hashers_djb2_add_write(hash, slice(bytes, bytes_count)) }
}

/// See `hashers.h`.
///
/// # Safety
///
/// Each pointer and its count are so many items that nothing else writes during the call.
#[no_mangle]
pub unsafe extern "C" fn hashers_djb2_add_unwrite(hash: u64, bytes: *const u8, bytes_count: usize) -> u64 {
    // SAFETY: as said above.
    unsafe { parts::hashers_djb2_add_unwrite(hash, slice(bytes, bytes_count)) }
}

/// See `hashers.h`.
///
/// # Safety
///
/// Each pointer and its count are so many items that nothing else writes during the call.
#[no_mangle]
pub unsafe extern "C" fn hashers_oaat_write(hash: u64, bytes: *const u8, bytes_count: usize) -> u64 {
    // SAFETY: as said above.
    unsafe { parts::hashers_oaat_write(hash, slice(bytes, bytes_count)) }
}

/// See `hashers.h`.
///
/// # Safety
///
/// Each pointer and its count are so many items that nothing else writes during the call.
#[no_mangle]
pub unsafe extern "C" fn hashers_oaat_state_write(state: u64, bytes: *const u8, bytes_count: usize) -> u64 {
    // SAFETY: as said above.
    unsafe { parts::hashers_oaat_state_write(state, slice(bytes, bytes_count)) }
}

/// See `hashers.h`.
#[no_mangle]
pub extern "C" fn hashers_oaat_state_finish(state: u64) -> u64 {
    parts::hashers_oaat_state_finish(state)
}

/// See `hashers.h`.
///
/// # Safety
///
/// Each pointer and its count are so many items that nothing else writes during the call.
#[no_mangle]
pub unsafe extern "C" fn hashers_oaat_unwrite(hash: u64, bytes: *const u8, bytes_count: usize) -> u64 {
    // SAFETY: as said above.
    unsafe { parts::hashers_oaat_unwrite(hash, slice(bytes, bytes_count)) }
}

/// See `hashers.h`.
///
/// # Safety
///
/// Each pointer and its count are so many items that nothing else writes during the call.
#[no_mangle]
pub unsafe extern "C" fn hashers_lookup3_write(hash: u64, piece: *const u8, piece_count: usize) -> u64 {
    // SAFETY: as said above.
    unsafe { parts::hashers_lookup3_write(hash, slice(piece, piece_count)) }
}

/// See `hashers.h`.
///
/// # Safety
///
/// Each pointer and its count are so many items that nothing else writes during the call.
#[no_mangle]
pub unsafe extern "C" fn hashers_passthrough_write(hash: u64, bytes: *const u8, bytes_count: usize) -> u64 {
    // SAFETY: as said above.
    unsafe { parts::hashers_passthrough_write(hash, slice(bytes, bytes_count)) }
}

/// See `hashers.h`.
///
/// # Safety
///
/// Each pointer and its count are so many items that nothing else writes during the call.
#[no_mangle]
pub unsafe extern "C" fn hashers_null_write(_hash: u64, bytes: *const u8, bytes_count: usize) -> u64 {
    // SAFETY: as said above.
    unsafe { parts::hashers_null_write(_hash, slice(bytes, bytes_count)) }
}

/// See `hashers.h`.
///
/// # Safety
///
/// Each pointer and its count are so many items that nothing else writes during the call.
#[no_mangle]
pub unsafe extern "C" fn hashers_joaat_write(hash: u64, bytes: *const u8, bytes_count: usize) -> u64 {
    // SAFETY: as said above.
    unsafe { parts::hashers_joaat_write(hash, slice(bytes, bytes_count)) }
}

/// See `hashers.h`.
///
/// # Safety
///
/// Each pointer and its count are so many items that nothing else writes during the call.
#[no_mangle]
pub unsafe extern "C" fn hashers_joaat_unwrite(hash: u64, bytes: *const u8, bytes_count: usize) -> u64 {
    // SAFETY: as said above.
    unsafe { parts::hashers_joaat_unwrite(hash, slice(bytes, bytes_count)) }
}

/// See `hashers.h`.
///
/// # Safety
///
/// Each pointer and its count are so many items that nothing else writes during the call.
#[no_mangle]
pub unsafe extern "C" fn hashers_crc32_write(hash: u64, bytes: *const u8, bytes_count: usize) -> u64 {
    // SAFETY: as said above.
    unsafe { parts::hashers_crc32_write(hash, slice(bytes, bytes_count)) }
}

/// See `hashers.h`.
///
/// # Safety
///
/// Each pointer and its count are so many items that nothing else writes during the call.
#[no_mangle]
pub unsafe extern "C" fn hashers_crc32_unwrite(hash: u64, bytes: *const u8, bytes_count: usize) -> u64 {
    // SAFETY: as said above.
    unsafe { parts::hashers_crc32_unwrite(hash, slice(bytes, bytes_count)) }
}

/// See `hashers.h`.
///
/// # Safety
///
/// Each pointer and its count are so many items that nothing else writes during the call.
#[no_mangle]
pub unsafe extern "C" fn hashers_crc32c_write(hash: u64, bytes: *const u8, bytes_count: usize) -> u64 {
    // SAFETY: as said above.
    unsafe { parts::hashers_crc32c_write(hash, slice(bytes, bytes_count)) }
}

/// See `hashers.h`.
///
/// # Safety
///
/// Each pointer and its count are so many items that nothing else writes during the call.
#[no_mangle]
pub unsafe extern "C" fn hashers_crc32c_unwrite(hash: u64, bytes: *const u8, bytes_count: usize) -> u64 {
    // SAFETY: as said above.
    unsafe { parts::hashers_crc32c_unwrite(hash, slice(bytes, bytes_count)) }
}

/// See `hashers.h`.
///
/// # Safety
///
/// Each pointer and its count are so many items that nothing else writes during the call.
#[no_mangle]
pub unsafe extern "C" fn hashers_elf_write(hash: u64, bytes: *const u8, bytes_count: usize) -> u64 {
    // SAFETY: as said above.
    unsafe { parts::hashers_elf_write(hash, slice(bytes, bytes_count)) }
}

/// See `hashers.h`.
///
/// # Safety
///
/// Each pointer and its count are so many items that nothing else writes during the call.
#[no_mangle]
pub unsafe extern "C" fn hashers_ring_points(
    kind: u32,
    text: *mut u8,
    text_count: usize,
    node: usize,
    points: *mut Point,
    points_count: usize,
) -> bool {
    // SAFETY: as said above.
    unsafe { ring::hashers_ring_points(kind, slice_mut(text, text_count), node, slice_mut(points, points_count)) }
}

/// See `hashers.h`.
///
/// # Safety
///
/// Each pointer and its count are so many items that nothing else writes during the call.
#[no_mangle]
pub unsafe extern "C" fn hashers_ring_sort(points: *mut Point, points_count: usize) {
    // SAFETY: as said above.
    unsafe { ring::hashers_ring_sort(slice_mut(points, points_count)) }
}

/// See `hashers.h`.
///
/// # Safety
///
/// Each pointer and its count are so many items that nothing else writes during the call.
#[no_mangle]
pub unsafe extern "C" fn hashers_ring_add(
    points: *mut Point,
    points_count: usize,
    added: *const Point,
    added_count: usize,
    node: usize,
) -> bool {
    // SAFETY: as said above.
    unsafe { ring::hashers_ring_add(slice_mut(points, points_count), slice(added, added_count), node) }
}

/// See `hashers.h`.
///
/// # Safety
///
/// Each pointer and its count are so many items that nothing else writes during the call.
#[no_mangle]
pub unsafe extern "C" fn hashers_ring_remove(points: *mut Point, points_count: usize, node: usize) -> usize {
    // SAFETY: as said above.
    unsafe { ring::hashers_ring_remove(slice_mut(points, points_count), node) }
}

/// See `hashers.h`.
///
/// # Safety
///
/// Each pointer and its count are so many items that nothing else writes during the call.
#[no_mangle]
pub unsafe extern "C" fn hashers_ring_owner(points: *const Point, points_count: usize, place: u64) -> usize {
    // SAFETY: as said above.
    unsafe { ring::hashers_ring_owner(slice(points, points_count), place) }
}

/// See `hashers.h`.
///
/// # Safety
///
/// Each pointer and its count are so many items that nothing else writes during the call.
#[no_mangle]
pub unsafe extern "C" fn hashers_ring_owners(
    points: *const Point,
    points_count: usize,
    place: u64,
    nodes: *mut usize,
    nodes_count: usize,
) -> usize {
    // SAFETY: as said above.
    unsafe { ring::hashers_ring_owners(slice(points, points_count), place, slice_mut(nodes, nodes_count)) }
}

/// See `hashers.h`.
///
/// # Safety
///
/// Each pointer and its count are so many items that nothing else writes during the call.
#[no_mangle]
pub unsafe extern "C" fn hashers_spooky128(text: *const u8, text_count: usize, seed1: u64, seed2: u64) -> Words {
    // SAFETY: as said above.
    unsafe { spooky::hashers_spooky128(slice(text, text_count), seed1, seed2) }
}

/// See `hashers.h`.
///
/// # Safety
///
/// Each pointer and its count are so many items that nothing else writes during the call.
#[no_mangle]
pub unsafe extern "C" fn hashers_spooky128_v1(text: *const u8, text_count: usize, seed1: u64, seed2: u64) -> Words {
    // SAFETY: as said above.
    unsafe { spooky::hashers_spooky128_v1(slice(text, text_count), seed1, seed2) }
}

/// See `hashers.h`.
#[no_mangle]
pub extern "C" fn hashers_spooky_begin(seed1: u64, seed2: u64) -> SpookyState {
    spooky::hashers_spooky_begin(seed1, seed2)
}

/// See `hashers.h`.
///
/// # Safety
///
/// Each pointer and its count are so many items that nothing else writes during the call.
#[no_mangle]
pub unsafe extern "C" fn hashers_spooky_write(state: &mut SpookyState, bytes: *const u8, bytes_count: usize) {
    // SAFETY: as said above.
    unsafe { spooky::hashers_spooky_write(state, slice(bytes, bytes_count)) }
}

/// See `hashers.h`.
#[no_mangle]
pub extern "C" fn hashers_spooky_finish(state: &SpookyState) -> Words {
    spooky::hashers_spooky_finish(state)
}

/// See `hashers.h`.
#[no_mangle]
pub extern "C" fn hashers_spooky_finish_v1(state: &SpookyState) -> Words {
    spooky::hashers_spooky_finish_v1(state)
}

/// See `hashers.h`.
///
/// # Safety
///
/// Each pointer and its count are so many items that nothing else writes during the call.
#[no_mangle]
pub unsafe extern "C" fn hashers_fnv1a32(text: *const u8, text_count: usize) -> u64 {
    // SAFETY: as said above.
    unsafe { whole::hashers_fnv1a32(slice(text, text_count)) }
}

/// See `hashers.h`.
///
/// # Safety
///
/// Each pointer and its count are so many items that nothing else writes during the call.
#[no_mangle]
pub unsafe extern "C" fn hashers_fnv1a64(text: *const u8, text_count: usize) -> u64 {
    // SAFETY: as said above.
    unsafe { whole::hashers_fnv1a64(slice(text, text_count)) }
}

/// See `hashers.h`.
///
/// # Safety
///
/// Each pointer and its count are so many items that nothing else writes during the call.
#[no_mangle]
pub unsafe extern "C" fn hashers_djb2(text: *const u8, text_count: usize) -> u64 {
    // SAFETY: as said above.
    unsafe { whole::hashers_djb2(slice(text, text_count)) }
}

/// See `hashers.h`.
///
/// # Safety
///
/// Each pointer and its count are so many items that nothing else writes during the call.
#[no_mangle]
pub unsafe extern "C" fn hashers_sdbm(text: *const u8, text_count: usize) -> u64 {
    // SAFETY: as said above.
    unsafe { whole::hashers_sdbm(slice(text, text_count)) }
}

/// See `hashers.h`.
///
/// # Safety
///
/// Each pointer and its count are so many items that nothing else writes during the call.
#[no_mangle]
pub unsafe extern "C" fn hashers_loselose(text: *const u8, text_count: usize) -> u64 {
    // SAFETY: as said above.
    unsafe { whole::hashers_loselose(slice(text, text_count)) }
}

/// See `hashers.h`.
///
/// # Safety
///
/// Each pointer and its count are so many items that nothing else writes during the call.
#[no_mangle]
pub unsafe extern "C" fn hashers_bricolage(text: *const u8, text_count: usize) -> u64 {
    // SAFETY: as said above.
    unsafe { whole::hashers_bricolage(slice(text, text_count)) }
}

/// See `hashers.h`.
///
/// # Safety
///
/// Each pointer and its count are so many items that nothing else writes during the call.
#[no_mangle]
pub unsafe extern "C" fn hashers_oaat(text: *const u8, text_count: usize) -> u64 {
    // SAFETY: as said above.
    unsafe { whole::hashers_oaat(slice(text, text_count)) }
}

/// See `hashers.h`.
///
/// # Safety
///
/// Each pointer and its count are so many items that nothing else writes during the call.
#[no_mangle]
pub unsafe extern "C" fn hashers_lookup3(text: *const u8, text_count: usize) -> u64 {
    // SAFETY: as said above.
    unsafe { whole::hashers_lookup3(slice(text, text_count)) }
}

/// See `hashers.h`.
///
/// # Safety
///
/// Each pointer and its count are so many items that nothing else writes during the call.
#[no_mangle]
pub unsafe extern "C" fn hashers_spooky(text: *const u8, text_count: usize) -> u64 {
    // SAFETY: as said above.
    unsafe { whole::hashers_spooky(slice(text, text_count)) }
}

/// See `hashers.h`.
///
/// # Safety
///
/// Each pointer and its count are so many items that nothing else writes during the call.
#[no_mangle]
pub unsafe extern "C" fn hashers_spooky_v1(text: *const u8, text_count: usize) -> u64 {
    // SAFETY: as said above.
    unsafe { whole::hashers_spooky_v1(slice(text, text_count)) }
}

/// See `hashers.h`.
///
/// # Safety
///
/// Each pointer and its count are so many items that nothing else writes during the call.
#[no_mangle]
pub unsafe extern "C" fn hashers_passthrough(text: *const u8, text_count: usize) -> u64 {
    // SAFETY: as said above.
    unsafe { whole::hashers_passthrough(slice(text, text_count)) }
}

/// See `hashers.h`.
///
/// # Safety
///
/// Each pointer and its count are so many items that nothing else writes during the call.
#[no_mangle]
pub unsafe extern "C" fn hashers_fxhash(text: *const u8, text_count: usize) -> u64 {
    // SAFETY: as said above.
    unsafe { whole::hashers_fxhash(slice(text, text_count)) }
}

/// See `hashers.h`.
///
/// # Safety
///
/// Each pointer and its count are so many items that nothing else writes during the call.
#[no_mangle]
pub unsafe extern "C" fn hashers_fxhash32(text: *const u8, text_count: usize) -> u64 {
    // SAFETY: as said above.
    unsafe { whole::hashers_fxhash32(slice(text, text_count)) }
}

/// See `hashers.h`.
///
/// # Safety
///
/// Each pointer and its count are so many items that nothing else writes during the call.
#[no_mangle]
pub unsafe extern "C" fn hashers_fxhash64(text: *const u8, text_count: usize) -> u64 {
    // SAFETY: as said above.
    unsafe { whole::hashers_fxhash64(slice(text, text_count)) }
}

/// See `hashers.h`.
///
/// # Safety
///
/// Each pointer and its count are so many items that nothing else writes during the call.
#[no_mangle]
pub unsafe extern "C" fn hashers_crc32(text: *const u8, text_count: usize) -> u64 {
    // SAFETY: as said above.
    unsafe { whole::hashers_crc32(slice(text, text_count)) }
}

/// See `hashers.h`.
///
/// # Safety
///
/// Each pointer and its count are so many items that nothing else writes during the call.
#[no_mangle]
pub unsafe extern "C" fn hashers_crc32c(text: *const u8, text_count: usize) -> u64 {
    // SAFETY: as said above.
    unsafe { whole::hashers_crc32c(slice(text, text_count)) }
}

/// See `hashers.h`.
///
/// # Safety
///
/// Each pointer and its count are so many items that nothing else writes during the call.
#[no_mangle]
pub unsafe extern "C" fn hashers_fnv1_32(text: *const u8, text_count: usize) -> u64 {
    // SAFETY: as said above.
    unsafe { whole::hashers_fnv1_32(slice(text, text_count)) }
}

/// See `hashers.h`.
///
/// # Safety
///
/// Each pointer and its count are so many items that nothing else writes during the call.
#[no_mangle]
pub unsafe extern "C" fn hashers_fnv1_64(text: *const u8, text_count: usize) -> u64 {
    // SAFETY: as said above.
    unsafe { whole::hashers_fnv1_64(slice(text, text_count)) }
}

/// See `hashers.h`.
///
/// # Safety
///
/// Each pointer and its count are so many items that nothing else writes during the call.
#[no_mangle]
pub unsafe extern "C" fn hashers_djb2_add(text: *const u8, text_count: usize) -> u64 {
    // SAFETY: as said above.
    unsafe { whole::hashers_djb2_add(slice(text, text_count)) }
}

/// See `hashers.h`.
///
/// # Safety
///
/// Each pointer and its count are so many items that nothing else writes during the call.
#[no_mangle]
pub unsafe extern "C" fn hashers_joaat(text: *const u8, text_count: usize) -> u64 {
    // SAFETY: as said above.
    unsafe { whole::hashers_joaat(slice(text, text_count)) }
}

/// See `hashers.h`.
///
/// # Safety
///
/// Each pointer and its count are so many items that nothing else writes during the call.
#[no_mangle]
pub unsafe extern "C" fn hashers_elf(text: *const u8, text_count: usize) -> u64 {
    // SAFETY: as said above.
    unsafe { whole::hashers_elf(slice(text, text_count)) }
}

/// See `hashers.h`.
///
/// # Safety
///
/// Each pointer and its count are so many items that nothing else writes during the call.
#[no_mangle]
pub unsafe extern "C" fn hashers_null(text: *const u8, text_count: usize) -> u64 {
    // SAFETY: as said above.
    unsafe { whole::hashers_null(slice(text, text_count)) }
}

/// See `hashers.h`.
///
/// # Safety
///
/// Each pointer and its count are so many items that nothing else writes during the call.
#[no_mangle]
pub unsafe extern "C" fn hashers_xxh32(text: *const u8, text_count: usize) -> u64 {
    // SAFETY: as said above.
    unsafe { whole::hashers_xxh32(slice(text, text_count)) }
}

/// See `hashers.h`.
///
/// # Safety
///
/// Each pointer and its count are so many items that nothing else writes during the call.
#[no_mangle]
pub unsafe extern "C" fn hashers_xxh64(text: *const u8, text_count: usize) -> u64 {
    // SAFETY: as said above.
    unsafe { whole::hashers_xxh64(slice(text, text_count)) }
}

/// See `hashers.h`.
///
/// # Safety
///
/// Each pointer and its count are so many items that nothing else writes during the call.
#[no_mangle]
pub unsafe extern "C" fn hashers_murmur3_32(text: *const u8, text_count: usize) -> u64 {
    // SAFETY: as said above.
    unsafe { whole::hashers_murmur3_32(slice(text, text_count)) }
}

/// See `hashers.h`.
///
/// # Safety
///
/// Each pointer and its count are so many items that nothing else writes during the call.
#[no_mangle]
pub unsafe extern "C" fn hashers_murmur3(text: *const u8, text_count: usize) -> u64 {
    // SAFETY: as said above.
    unsafe { whole::hashers_murmur3(slice(text, text_count)) }
}

/// See `hashers.h`.
///
/// # Safety
///
/// Each pointer and its count are so many items that nothing else writes during the call.
#[no_mangle]
pub unsafe extern "C" fn hashers_siphash13(text: *const u8, text_count: usize) -> u64 {
    // SAFETY: as said above.
    unsafe { whole::hashers_siphash13(slice(text, text_count)) }
}

/// See `hashers.h`.
///
/// # Safety
///
/// Each pointer and its count are so many items that nothing else writes during the call.
#[no_mangle]
pub unsafe extern "C" fn hashers_siphash24(text: *const u8, text_count: usize) -> u64 {
    // SAFETY: as said above.
    unsafe { whole::hashers_siphash24(slice(text, text_count)) }
}

/// See `hashers.h`.
///
/// # Safety
///
/// Each pointer and its count are so many items that nothing else writes during the call.
#[no_mangle]
pub unsafe extern "C" fn hashers_xxh3(text: *const u8, text_count: usize) -> u64 {
    // SAFETY: as said above.
    unsafe { whole::hashers_xxh3(slice(text, text_count)) }
}

/// See `hashers.h`.
///
/// # Safety
///
/// Each pointer and its count are so many items that nothing else writes during the call.
#[no_mangle]
pub unsafe extern "C" fn hashers_xxh3_seeded(text: *const u8, text_count: usize, seed: u64) -> u64 {
    // SAFETY: as said above.
    unsafe { xxh3::hashers_xxh3_seeded(slice(text, text_count), seed) }
}

/// See `hashers.h`.
///
/// # Safety
///
/// Each pointer and its count are so many items that nothing else writes during the call.
#[no_mangle]
pub unsafe extern "C" fn hashers_xxh128(text: *const u8, text_count: usize, seed: u64) -> Words {
    // SAFETY: as said above.
    unsafe { xxh3::hashers_xxh128(slice(text, text_count), seed) }
}

/// See `hashers.h`.
#[no_mangle]
pub extern "C" fn hashers_xxh3_begin(seed: u64) -> Xxh3Place {
    xxh3::hashers_xxh3_begin(seed)
}

/// See `hashers.h`.
///
/// # Safety
///
/// Each pointer and its count are so many items that nothing else writes during the call.
#[no_mangle]
pub unsafe extern "C" fn hashers_xxh3_write(place: &mut Xxh3Place, bytes: *const u8, bytes_count: usize) {
    // SAFETY: as said above.
    unsafe { xxh3::hashers_xxh3_write(place, slice(bytes, bytes_count)) }
}

/// See `hashers.h`.
#[no_mangle]
pub extern "C" fn hashers_xxh3_finish(place: &Xxh3Place) -> u64 {
    xxh3::hashers_xxh3_finish(place)
}

/// See `hashers.h`.
#[no_mangle]
pub extern "C" fn hashers_xxh128_finish(place: &Xxh3Place) -> Words {
    xxh3::hashers_xxh128_finish(place)
}
