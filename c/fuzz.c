// A libFuzzer target over libhashers: what two ways to one result must agree in, at inputs that the fuzzer chooses. c/fuzz builds and runs it.
#include "hashers.h"
#include <stdio.h>
#include <stdlib.h>
#include <string.h>

#define HOLDS(that) ((that) ? (void)0 : (fprintf(stderr, "fuzz.c:%d: %s\n", __LINE__, #that), abort()))

// What is left of the fuzzer's bytes, from which numbers are taken; the rest is the input.
typedef struct bytes {
    const unsigned char *at;
    size_t n;
} bytes;

static uint64_t number(bytes *from) {
    uint64_t value = 0;
    size_t n = from->n < 8 ? from->n : 8;
    if (n) memcpy(&value, from->at, n);
    from->at += n, from->n -= n;
    return value;
}

// A copy of the first bytes in a block of just that size, where a read beyond it is seen.
static unsigned char *copy_of(const unsigned char *at, size_t n) {
    unsigned char *copy = malloc(n ? n : 1);
    if (n) memcpy(copy, at, n);
    return copy;
}

static bool are_same(hashers_words x, hashers_words y) {
    return x.first == y.first && x.second == y.second;
}

// The whole against two pieces, and the second piece undone, from the hash of the first and from any number.
#define UNDONE(call, cuts, bits) \
    WRITTEN(call, cuts, bits) \
    HOLDS(call##_unwrite(call##_write(any & UINT##bits##_MAX, piece, m), piece, m) == (any & UINT##bits##_MAX)); \
    HOLDS(call##_write(call##_unwrite(any & UINT##bits##_MAX, piece, m), piece, m) == (any & UINT##bits##_MAX)); \
    HOLDS(call##_unwrite(call##_write(call(text, n), piece, m), piece, m) == call(text, n));
#define WRITTEN(call, cuts, bits) \
    WHOLE(call, cuts, bits) \
    HOLDS(cuts || call##_write(call(text, n), piece, m) == call(both, n + m));
#define WHOLE(call, cuts, bits) HOLDS(hashers_hash(kind++, both, n + m) == call(both, n + m));
#define SEEDED WHOLE
#define KEYED WHOLE

static void pieces(const unsigned char *both, size_t n, size_t m, uint64_t any) {
    const unsigned char *text = both, *piece = both + n;
    uint32_t kind = 0;
#include "hashes.inc"
    HOLDS(kind == HASHERS_KINDS);
}

// The state of a hash from this start after two pieces, finished once between them, against the hash of both.
#define IN_PARTS(state_of, name, write, start, finish, is_that) \
    do { \
        state_of name = start; \
        write(&name, both, n), (void)finish(&name), write(&name, both + n, m); \
        HOLDS(is_that); \
    } while (0)

static void parts(const unsigned char *both, size_t n, size_t m, uint64_t seed, uint64_t other) {
    size_t all = n + m;
    IN_PARTS(hashers_spooky_state, s, hashers_spooky_write, hashers_spooky_begin(seed, other), hashers_spooky_finish,
             are_same(hashers_spooky_finish(&s), hashers_spooky128(both, all, seed, other))
                 && are_same(hashers_spooky_finish_v1(&s), hashers_spooky128_v1(both, all, seed, other)));
    IN_PARTS(hashers_block_state, s, hashers_xxh32_write, hashers_xxh32_begin((uint32_t)seed), hashers_xxh32_finish,
             hashers_xxh32_finish(&s) == hashers_xxh32_seeded(both, all, (uint32_t)seed));
    IN_PARTS(hashers_block_state, s, hashers_xxh64_write, hashers_xxh64_begin(seed), hashers_xxh64_finish,
             hashers_xxh64_finish(&s) == hashers_xxh64_seeded(both, all, seed));
    IN_PARTS(hashers_block_state, s, hashers_murmur3_32_write, hashers_murmur3_32_begin((uint32_t)seed), hashers_murmur3_32_finish,
             hashers_murmur3_32_finish(&s) == hashers_murmur3_32_seeded(both, all, (uint32_t)seed));
    IN_PARTS(hashers_block_state, s, hashers_murmur3_write, hashers_murmur3_begin(seed), hashers_murmur3_finish,
             are_same(hashers_murmur3_finish(&s), hashers_murmur3_128(both, all, seed)));
    IN_PARTS(hashers_block_state, s, hashers_siphash13_write, hashers_siphash13_begin(seed, other), hashers_siphash13_finish,
             hashers_siphash13_finish(&s) == hashers_siphash13_keyed(both, all, seed, other));
    IN_PARTS(hashers_block_state, s, hashers_siphash24_write, hashers_siphash24_begin(seed, other), hashers_siphash24_finish,
             hashers_siphash24_finish(&s) == hashers_siphash24_keyed(both, all, seed, other));
    IN_PARTS(hashers_xxh3_place, s, hashers_xxh3_write, hashers_xxh3_begin(seed), hashers_xxh3_finish,
             hashers_xxh3_finish(&s) == hashers_xxh3_seeded(both, all, seed)
                 && are_same(hashers_xxh128_finish(&s), hashers_xxh128(both, all, seed)));
    IN_PARTS(hashers_poly61_place, s, hashers_poly61_write, hashers_poly61_begin(seed), hashers_poly61_finish,
             hashers_poly61_finish(&s) == hashers_poly61(seed, both, all));
    HOLDS(n % 7 || hashers_poly61_combine(seed, hashers_poly61_state(seed, both, n), hashers_poly61(seed, both + n, m), m)
        == hashers_poly61(seed, both, all));
    HOLDS(hashers_crc32_combine(hashers_crc32(both, n), hashers_crc32(both + n, m), m) == hashers_crc32(both, all));
    HOLDS(hashers_crc32c_combine(hashers_crc32c(both, n), hashers_crc32c(both + n, m), m) == hashers_crc32c(both, all));
    HOLDS(hashers_sdbm_combine(hashers_sdbm(both, n), hashers_sdbm(both + n, m), m) == hashers_sdbm(both, all));
    HOLDS(hashers_loselose_combine(hashers_loselose(both, n), hashers_loselose(both + n, m), m) == hashers_loselose(both, all));
    uint32_t ending = hashers_crc32_ending(hashers_crc32(both, all), (uint32_t)other);
    HOLDS(hashers_crc32_write(hashers_crc32(both, all), &ending, 4) == (uint32_t)other);
}

// States of any bytes, which no begin made: a call reads and writes within them, and ends.
static void any_states(const unsigned char *text, size_t n) {
    size_t sizes[] = {sizeof(hashers_spooky_state), sizeof(hashers_block_state), sizeof(hashers_xxh3_place), sizeof(hashers_poly61_place)};
    for (size_t i = 0; i < 4; i++) {
        unsigned char *state = calloc(1, sizes[i]);
        memcpy(state, text, n < sizes[i] ? n : sizes[i]);
        if (i == 0) hashers_spooky_write((void *)state, text, n), hashers_spooky_finish((void *)state), hashers_spooky_finish_v1((void *)state);
        if (i == 1) hashers_xxh32_write((void *)state, text, n), hashers_murmur3_write((void *)state, text, n);
        if (i == 1) hashers_siphash13_write((void *)state, text, n), hashers_xxh64_finish((void *)state), hashers_murmur3_finish((void *)state);
        if (i == 2) hashers_xxh3_write((void *)state, text, n), hashers_xxh3_finish((void *)state), hashers_xxh128_finish((void *)state);
        if (i == 3) hashers_poly61_write((void *)state, text, n), hashers_poly61_finish((void *)state);
        free(state);
    }
}

// The ends of one call, against those of calls that have room for one, each from the end before it.
static void chunks(const unsigned char *text, size_t n, bytes *from) {
    size_t least = (size_t)(number(from) % 300), average = least + (size_t)(number(from) % 300);
    size_t most = (size_t)(number(from) % 2000) + (number(from) % 8 ? average : 0);
    hashers_cutting cutting = {least, average, most, number(from), number(from)};
    size_t room = n / 64 + 2, count, at = 0;
    uint64_t *ends = calloc(room, sizeof *ends), end;
    count = hashers_chunk_ends(text, n, &cutting, ends, room);
    bool are_sizes = 64 <= least && average <= most;
    HOLDS(are_sizes ? count < room && (count ? ends[count - 1] == n : !n) : !count);
    for (size_t i = 0; i < count; i++, at = end) {
        HOLDS(hashers_chunk_ends(text + at, n - at, &cutting, &end, 1) == 1);
        end += at;
        HOLDS(end == ends[i] && end - at <= most && (i + 1 == count || end - at >= least));
    }
    free(ends);
}

// What was inserted is found, also after a union; words that do not fit the bits change nothing.
static void filters(const unsigned char *text, size_t n, size_t m, bytes *from) {
    uint64_t bits = number(from) % 2000;
    uint32_t probes = (uint32_t)number(from) % 12;
    size_t count = (size_t)(number(from) % 40);
    uint64_t *words = calloc(count + 1, 8), *more = calloc(count + 1, 8);
    bool fits = bits && probes && (bits + 63) / 64 <= count;
    hashers_bloom_spooky_lookup3_insert(words, count, bits, probes, text, n);
    HOLDS(hashers_bloom_spooky_lookup3_contains(words, count, bits, probes, text, n) == fits);
    hashers_bloom_spooky_lookup3_insert(more, count, bits, probes, text + n, m);
    HOLDS(hashers_bloom_union(words, count, more, count) && (!count || !hashers_bloom_union(words, count, more, count - 1)));
    HOLDS(hashers_bloom_spooky_lookup3_contains(words, count, bits, probes, text + n, m) == fits);
    hashers_bloom_fnv1a64_lookup3_insert(more, count, bits, probes, text, n);
    HOLDS(hashers_bloom_fnv1a64_lookup3_contains(more, count, bits, probes, text, n) == fits);
    HOLDS(!words[count] && !more[count]);
    free(words), free(more);
}

// A ring of up to eight nodes: added one by one as sorted at once, the owner by a search from the front, a node removed and put back.
static void rings(const unsigned char *text, size_t n, bytes *from) {
    enum { MOST = 64, EACH = 8 };
    hashers_ring_point ring[MOST] = {{0, 0}}, sorted[MOST] = {{0, 0}}, added[EACH] = {{0, 0}}, kept[MOST];
    size_t nodes = (size_t)(number(from) % 8 + 1), weight = (size_t)(number(from) % EACH + 1), count = 0, owners[8];
    uint32_t kind = (uint32_t)(number(from) % (HASHERS_KINDS + 1));
    uint64_t place = number(from);
    unsigned char *name = malloc(n + 9);
    for (size_t node = 0; node < nodes; node++, count += weight) {
        name[0] = (unsigned char)node;
        if (n) memcpy(name + 1, text, n);
        HOLDS(hashers_ring_points(kind, name, n + 9, node, added, weight) == (kind < HASHERS_KINDS));
        memcpy(sorted + count, added, weight * sizeof *added);
        HOLDS(hashers_ring_add(ring, count + weight, added, weight, node));
    }
    hashers_ring_sort(sorted, count);
    // points at one place stand by the order of their nodes, and one node's are alike
    for (size_t i = 0; kind < HASHERS_KINDS && i < count; i++) HOLDS(ring[i].place == sorted[i].place && ring[i].node == sorted[i].node);
    size_t owner = hashers_ring_owner(ring, count, place), first = 0;
    while (first < count && ring[first].place < place) first++;
    HOLDS(owner == (first < count ? first : 0));
    size_t found = hashers_ring_owners(ring, count, place, owners, 8);
    HOLDS(found && found <= nodes && owners[0] == ring[owner].node);
    for (size_t i = 0; i < found; i++)
        for (size_t k = 0; k < i; k++) HOLDS(owners[i] != owners[k]);
    memcpy(kept, ring, sizeof ring);
    size_t gone = (size_t)(place % nodes), left = hashers_ring_remove(ring, count, gone);
    if (kind < HASHERS_KINDS) {
        name[0] = (unsigned char)gone;
        HOLDS(left == count - weight && hashers_ring_points(kind, name, n + 9, gone, added, weight));
        HOLDS(hashers_ring_add(ring, count, added, weight, gone) && !memcmp(ring, kept, count * sizeof *ring));
    }
    free(name);
}

// Columns and lines against the hash of each.
static void many(const unsigned char *text, size_t n, size_t cut, bytes *from) {
    uint32_t kind = (uint32_t)(number(from) % (HASHERS_KINDS + 1));
    bool is_kind = kind < HASHERS_KINDS;
    uint64_t offsets[4] = {0, cut, cut, n}, hashes[3] = {0}, of_lines[16];
    HOLDS(hashers_column64(kind, text, n, offsets, 4, hashes, 3) == is_kind);
    HOLDS(!is_kind || (hashes[0] == hashers_hash(kind, text, cut) && hashes[1] == hashers_hash(kind, text, 0)
        && hashes[2] == hashers_hash(kind, text + cut, n - cut)));
    offsets[1] = number(from), offsets[2] = number(from);
    hashers_column64(kind, text, n, offsets, 4, hashes, 3);
    size_t count = hashers_lines(kind, text, n, of_lines, 16), at = 0, line = 0;
    for (; is_kind && at < n; line++) {
        const unsigned char *end = memchr(text + at, '\n', n - at);
        size_t length = (end ? (size_t)(end - text) : n) - at;
        HOLDS(line >= 16 || of_lines[line] == hashers_hash(kind, text + at, length));
        at += length + 1;
    }
    HOLDS(count == line);
    char name[16];
    size_t letters = hashers_name(kind, name, sizeof name);
    HOLDS(is_kind ? hashers_kind(name, letters) == kind : !letters);
}

int LLVMFuzzerTestOneInput(const unsigned char *data, size_t size) {
    bytes from = {data, size};
    uint64_t seed = number(&from), other = number(&from), cut = number(&from);
    bytes sizes = from;
    size_t all = from.n, n = (size_t)(cut % (all + 1));
    unsigned char *both = copy_of(from.at, all);
    pieces(both, n, all - n, seed);
    parts(both, n, all - n, seed, other);
    any_states(both, all);
    chunks(both, all, &sizes);
    filters(both, n, all - n, &sizes);
    rings(both, n, &sizes);
    many(both, all, n, &sizes);
    free(both);
    return 0;
}
