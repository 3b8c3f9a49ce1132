// blocks RUNS: the times of XXH3 and of the hashes by the block of libhashers beside those of other libraries of C, by turns in one process:
// libxxhash, the author's MurmurHash3 by clang, and highwayhash's SipHash.
// Writes a line for each row of two tables, whole texts and texts in pieces, and an empty line between them: the name, and behind a tab for
// each cell the least of so many runs, at most 41, in nanoseconds a text or a piece, ours and, behind a space, the other's.
#define XXH_STATIC_LINKING_ONLY
#include "hashers.h"
#include "timing.h"
#include <highwayhash/c_bindings.h>
#include <xxhash.h>

uint32_t murmur3_32_of_author(const void *text, size_t n, uint32_t seed);
void murmur3_128_of_author(const void *text, size_t n, uint64_t seed, uint64_t hash[2]);

// a seed that the compiler does not know
static volatile uint64_t seed = 1234567890123456789u;
static const uint64_t no_key[2];

static uint64_t both(uint64_t first, uint64_t second) { return first ^ second; }
static uint64_t both_of(hashers_words words) { return both(words.first, words.second); }
static uint64_t both_theirs(XXH128_hash_t words) { return both(words.low64, words.high64); }
static uint64_t both_of_author(const void *text, size_t n) {
    uint64_t words[2];
    murmur3_128_of_author(text, n, 0, words);
    return both(words[0], words[1]);
}

#define WHOLE(name, ours, theirs) \
    static uint64_t our_##name(const void *text, size_t n) { return ours; } \
    static uint64_t their_##name(const void *text, size_t n) { return theirs; }
WHOLE(xxh32, hashers_xxh32(text, n), XXH32(text, n, 0))
WHOLE(xxh64, hashers_xxh64(text, n), XXH64(text, n, 0))
WHOLE(xxh3, hashers_xxh3(text, n), XXH3_64bits(text, n))
WHOLE(xxh3_seeded, hashers_xxh3_seeded(text, n, seed), XXH3_64bits_withSeed(text, n, seed))
WHOLE(xxh128, both_of(hashers_xxh128(text, n, 0)), both_theirs(XXH3_128bits(text, n)))
WHOLE(xxh128_seeded, both_of(hashers_xxh128(text, n, seed)), both_theirs(XXH3_128bits_withSeed(text, n, seed)))
WHOLE(murmur3_32, hashers_murmur3_32(text, n), murmur3_32_of_author(text, n, 0))
WHOLE(murmur3_128, both_of(hashers_murmur3_128(text, n, 0)), both_of_author(text, n))
WHOLE(siphash13, hashers_siphash13(text, n), SipHash13C(no_key, text, n))
WHOLE(siphash24, hashers_siphash24(text, n), SipHashC(no_key, text, n))

typedef uint64_t in_pieces(size_t piece, size_t total);
#define PIECES(name, ours_begun, our_write, our_finish, theirs_begun, their_write, their_finish) \
    static __attribute__((noinline)) uint64_t our_##name(size_t piece, size_t total) { \
        ours_begun; \
        for (size_t at = 0; at < total; at += piece) our_write(&state, keys + at, piece); \
        return our_finish(&state); \
    } \
    static __attribute__((noinline)) uint64_t their_##name(size_t piece, size_t total) { \
        theirs_begun; \
        for (size_t at = 0; at < total; at += piece) their_write(&state, keys + at, piece); \
        return their_finish(&state); \
    }
PIECES(xxh32_in_pieces, hashers_block_state state = hashers_xxh32_begin(0), hashers_xxh32_write, hashers_xxh32_finish,
       XXH32_state_t state; XXH32_reset(&state, 0), XXH32_update, XXH32_digest)
PIECES(xxh64_in_pieces, hashers_block_state state = hashers_xxh64_begin(0), hashers_xxh64_write, hashers_xxh64_finish,
       XXH64_state_t state; XXH64_reset(&state, 0), XXH64_update, XXH64_digest)
PIECES(xxh3_in_pieces, hashers_xxh3_place state = hashers_xxh3_begin(0), hashers_xxh3_write, hashers_xxh3_finish,
       XXH3_state_t state; XXH3_64bits_reset(&state), XXH3_64bits_update, XXH3_64bits_digest)
PIECES(xxh3_seeded_in_pieces, hashers_xxh3_place state = hashers_xxh3_begin(seed), hashers_xxh3_write, hashers_xxh3_finish,
       XXH3_state_t state; XXH3_64bits_reset_withSeed(&state, seed), XXH3_64bits_update, XXH3_64bits_digest)

static const struct of_text {
    const char *name;
    whole *sides[2];
} texts[] = {
#define TEXT(name, said) {said, {our_##name, their_##name}},
    TEXT(xxh32, "xxh32") TEXT(xxh64, "xxh64") TEXT(xxh3, "xxh3") TEXT(xxh3_seeded, "xxh3 under a seed") TEXT(xxh128, "xxh128")
    TEXT(xxh128_seeded, "xxh128 under a seed") TEXT(murmur3_32, "murmur3_32") TEXT(murmur3_128, "murmur3_128")
    TEXT(siphash13, "siphash13") TEXT(siphash24, "siphash24")
};
static const struct of_pieces {
    const char *name;
    in_pieces *sides[2];
} pieces[] = {
    TEXT(xxh32_in_pieces, "xxh32") TEXT(xxh64_in_pieces, "xxh64") TEXT(xxh3_in_pieces, "xxh3")
    TEXT(xxh3_seeded_in_pieces, "xxh3 under a seed")
};

static const size_t sizes[] = {4, 8, 16, 32, 64, 128, 160, 200, 240, 256, 1000, 1 << 16, 1 << 20};
static const size_t piece_sizes[] = {1, 4, 8, 10, 16, 31, 64, 100, 200, 1000, 4096, 1 << 16};

static void cell(double times[2][RUNS]) { printf("\t%f %f", least(times[0], runs), least(times[1], runs)); }

static void text_row(const struct of_text *r) {
    static double times[2][RUNS];
    printf("%s", r->name);
    for (size_t s = 0; s < COUNT_OF(sizes); s++) {
        // short runs, so that some are not interrupted
        size_t count = sizes[s] < 1000 ? 100000 / (sizes[s] + 30) : sizes[s] < KEYS ? KEYS / sizes[s] / 16 + 1 : 1;
        for (int turn = 0; turn < 8 * runs; turn++)
            for (int side = 0; side < 2; side++) {
                double time = time_of(r->sides[side], sizes[s], count), *best = &times[side][turn % runs];
                *best = turn < runs || time < *best ? time : *best;
            }
        cell(times);
    }
    putchar('\n');
}

static void piece_row(const struct of_pieces *r) {
    static double times[2][RUNS];
    printf("%s", r->name);
    for (size_t s = 0; s < COUNT_OF(piece_sizes); s++) {
        size_t piece = piece_sizes[s], count = piece < 200 ? 4000 : KEYS / piece / 4 + 1;
        for (int turn = 0; turn < 8 * runs; turn++)
            for (int side = 0; side < 2; side++) {
                double begun = now();
                kept = r->sides[side](piece, piece * count);
                double time = (now() - begun) / count, *best = &times[side][turn % runs];
                *best = turn < runs || time < *best ? time : *best;
            }
        cell(times);
    }
    putchar('\n');
}

int main(int count, char **words) {
    if (!begin(count, words)) return fprintf(stderr, "usage: blocks RUNS\n"), 2;
    for (size_t i = 0; i < COUNT_OF(texts); i++) text_row(texts + i);
    putchar('\n');
    for (size_t i = 0; i < COUNT_OF(pieces); i++) piece_row(pieces + i);
    return 0;
}
