// times RUNS: the times of a call of libhashers beside the original crate behind a C call and zlib's CRC-32, by turns in one process.
// Writes a line for each row of the tables of measure/results/c.md, and an empty line between two tables: the name, and behind a tab for
// each cell the least of so many runs, at most 41, in nanoseconds a key, ours and, behind a space, the original's; of a column, that of a
// call for each text. measure/c defines NAMES, which has an X(name) for each name that the original has, RELATIVES, which has one for each other name,
// WRITES, which has one for each of the original's that goes on from a number, and BEHIND, how many bytes stand before all code.
#define XXH_NO_INLINE_HINTS 1
#include "hashers.h"
#include "timing.h"
#include <xxhash.h>
#include <zlib.h>

typedef uint64_t on(uint64_t, const void *, size_t);

#define DECLARED(name) uint64_t original_##name(const void *text, size_t n);
NAMES(DECLARED)

static uint64_t xxh3(const void *text, size_t n) { return XXH3_64bits(text, n); }

static uint64_t zlib_crc32(const void *text, size_t n) { return crc32(0, text, n); }

static const struct row {
    const char *name;
    whole *ours, *other;
} rows[] = {
#define ROW(name) {#name, hashers_##name, original_##name},
    NAMES(ROW)
    {"xxh3 of libxxhash", xxh3, NULL},
};
static const struct row relatives[] = {
#define RELATIVE(name) {#name, hashers_##name, NULL},
    RELATIVES(RELATIVE)
    {"crc32 of zlib", zlib_crc32, NULL},
};
// A key, which the compiler does not know, so that it is taken modulo the prime at each call.
static volatile uint64_t key = 1234567890123456789u;

static uint64_t poly61_at_key(const void *text, size_t n) { return hashers_poly61(key, text, n); }

static uint64_t both_at_keys(const void *text, size_t n) { return hashers_poly61_pair(key, key + 1, text, n).second; }

static uint64_t spooky_seeded(const void *text, size_t n) { return hashers_spooky128(text, n, key, key).first; }

static uint64_t xxh3_seeded(const void *text, size_t n) { return XXH3_64bits_withSeed(text, n, key); }

static const struct row keyed[] = {
    {"poly61", poly61_at_key, NULL},
    {"poly61_pair", both_at_keys, NULL},
    {"spooky128 under seeds", spooky_seeded, NULL},
    {"xxh3 of libxxhash under a seed", xxh3_seeded, NULL},
};

static const size_t some[] = {8, 16, 64, 1 << 20};

static void row(const struct row *r, const size_t *sizes, size_t size_count) {
    static double times[2][RUNS];
    printf("%s", r->name);
    for (size_t s = 0; s < size_count; s++) {
        size_t count = sizes[s] < 800000 ? 800000 / sizes[s] : 1;
        for (int run = 0; run < runs; run++)
            for (int which = 0; which < (r->other ? 2 : 1); which++)
                times[which][run] = time_of(which ? r->other : r->ours, sizes[s], count);
        printf("\t%f", least(times[0], runs));
        if (r->other) printf(" %f", least(times[1], runs));
    }
    putchar('\n');
}

// Writes of 16 bytes behind one another, by the hash or the state alone.
static void writes(const char *name, on *write) {
    static double times[RUNS];
    for (int run = 0; run < runs; run++) {
        uint64_t hash = 1;
        double begin = now();
        for (size_t i = 0; i < 50000; i++) hash = write(hash, keys + i * 16, 16);
        times[run] = (now() - begin) / 50000;
        kept = hash;
    }
    printf("%s_write\t%f\n", name, least(times, runs));
}

// A column of texts in one call, and a call for each.
static void column(const char *name, whole *one) {
    enum { COUNT = 100000, LONGEST = 64 };
    static const size_t sizes[] = {8, 16, LONGEST};
    static uint64_t offsets[COUNT + 1], hashes[COUNT];
    static unsigned char texts[COUNT * LONGEST];
    static double times[2][RUNS];
    uint32_t kind = hashers_kind(name, strlen(name));
    for (size_t i = 0; i < sizeof texts; i++) texts[i] = keys[i % KEYS];
    printf("%s", name);
    for (int s = 0; s < 3; s++) {
        for (size_t i = 0; i <= COUNT; i++) offsets[i] = i * sizes[s];
        for (int run = 0; run < runs; run++) {
            double begin = now();
            kept = hashers_column64(kind, texts, sizeof texts, offsets, COUNT + 1, hashes, COUNT);
            times[0][run] = (now() - begin) / COUNT;
            begin = now();
            for (size_t i = 0; i < COUNT; i++) hashes[i] = one(texts + offsets[i], offsets[i + 1] - offsets[i]);
            times[1][run] = (now() - begin) / COUNT;
        }
        printf("\t%f %f", least(times[0], runs), least(times[1], runs));
    }
    putchar('\n');
}

int main(int count, char **words) {
    if (!begin(count, words)) return fprintf(stderr, "usage: times RUNS\n"), 2;
#define ROWS(list, sizes) for (size_t i = 0; i < COUNT_OF(list); i++) row(list + i, sizes, COUNT_OF(sizes)); putchar('\n');
    ROWS(rows, some) ROWS(relatives, some) ROWS(keyed, some)
#define WRITE(name) writes(#name, hashers_##name##_write);
    WRITES(WRITE) WRITE(oaat_state)
    putchar('\n');
#define COLUMN(name) column(#name, hashers_##name);
    NAMES(COLUMN) RELATIVES(COLUMN)
    return 0;
}
