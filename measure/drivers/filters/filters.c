// Measures our filter, in Rust, beside libbloom, by turns, and counts how many strange keys each pair of hashes takes for
// known ones, in large filters and in small ones. It writes one of the three tables of docs/FILTERS.md to standard output.
#include <bloom.h>
#include <math.h>
#include <stdbool.h>
#include <stdint.h>
#include <stdio.h>
#include <stdlib.h>
#include <string.h>
#include <time.h>

uint64_t measure_filters(const char *pair, const uint8_t *there, size_t there_len, const uint8_t *asked, size_t asked_len, size_t size,
                         size_t rounds, uint64_t bits, uint32_t probes);

// The names of two hashes.
static const char *const pairs[] = {"djb2, sdbm", "fnv1a64, djb2", "fnv1a64, lookup3", "fxhash, fnv1a64", "fxhash, lookup3", "spooky, lookup3"};
enum { PAIRS = sizeof pairs / sizeof *pairs };

// What libbloom finds at 10 bits a key: it takes the share of strange keys, and makes 7 probes of it.
static uint64_t by_libbloom(const uint8_t *there, size_t there_len, const uint8_t *asked, size_t asked_len, size_t size,
                            size_t rounds) {
    struct bloom bloom;
    memset(&bloom, 0, sizeof bloom);
    if (bloom_init(&bloom, (int)(there_len / size), 0.0081925) != 0 || bloom.hashes != 7)
        return UINT64_MAX;
    uint64_t count = 0;
    for (size_t at = 0; at < there_len; at += size)
        bloom_add(&bloom, there + at, (int)size);
    for (size_t round = 0; round < rounds; round++)
        for (size_t at = 0; at < asked_len; at += size)
            count += bloom_check(&bloom, asked + at, (int)size) == 1;
    bloom_free(&bloom);
    return count;
}

// How many of the keys that are asked for are found in a filter of those that are there, by a pair, or by libbloom where there is none.
static uint64_t found(const char *pair, const uint8_t *there, size_t there_len, const uint8_t *asked, size_t asked_len, size_t size,
                      size_t rounds, uint64_t bits) {
    if (pair == NULL)
        return by_libbloom(there, there_len, asked, asked_len, size, rounds);
    return measure_filters(pair, there, there_len, asked, asked_len, size, rounds, bits, 7);
}

// ---- keys
static uint64_t random_state;

static uint64_t random_word(void) { // splitmix64
    uint64_t z = random_state += 0x9e3779b97f4a7c15;
    z = (z ^ z >> 30) * 0xbf58476d1ce4e5b9;
    z = (z ^ z >> 27) * 0x94d049bb133111eb;
    return z ^ z >> 31;
}

// `count` keys of `size` bytes, at least 8: random, or the number from `from` on in 8 bytes, the lowest first, and zeros
static uint8_t *keys(size_t count, size_t size, bool random, uint64_t from) {
    uint8_t *at = calloc(count, size);
    if (at == NULL)
        exit(1);
    for (size_t i = 0; i < count; i++)
        for (size_t k = 0; k + 8 <= size; k += 8) {
            uint64_t word = random ? random_word() : k == 0 ? from + i : 0;
            memcpy(at + i * size + k, &word, 8);
        }
    return at;
}

// The processor time so far, in nanoseconds.
static double now(void) {
    struct timespec t;
    clock_gettime(CLOCK_PROCESS_CPUTIME_ID, &t);
    return (double)t.tv_sec * 1e9 + (double)t.tv_nsec;
}

// ---- false positives
// How many of `count` strange keys are found in a filter of as many keys, in percent, of random keys or of counters.
static double strange_share(const char *pair, size_t count, bool random, uint64_t bits) {
    size_t size = random ? 16 : 8;
    random_state = 1;
    uint8_t *there = keys(count, size, random, 0), *asked = keys(count, size, random, count);
    if (found(pair, there, count * size, there, count * size, size, 1, bits) != count)
        exit(1); // a key was forgotten, or there is no memory
    uint64_t strange = found(pair, there, count * size, asked, count * size, size, 1, bits);
    free(there);
    free(asked);
    return 100.0 * (double)strange / (double)count;
}

static void strange_keys(size_t count) {
    const uint64_t bits[] = {10 * count, 10 * count + 19};
    printf("| pair | random keys, %lu bits | random keys, %lu bits | counters, %lu bits | counters, %lu bits |\n"
           "|---|---:|---:|---:|---:|\n",
           bits[0], bits[1], bits[0], bits[1]);
    for (int i = 0; i < PAIRS; i++) {
        printf("| %s |", pairs[i]);
        for (int random = 1; random >= 0; random--)
            for (int j = 0; j < 2; j++)
                printf(" %.2f |", strange_share(pairs[i], count, random, bits[j]));
        printf("\n");
    }
}

// How many times as many strange keys are found as were asked for, in so many small filters of random keys, of the best number of bits and
// probes for that share.
static double small_share(const char *pair, size_t count, double share, size_t filters) {
    size_t some = (size_t)(share < 1e-5 ? 1000000 : 100000);
    double bits = ceil((double)count * -log2(share) / log(2)), found = 0;
    uint32_t probes = (uint32_t)lround(-log2(share));
    random_state = 3;
    for (size_t i = 0; i < filters; i++) {
        uint8_t *there = keys(count, 16, true, 0), *asked = keys(some, 16, true, 0);
        found += (double)measure_filters(pair, there, count * 16, asked, some * 16, 16, 1, (uint64_t)bits, probes);
        free(there);
        free(asked);
    }
    return found / (double)some / (double)filters / share;
}

static void small(size_t filters) {
    const double shares[] = {1e-2, 1e-4, 1e-6};
    const char *const good[] = {"spooky, lookup3", "fnv1a64, lookup3"};
    printf("| pair | keys | 1 in 100 | 1 in 10000 | 1 in 1000000 |\n|---|---:|---:|---:|---:|\n");
    for (int i = 0; i < 2; i++)
        for (size_t count = 10; count <= 1000; count *= 10) {
            printf("| %s | %zu |", good[i], count);
            for (int j = 0; j < 3; j++)
                printf(" %.2f |", small_share(good[i], count, shares[j], filters));
            printf("\n");
        }
}

// ---- times
// The time of a call over `calls` calls, in nanoseconds.
static double time_of(const char *pair, const uint8_t *there, const uint8_t *asked, size_t len, size_t rounds, uint64_t bits,
                      int calls) {
    double start = now();
    for (int i = 0; i < calls; i++)
        if (found(pair, there, len, asked, rounds == 0 ? 0 : len, 16, rounds, bits) == UINT64_MAX)
            exit(1);
    return (now() - start) / calls;
}

// Nanoseconds a key in each turn: of an insert, of a question for a key that is there, and for a strange one: [0], [1], [2].
enum { TURNS = 21 };
struct times {
    double of[3][TURNS];
};

static void measure(struct times *times, int turn, const char *pair, const uint8_t *there, const uint8_t *strange, size_t count,
                    uint64_t bits, int calls, size_t rounds) {
    double insert = time_of(pair, there, there, count * 16, 0, bits, calls);
    double with_there = time_of(pair, there, there, count * 16, rounds, bits, calls);
    double with_strange = time_of(pair, there, strange, count * 16, rounds, bits, calls);
    times->of[0][turn] = insert / (double)count;
    times->of[1][turn] = (with_there - insert) / (double)(rounds * count);
    times->of[2][turn] = (with_strange - insert) / (double)(rounds * count);
}

static int by_size(const void *a, const void *b) {
    double x = *(const double *)a, y = *(const double *)b;
    return (x > y) - (x < y);
}

static double median(double *of, int turns) {
    qsort(of, (size_t)turns, sizeof *of, by_size);
    return of[turns / 2];
}

static const struct timed {
    const char *name, *pair;
    bool rounded; // ten bits a key, or the power of two at or above that
} timed[] = {
    {"fxhash, fnv1a64", "fxhash, fnv1a64", false},
    {"fxhash, lookup3", "fxhash, lookup3", false},
    {"fnv1a64, lookup3", "fnv1a64, lookup3", false},
    {"fxhash, fnv1a64 at a power of two", "fxhash, fnv1a64", true},
    {"libbloom", NULL, false},
};
enum { TIMED = sizeof timed / sizeof *timed };

static uint64_t bits_for(size_t count, bool rounded) {
    uint64_t bits = 1;
    while (bits < 10 * count)
        bits *= 2;
    return rounded ? bits : 10 * count;
}

static void times(size_t most) {
    const size_t counts[] = {1000, most}, rounds[] = {4, 1};
    static const int turns[] = {TURNS, 3}, calls[] = {100, 1};
    static struct times got[TIMED][2];
    printf("|");
    for (int j = 0; j < 2; j++)
        printf(" | insert, %zu | there, %zu | strange, %zu", counts[j], counts[j], counts[j]);
    printf(" |\n|---|---:|---:|---:|---:|---:|---:|\n");
    for (int j = 0; j < 2; j++) {
        size_t count = counts[j];
        random_state = 2;
        uint8_t *there = keys(count, 16, true, 0), *strange = keys(count, 16, true, 0);
        for (int turn = 0; turn < turns[j]; turn++)
            for (int i = 0; i < TIMED; i++) {
                uint64_t bits = bits_for(count, timed[i].rounded);
                measure(&got[i][j], turn, timed[i].pair, there, strange, count, bits, calls[j], rounds[j]);
            }
        free(there);
        free(strange);
    }
    for (int i = 0; i < TIMED; i++) {
        printf("| %s |", timed[i].name);
        for (int j = 0; j < 2; j++)
            for (int what = 0; what < 3; what++)
                printf("%s%.0f%s", what == 0 ? " " : " | ", median(got[i][j].of[what], turns[j]), what == 2 ? " |" : "");
        printf("\n");
    }
}

int main(int count, char **words) {
    if (count == 3 && strcmp(words[1], "strange") == 0)
        strange_keys(strtoul(words[2], NULL, 10));
    else if (count == 3 && strcmp(words[1], "times") == 0)
        times(strtoul(words[2], NULL, 10));
    else if (count == 3 && strcmp(words[1], "small") == 0)
        small(strtoul(words[2], NULL, 10));
    else
        return fprintf(stderr, "usage: filters strange|times KEYS, or filters small FILTERS\n"), 2;
    return 0;
}
