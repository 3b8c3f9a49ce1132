// What the programs over C share: the bytes to hash, runs by turns, and the time of one.
#include <stdint.h>
#include <stdio.h>
#include <stdlib.h>
#include <string.h>
#include <time.h>

// BEHIND is how many bytes this link puts before all code.
#define TEXT_OF(number) #number
#define SKIPPED(number) ".text\n.skip " TEXT_OF(number) ", 0x90\n"
__asm__(SKIPPED(BEHIND));

#define COUNT_OF(list) (sizeof list / sizeof *list)
enum { RUNS = 41, KEYS = 1 << 20 };

typedef uint64_t whole(const void *, size_t);

static int runs;
static unsigned char *keys;
static volatile uint64_t kept;

static double now(void) {
    struct timespec t;
    clock_gettime(CLOCK_MONOTONIC, &t);
    return t.tv_sec * 1e9 + t.tv_nsec;
}

static double least(const double *times, int count) {
    double found = times[0];
    for (int i = 1; i < count; i++) found = times[i] < found ? times[i] : found;
    return found;
}

// Reads how many runs there are to be, at most RUNS, and fills the keys by a xorshift; 0 where the call is another.
static int begin(int count, char **words) {
    runs = count == 2 ? atoi(words[1]) : 0;
    if (runs < 1 || runs > RUNS || !(keys = aligned_alloc(64, KEYS))) return 0;
    uint64_t state = 88172645463325252u;
    for (size_t i = 0; i < KEYS; i++) {
        state ^= state << 13, state ^= state >> 7, state ^= state << 17;
        keys[i] = (unsigned char)(state >> 32);
    }
    return 1;
}

static __attribute__((noinline)) double time_of(whole *of, size_t size, size_t count) {
    uint64_t all = 0;
    double begun = now();
    for (size_t i = 0; i < count; i++) all = (all << 1 | all >> 63) ^ of(keys + i * size, size);
    kept = all;
    return (now() - begun) / count;
}
