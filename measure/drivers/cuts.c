// Cuts a file in memory into chunks, by libhashers and by the gear hash in C, by turns.
//
//     cuts times FILE TURNS      a line for each turn and side: its name, and the seconds of processor time
//     cuts lengths FILE          the lengths of the chunks, a line each
//
// SIDES has a SIDE(NAME) for each time that gear.c was compiled. All sides are to make the same chunks. PAD bytes stand in front of the
// code: a short loop's time depends on where it stands.
#include "cuts.h"
#include "hashers.h"
#include <fcntl.h>
#include <stdio.h>
#include <stdlib.h>
#include <string.h>
#include <sys/mman.h>
#include <sys/stat.h>
#include <time.h>

#define WORD(x) #x
#define SKIP(x) ".skip " WORD(x)
__asm__(".text\n.p2align 6\n" SKIP(PAD) "\n");

enum { LEAST = 16 << 10, AVERAGE = 64 << 10, MOST = 256 << 10 };

static const hashers_cutting cutting = {LEAST, AVERAGE, MOST, 1, 2};

static size_t hash_cuts(const struct gear *unused, const uint8_t *text, size_t len, uint64_t *ends, size_t room) {
    (void)unused;
    return hashers_chunk_ends(text, len, &cutting, ends, room);
}

#define SIDE(name) chunks name;
SIDES
#undef SIDE

static const struct side {
    const char *name;
    chunks *cut;
} sides[] = {
#define SIDE(name) {#name, name},
    SIDE(hash_cuts) SIDES
#undef SIDE
};
enum { COUNT = sizeof sides / sizeof *sides };

static struct gear gear = {LEAST, MOST, UINT64_MAX / AVERAGE + 1, {0}};
static uint64_t *ends, *others;
static size_t room;

static double now(void) {
    struct timespec t;
    clock_gettime(CLOCK_PROCESS_CPUTIME_ID, &t);
    return (double)t.tv_sec + (double)t.tv_nsec / 1e9;
}

// Ends where a side makes other chunks than hash_cuts.
static void compare(const uint8_t *text, size_t len, size_t count) {
    for (int i = 1; i < COUNT; i++)
        if (sides[i].cut(&gear, text, len, others, room) != count || memcmp(ends, others, count * sizeof *ends) != 0) {
            fprintf(stderr, "%s makes other chunks\n", sides[i].name);
            exit(1);
        }
}

static void times(const uint8_t *text, size_t len, int turns) {
    for (int turn = 0; turn < turns; turn++)
        for (int i = 0; i < COUNT; i++) {
            const struct side *side = &sides[turn % 2 == 0 ? i : COUNT - 1 - i];
            double start = now();
            side->cut(&gear, text, len, others, room);
            printf("%s %.6f\n", side->name, now() - start);
        }
}

int main(int count, char **words) {
    struct stat about;
    int file = count >= 3 ? open(words[2], O_RDONLY) : -1;
    if (file < 0 || fstat(file, &about) != 0)
        return fprintf(stderr, "usage: cuts times FILE TURNS | cuts lengths FILE\n"), 2;
    size_t len = (size_t)about.st_size;
    const uint8_t *text = mmap(NULL, len, PROT_READ, MAP_PRIVATE | MAP_POPULATE, file, 0);
    room = len / LEAST + 1;
    ends = calloc(room, sizeof *ends), others = calloc(room, sizeof *others);
    if (text == MAP_FAILED || ends == NULL || others == NULL)
        return fprintf(stderr, "no memory for %s\n", words[2]), 1;
    for (int byte = 0; byte < 256; byte++) gear.numbers[byte] = hashers_spooky128(&(uint8_t){byte}, 1, cutting.seed1, cutting.seed2).first;
    size_t made = hash_cuts(&gear, text, len, ends, room);
    compare(text, len, made);
    if (strcmp(words[1], "times") == 0 && count == 4)
        times(text, len, atoi(words[3]));
    else
        for (size_t i = 0; i < made; i++)
            printf("%lu\n", ends[i] - (i > 0 ? ends[i - 1] : 0));
    return 0;
}
