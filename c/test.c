// Calls each function of libhashers and compares what it answers. The last line says how many checks passed and how many failed.
#include "hashers.h"
#include <inttypes.h>
#include <stdio.h>
#include <stdlib.h>
#include <string.h>
#include <sys/mman.h>

_Static_assert(sizeof(hashers_spooky_state) == 312 && _Alignof(hashers_spooky_state) == 8, "the size that the library proves");
_Static_assert(sizeof(hashers_block_state) == 96 && sizeof(hashers_xxh3_place) == 360, "the sizes that the library proves");

static int passed, failed;

static void same(const char *what, uint64_t wanted, uint64_t found) {
    if (wanted == found) {
        passed++;
    } else if (failed++ < 20) {
        printf("%s: wanted %" PRIu64 ", found %" PRIu64 "\n", what, wanted, found);
    }
}

static void same_words(const char *what, hashers_words wanted, hashers_words found) {
    same(what, wanted.first, found.first);
    same(what, wanted.second, found.second);
}

static uint64_t random_state = 88172645463325252u;

static uint64_t random_number(void) {
    random_state ^= random_state << 13, random_state ^= random_state >> 7, random_state ^= random_state << 17;
    return random_state;
}

typedef uint64_t whole(const void *, size_t);
typedef uint64_t on(uint64_t, const void *, size_t);

// What is the same for each name: the whole, the parts, the way back, whether cuts show, and the greatest number of its bits.
static const struct kind {
    const char *name;
    whole *of;
    on *write, *unwrite;
    bool cuts;
    uint64_t greatest;
} kinds[] = {
// what stands behind hashers_
#define NAME(call) (&#call[sizeof "hashers"])
#define UNDONE(call, cuts, bits) {NAME(call), call, call##_write, call##_unwrite, cuts, UINT##bits##_MAX},
#define WRITTEN(call, cuts, bits) {NAME(call), call, call##_write, NULL, cuts, UINT64_MAX},
#define WHOLE(call, cuts, bits) {NAME(call), call, NULL, NULL, cuts, UINT64_MAX},
#define SEEDED WHOLE
#define KEYED WHOLE
#include "hashes.inc"
#undef UNDONE
#undef WRITTEN
#undef WHOLE
#undef SEEDED
#undef KEYED
};
enum { KINDS = sizeof kinds / sizeof *kinds };

static unsigned char text[1000];

// The bytes that hexadecimal digits write; how many there are.
static size_t bytes_of(const char *digits, unsigned char *to) {
    size_t n = 0;
    while (sscanf(digits + 2 * n, "%2hhx", &to[n]) == 1) n++;
    return n;
}

// The hash by its name, from a seed or from the two words of a key.
static hashers_words under(const char *name, uint64_t seed, uint64_t other, const unsigned char *at, size_t n) {
    if (!strcmp(name, "murmur3_128")) return hashers_murmur3_128(at, n, seed);
    if (!strcmp(name, "xxh128")) return hashers_xxh128(at, n, seed);
    uint64_t hash = !strcmp(name, "poly61") ? hashers_poly61(seed, at, n)
        : !strcmp(name, "siphash13") ? hashers_siphash13_keyed(at, n, seed, other)
        : !strcmp(name, "siphash24") ? hashers_siphash24_keyed(at, n, seed, other)
        : !strcmp(name, "xxh32") ? hashers_xxh32_seeded(at, n, (uint32_t)seed)
        : !strcmp(name, "xxh64") ? hashers_xxh64_seeded(at, n, seed)
        : !strcmp(name, "xxh3") ? hashers_xxh3_seeded(at, n, seed)
        : !strcmp(name, "murmur3_32") ? hashers_murmur3_32_seeded(at, n, (uint32_t)seed)
        : hashers_hash(hashers_kind(name, strlen(name)), at, n);
    return (hashers_words){hash, 0};
}

// The lines of vectors.txt: by name, and where they start from nothing by the call of that name.
static void check_vectors(const char *path) {
    char line[9000], name[20], start[40], digits[8000], hash[40];
    unsigned char at[4000], key[16];
    FILE *file = fopen(path, "r");
    same("vectors.txt is there", 1, file != NULL);
    while (file && fgets(line, sizeof line, file)) {
        if (*line == '#' || sscanf(line, "%19s %39s %7999s %39s", name, start, digits, hash) != 4) continue;
        size_t n = bytes_of(digits, at), wide = strlen(hash) > 16;
        uint64_t from[2] = {strtoull(start, NULL, 16), 0}, low = strtoull(hash + (wide ? 16 : 0), NULL, 16);
        if (bytes_of(start, key) == 16) memcpy(from, key, 16);
        hash[16] = 0;
        hashers_words wanted = {low, 0};
        if (wide) wanted = (hashers_words){strtoull(hash, NULL, 16), low};
        if (!strcmp(name, "xxh128")) wanted = (hashers_words){wanted.second, wanted.first};
        same_words(name, wanted, under(name, from[0], from[1], at, n));
        for (const struct kind *k = kinds; k < kinds + KINDS; k++)
            if (!strcmp(k->name, name) && *start == '-') same(name, low, k->of(at, n));
    }
    if (file) fclose(file);
    uint64_t parts = hashers_lookup3_write(hashers_lookup3("a", 1), "b", 1);
    same("lookup3 in parts", (uint64_t)0xfb413b71 << 32 | 0x60ec4574, parts);
    same("a high half", hashers_djb2_write(5381, "a", 1), hashers_djb2_write(5381 | (uint64_t)7 << 32, "a", 1));
}

// One-at-a-time by its state, and by its hash from the same state.
static void check_oaat_state(void) {
    for (size_t n = 0; n < 300; n++) {
        size_t more = n % 37;
        uint64_t any = random_number(), state = hashers_oaat_state_write(0, text, n);
        same("oaat by its state", hashers_oaat(text, n), hashers_oaat_state_finish(state));
        state = hashers_oaat_state_write(state, text + n, more);
        same("oaat by its state in parts", hashers_oaat(text, n + more), hashers_oaat_state_finish(state));
        same("oaat from any state", hashers_oaat_write(hashers_oaat_state_finish(any), text, n),
             hashers_oaat_state_finish(hashers_oaat_state_write(any, text, n)));
        same("oaat's state after nothing", any, hashers_oaat_state_write(any, NULL, 0));
    }
}

// The parts of a text against the whole, and the way back, from hashes of texts and from any number. Where a write can be undone, each
// number of the bits is a hash so far; and where cuts show, some text in two parts has another hash.
static void check_parts(const struct kind *k) {
    uint64_t start = k->of(NULL, 0);
    bool shown = false;
    if (k->unwrite)
        same(k->name, k->greatest, k->write(UINT64_MAX, NULL, 0));
    for (size_t n = 0; n < 300 && k->write; n++) {
        size_t more = n % 37;
        uint64_t parts = k->write(k->of(text, n), text + n, more);
        same(k->name, k->of(text, n), k->write(start, text, n));
        same(k->name, k->of(text, n), k->write(k->of(text, n), NULL, 0));
        shown = shown || parts != k->of(text, n + more);
        if (!k->cuts)
            same(k->name, k->of(text, n + more), parts);
        if (k->unwrite) {
            uint64_t any = random_number(), bits = k->greatest;
            same(k->name, k->of(text, n), k->unwrite(parts, text + n, more));
            same(k->name, any & bits, k->write(k->unwrite(any, text, n), text, n) & bits);
            same(k->name, any & bits, k->unwrite(k->write(any, text, n), text, n) & bits);
        }
    }
    same("whether cuts show", k->cuts, shown);
}

static void check_spooky(void) {
    same("spooky128", hashers_spooky(text, 500), hashers_spooky128(text, 500, 0, 0).first);
    same("spooky128_v1", hashers_spooky_v1(text, 20), hashers_spooky128_v1(text, 20, 0, 0).first);
    for (size_t n = 0; n < 600; n++) {
        hashers_spooky_state s = hashers_spooky_begin(1, 2);
        same_words("spooky of nothing", hashers_spooky128(NULL, 0, 1, 2), hashers_spooky_finish(&s));
        for (size_t at = 0; at < n;) {
            size_t part = 1 + at * 7 % 101;
            if (part > n - at) part = n - at;
            hashers_spooky_write(&s, text + at, part);
            hashers_spooky_write(&s, NULL, 0);
            at += part;
        }
        hashers_spooky_state copy = s;
        same_words("spooky in parts", hashers_spooky128(text, n, 1, 2), hashers_spooky_finish(&s));
        same_words("spooky_v1 in parts", hashers_spooky128_v1(text, n, 1, 2), hashers_spooky_finish_v1(&copy));
    }
}

static hashers_words one(uint64_t word) { return (hashers_words){word, 0}; }
static hashers_words two(hashers_words words) { return words; }
#define IN_WORDS(call) _Generic((call), hashers_words: two, default: one)(call)

// A hash under a seed or a key: each text in parts has the hash of the whole.
#define IN_PARTS(x, whole, finish, ...)                                                                                                \
    for (size_t n = 0; n < 700; n++) {                                                                                                 \
        __typeof__(x##_begin(__VA_ARGS__)) s = x##_begin(__VA_ARGS__), copy;                                                           \
        for (size_t at = 0; at < n;) {                                                                                                 \
            size_t part = 1 + at * 7 % 101;                                                                                            \
            if (part > n - at) part = n - at;                                                                                          \
            x##_write(&s, text + at, part);                                                                                            \
            x##_write(&s, NULL, 0);                                                                                                    \
            at += part;                                                                                                                \
        }                                                                                                                              \
        copy = s;                                                                                                                      \
        same_words(#finish, IN_WORDS(whole(text, n, __VA_ARGS__)), IN_WORDS(finish(&copy)));                                           \
    }

static void check_seeded(void) {
    uint64_t seed = (uint64_t)0x9e3779b1 << 32 | 7, k0 = 0x0706050403020100, k1 = 0x0f0e0d0c0b0a0908;
    same("the low word of xxh128", hashers_xxh3_seeded(text, 500, seed), hashers_xxh128(text, 500, seed).first);
#define hashers_murmur3_seeded hashers_murmur3_128
#define UNDONE(call, cuts, bits)
#define WRITTEN UNDONE
#define WHOLE UNDONE
#define SEEDED(call, cuts, bits)                                                                                                       \
    same(#call " under 0", call(text, 99), IN_WORDS(call##_seeded(text, 99, 0)).first);                                                \
    IN_PARTS(call, call##_seeded, call##_finish, (uint##bits##_t)seed)
#define KEYED(call, cuts, bits)                                                                                                        \
    same(#call " under 0", call(text, 99), call##_keyed(text, 99, 0, 0));                                                              \
    IN_PARTS(call, call##_keyed, call##_finish, k0, k1)
#include "hashes.inc"
    IN_PARTS(hashers_xxh3, hashers_xxh128, hashers_xxh128_finish, seed)
    hashers_xxh3_place zeros = {{0}};
    hashers_xxh3_write(&zeros, text, 300);
    same("xxh3 from zeros", hashers_xxh3(text, 300), hashers_xxh3_finish(&zeros));
}

// A state of one hash is none of another.
static void check_marks(void) {
    hashers_block_state s = hashers_siphash13_begin(1, 2), before = s;
    hashers_siphash24_write(&s, text, 100);
    hashers_xxh64_write(&s, text, 100);
    same("write of another hash", 0, (uint64_t)memcmp(&before, &s, sizeof s));
    same("finish of another hash", 0, hashers_siphash24_finish(&s));
    same_words("finish of murmur3 of another hash", (hashers_words){0, 0}, hashers_murmur3_finish(&s));
}

enum { TEXTS = 40 };

// A column against a call for each text; and offsets that fall, pass the end, or are too many or too few, which write nothing.
static void check_column(whole *of, uint32_t number) {
    uint32_t offsets32[TEXTS + 1];
    uint64_t offsets64[TEXTS + 1], hashes[TEXTS], none[TEXTS] = {0};
    for (uint32_t i = 0; i <= TEXTS; i++) offsets64[i] = offsets32[i] = i * (i + 1) / 2;
    same("column32", 1, hashers_column32(number, text, sizeof text, offsets32, TEXTS + 1, hashes, TEXTS));
    for (size_t i = 0; i < TEXTS; i++) same("column32", of(text + offsets32[i], i + 1), hashes[i]);
    memset(hashes, 0, sizeof hashes);
    same("column64", 1, hashers_column64(number, text, offsets64[TEXTS], offsets64, TEXTS + 1, hashes, TEXTS));
    for (size_t i = 0; i < TEXTS; i++) same("column64", of(text + offsets64[i], i + 1), hashes[i]);
    same("a column of no texts", 1, hashers_column64(number, NULL, 0, offsets64, 1, NULL, 0));
    memset(hashes, 0, sizeof hashes);
    same("past the end", 0, hashers_column64(number, text, offsets64[TEXTS] - 1, offsets64, TEXTS + 1, hashes, TEXTS));
    same("too few offsets", 0, hashers_column64(number, text, sizeof text, offsets64, TEXTS, hashes, TEXTS));
    same("too many offsets", 0, hashers_column32(number, text, sizeof text, offsets32, TEXTS + 1, hashes, TEXTS - 1));
    same("no offsets", 0, hashers_column32(number, text, sizeof text, NULL, 0, NULL, 0));
    offsets32[7] = 0, offsets64[9] = UINT64_MAX;
    same("offsets that fall", 0, hashers_column32(number, text, sizeof text, offsets32, TEXTS + 1, hashes, TEXTS));
    same("a huge offset", 0, hashers_column64(number, text, sizeof text, offsets64, TEXTS + 1, hashes, TEXTS));
    same("what is refused writes nothing", 0, (uint64_t)memcmp(hashes, none, sizeof none));
}

// Lines against a call for each, with more room than lines and with less; and which bytes have which lines.
static void check_lines(whole *of, uint32_t number) {
    unsigned char data[sizeof text];
    uint64_t hashes[sizeof text + 1], few[3] = {7, 7, 7};
    size_t count = 0, from = 0;
    for (size_t i = 0; i < sizeof data; i++) data[i] = text[i] < 20 ? '\n' : text[i];
    size_t found = hashers_lines(number, data, sizeof data, hashes, sizeof text);
    for (size_t i = 0; i < sizeof data; i++)
        if (data[i] == '\n' || i + 1 == sizeof data) {
            size_t n = i - from + (data[i] != '\n');
            same("a line", of(data + from, n), hashes[count++]);
            from = i + 1;
        }
    same("lines", count, found);
    same("lines, with too little room", count, hashers_lines(number, data, sizeof data, few, 2));
    same("the first line", hashes[0], few[0]);
    same("the second line", hashes[1], few[1]);
    same("past the room", 7, few[2]);
    same("lines, with no room", count, hashers_lines(number, data, sizeof data, NULL, 0));
    static const struct {
        const char *text;
        size_t n, lines;
    } ends[] = {{"", 0, 0}, {"\n", 1, 1}, {"a", 1, 1}, {"a\n", 2, 1}, {"a\nb", 3, 2}, {"\n\n", 2, 2}, {"a\r\n\0\n", 5, 2}};
    for (size_t i = 0; i < sizeof ends / sizeof *ends; i++) {
        few[2] = 7;
        same("lines at the end", ends[i].lines, hashers_lines(number, ends[i].text, ends[i].n, few, 3));
        same("no hash of no line", 7, few[2]);
    }
    hashers_lines(number, "a\r\n", 3, few, 1);
    same("a carriage return is of the line", of("a\r", 2), few[0]);
}

typedef bool on_filter(uint64_t *, size_t, uint64_t, uint32_t, const void *, size_t);
typedef bool in_filter(const uint64_t *, size_t, uint64_t, uint32_t, const void *, size_t);

// A filter against its definition: the place of probe i is (first + i * second + (i^3 - i) / 6) mod 2^64 mod bits.
static void check_filter(whole *first, whole *second, on_filter *insert, in_filter *contains) {
    enum { BITS = 1000, WORDS = 16, PROBES = 5 };
    uint64_t words[WORDS + 1] = {0}, wanted[WORDS + 1] = {0}, others[WORDS] = {0};
    for (size_t n = 0; n < 60; n++) {
        uint64_t f = first(text, n), g = second(text, n);
        bool before = true;
        for (uint64_t i = 0; i < PROBES; i++) {
            size_t at = (f + i * g + (i * i * i - i) / 6) % BITS;
            before = before && wanted[at / 64] >> at % 64 & 1;
            wanted[at / 64] |= (uint64_t)1 << at % 64;
        }
        same("contains before", before, contains(words, WORDS, BITS, PROBES, text, n));
        same("insert", !before, insert(words, WORDS, BITS, PROBES, text, n));
        same("insert again", 0, insert(words, WORDS, BITS, PROBES, text, n));
        for (size_t k = 0; k <= n; k++) same("contains", 1, contains(words, WORDS, BITS, PROBES, text, k));
        same("the bits", 0, (uint64_t)memcmp(words, wanted, sizeof words));
    }
    same("no bits", 0, insert(words, WORDS, 0, PROBES, "new", 3) | contains(words, WORDS, 0, PROBES, text, 3));
    same("no probes", 0, insert(words, WORDS, BITS, 0, "new", 3) | contains(words, WORDS, BITS, 0, text, 3));
    same("too few words", 0, insert(words, WORDS - 1, BITS, PROBES, "new", 3) | contains(words, WORDS - 1, BITS, PROBES, text, 3));
    same("no words", 0, insert(NULL, 0, BITS, PROBES, "new", 3) | contains(NULL, 0, UINT64_MAX, PROBES, text, 3));
    same("what is refused changes nothing", 0, (uint64_t)memcmp(words, wanted, sizeof words));
    insert(others, WORDS, BITS, PROBES, "other", 5);
    same("union of other sizes", 0, hashers_bloom_union(words, WORDS + 1, others, WORDS));
    same("a refused union", 0, (uint64_t)memcmp(words, wanted, sizeof words));
    same("union", 1, hashers_bloom_union(words, WORDS, others, WORDS));
    for (int i = 0; i < WORDS; i++) same("united bits", wanted[i] | others[i], words[i]);
    same("contains of a union", 1, contains(words, WORDS, BITS, PROBES, "other", 5) & contains(words, WORDS, BITS, PROBES, text, 9));
}

// Where the first chunk of a text ends, by the definition: the first place from `least` on where the gear hash of the 64 bytes before it is
// low, but no later than `most` and the end.
static size_t first_end(const unsigned char *bytes, size_t n, const hashers_cutting *c) {
    size_t end = n < c->most ? n : c->most;
    for (size_t place = c->least; place < end; place++) {
        uint64_t hash = 0;
        for (size_t i = place - 64; i < place; i++) hash = 2 * hash + hashers_spooky128(bytes + i, 1, c->seed1, c->seed2).first;
        if ((unsigned __int128)hash * c->average >> 64 == 0) return place;
    }
    return end;
}

static void check_chunks(void) {
    enum { SIZE = 5000, ROOM = SIZE / 64 + 1 };
    static unsigned char bytes[SIZE];
    static const hashers_cutting some[] = {{64, 64, 64, 0, 0}, {64, 100, 300, 0, 0}, {100, 100, 5000, 1, 2}, {64, 4000, 9000, 3, 0}};
    for (size_t i = 0; i < SIZE; i++) bytes[i] = (unsigned char)(random_number() >> 32);
    for (size_t k = 0; k < sizeof some / sizeof *some; k++) {
        uint64_t ends[ROOM + 1], few[3] = {7, 7, 7};
        ends[ROOM] = 7;
        size_t count = hashers_chunk_ends(bytes, SIZE, &some[k], ends, ROOM), place = 0;
        for (size_t i = 0; i < count; i++) {
            place += first_end(bytes + place, SIZE - place, &some[k]);
            same("the end of a chunk", place, ends[i]);
        }
        same("the last chunk ends where the text does", SIZE, place);
        same("no end behind the last", 7, ends[ROOM]);
        same("as many ends as there is room for", count < 2 ? count : 2, hashers_chunk_ends(bytes, SIZE, &some[k], few, 2));
        same("the first end", ends[0], few[0]);
        same("past the room", 7, few[2]);
        same("no bytes, no chunk", 0, hashers_chunk_ends(NULL, 0, &some[k], few, 2));
        same("no room", 0, hashers_chunk_ends(bytes, SIZE, &some[k], NULL, 0));
    }
    static const hashers_cutting wrong[] = {{63, 100, 300, 0, 0}, {64, 63, 300, 0, 0}, {64, 100, 99, 0, 0}, {SIZE_MAX, 0, 1, 0, 0}, {0, 0, 0, 0, 0}};
    for (size_t k = 0; k < sizeof wrong / sizeof *wrong; k++) {
        uint64_t end = 7;
        same("sizes that cannot be", 0, hashers_chunk_ends(bytes, SIZE, &wrong[k], &end, 1));
        same("nothing is written", 7, end);
    }
}

// Who owns a place, by the definition: of all points of the nodes that are left the first one at or after the place, round the ring, and of
// points at one place that of the least name. Names are in order here.
enum { NODES = 7, TREES = 3 };
struct ring_node {
    const char *name;
    size_t weight;
};

static size_t owner_of(uint32_t kind, const struct ring_node *nodes, size_t count, unsigned gone, uint64_t place) {
    size_t owner = SIZE_MAX;
    uint64_t nearest = 0;
    for (size_t i = 0; i < count; i++) {
        unsigned char text[40];
        size_t n = strlen(nodes[i].name);
        memcpy(text, nodes[i].name, n);
        for (uint64_t k = 0; k < nodes[i].weight && !(gone >> i & 1); k++) {
            for (int b = 0; b < 8; b++) text[n + b] = (unsigned char)(k >> 8 * b);
            uint64_t way = hashers_hash(kind, text, n + 8) - place;
            if (owner == SIZE_MAX || way < nearest) owner = i, nearest = way;
        }
    }
    return owner;
}

// The owners of places on a ring of these nodes.
static void check_owners(uint32_t kind, const struct ring_node *nodes, size_t count, const hashers_ring_point *points, size_t points_count) {
    for (int turn = 0; turn < 40; turn++) {
        uint64_t place = turn < 4 && points_count ? points[points_count / 2].place + (uint64_t)turn - 1 : random_number();
        size_t found[NODES + 1], many = turn % 4 ? NODES : 2;
        unsigned gone = 0;
        for (size_t i = 0; i <= NODES; i++) found[i] = 77;
        same("as many owners", count < many ? count : many, hashers_ring_owners(points, points_count, place, found, many));
        for (size_t i = 0; i < count && i < many; i++) {
            same("the owner", owner_of(kind, nodes, count, gone, place), found[i]);
            gone |= 1u << found[i];
        }
        same("past the owners", 77, found[count < many ? count : many]);
        if (points_count) same("the first owner", found[0], points[hashers_ring_owner(points, points_count, place)].node);
    }
}

// The points of the node, in an array of their own.
static bool points_of(uint32_t kind, struct ring_node node, size_t at, hashers_ring_point *points) {
    unsigned char text[40];
    size_t n = strlen(node.name);
    memcpy(text, node.name, n);
    return hashers_ring_points(kind, text, n + 8, at, points, node.weight) && memcmp(text, node.name, n) == 0;
}

// Nodes come one by one in another order than that of their names, and go again; and all at once.
static void check_ring(uint32_t kind) {
    static const struct ring_node all[NODES] = {{"", 3}, {"ash", 5}, {"elm", 1}, {"fir", 40}, {"oak", 2}, {"oaks", 9}, {"yew", 17}};
    static const size_t order[NODES] = {3, 6, 0, 2, 5, 1, 4};
    hashers_ring_point points[80], added[40], once[80];
    struct ring_node nodes[NODES];
    size_t count = 0, filled = 0;
    check_owners(kind, all, 0, NULL, 0);
    for (size_t turn = 0; turn < NODES; turn++) {
        struct ring_node node = all[order[turn]];
        size_t at = 0;
        while (at < count && strcmp(nodes[at].name, node.name) < 0) at++;
        same("points", 1, points_of(kind, node, at, added));
        same("added", 1, hashers_ring_add(points, filled + node.weight, added, node.weight, at));
        memmove(nodes + at + 1, nodes + at, (count - at) * sizeof *nodes);
        nodes[at] = node, count++, filled += node.weight;
        check_owners(kind, nodes, count, points, filled);
    }
    for (size_t i = 0, from = 0; i < NODES; from += all[i++].weight) points_of(kind, all[i], i, once + from);
    hashers_ring_sort(once, filled);
    same("all at once", 0, (uint64_t)memcmp(once, points, filled * sizeof *points));
    for (size_t left = NODES; left > 0; left--) {
        size_t at = order[left - 1] % left, less = filled - nodes[at].weight;
        filled = hashers_ring_remove(points, filled, at);
        same("points left", less, filled);
        memmove(nodes + at, nodes + at + 1, (left - 1 - at) * sizeof *nodes);
        check_owners(kind, nodes, left - 1, points, filled);
    }
}

static void check_rings(void) {
    static const uint32_t some[] = {HASHERS_SPOOKY, HASHERS_LOOKUP3, HASHERS_FNV1A64, HASHERS_LOSELOSE, HASHERS_CRC32, HASHERS_NULL};
    for (size_t k = 0; k < sizeof some / sizeof *some; k++) check_ring(some[k]);
    // the ring of the Rattle tests
    static const struct ring_node trees[TREES] = {{"ash", 3}, {"elm", 1}, {"oak", 2}};
    static const struct {
        const char *key;
        size_t owners[TREES];
    } wanted[] = {{"a", {2, 0, 1}}, {"one", {1, 0, 2}}, {"sea", {0, 2, 1}}};
    hashers_ring_point points[6], rest[6];
    for (size_t i = 0, from = 0; i < TREES; from += trees[i++].weight) points_of(HASHERS_FNV1A64, trees[i], i, points + from);
    hashers_ring_sort(points, 6);
    for (size_t k = 0; k < sizeof wanted / sizeof *wanted; k++) {
        size_t found[TREES];
        uint64_t place = hashers_fnv1a64(wanted[k].key, strlen(wanted[k].key));
        same("three owners", TREES, hashers_ring_owners(points, 6, place, found, TREES));
        same("the owners of a key", 0, (uint64_t)memcmp(found, wanted[k].owners, sizeof found));
    }
    memcpy(rest, points, sizeof points);
    hashers_ring_point turned[2] = {points[1], points[0]}, last = {5, SIZE_MAX};
    unsigned char text[8] = "a";
    same("a name without its 8 bytes", 0, hashers_ring_points(HASHERS_SPOOKY, text, 7, 0, points, 6));
    same("no such hash", 0, hashers_ring_points(HASHERS_KINDS, text, 8, 0, points, 6));
    same("too little room", 0, hashers_ring_add(points, 1, turned, 2, 0));
    same("added in no order", 0, hashers_ring_add(points, 6, turned, 2, 0));
    same("others in no order", 0, hashers_ring_add(turned, 2, turned, 0, 0));
    same("a node past the last", 0, hashers_ring_add(&last, 1, points, 0, 0));
    same("what is refused changes nothing", 0, (uint64_t)memcmp(rest, points, sizeof points));
    same("an empty ring", 0, hashers_ring_owner(NULL, 0, 7) | hashers_ring_remove(NULL, 0, 0) | hashers_ring_owners(NULL, 0, 7, NULL, 0));
}

// A text of two parts from their hashes.
static void check_combine(void) {
    for (size_t n = 0; n < 100; n++) {
        const unsigned char *second = text + n;
        size_t n2 = n * 7 % 50;
        same("sdbm_combine", hashers_sdbm(text, n + n2), hashers_sdbm_combine(hashers_sdbm(text, n), hashers_sdbm(second, n2), n2));
        same("loselose_combine", hashers_loselose(text, n + n2),
             hashers_loselose_combine(hashers_loselose(text, n), hashers_loselose(second, n2), n2));
        same("passthrough_combine", hashers_passthrough(text, n + n2),
             hashers_passthrough_combine(hashers_passthrough(text, n), hashers_passthrough(second, n2), n2));
        same("crc32_combine", hashers_crc32(text, n + n2), hashers_crc32_combine(hashers_crc32(text, n), hashers_crc32(second, n2), n2));
        same("crc32c_combine", hashers_crc32c(text, n + n2), hashers_crc32c_combine(hashers_crc32c(text, n), hashers_crc32c(second, n2), n2));
    }
}

// A text with the ending that leads it to a wanted hash; behind "12345" it is the rest of the digits whose CRC-32 is known.
static void check_ending(void) {
    same("an ending that is known", UINT32_C(0x39383736), hashers_crc32_ending(hashers_crc32("12345", 5), 0xCBF43926));
    for (size_t n = 0; n < 100; n++) {
        uint64_t hash = hashers_crc32(text, n), answer = hashers_fnv1a32(text, n);
        uint32_t ending = hashers_crc32_ending(hash, answer);
        unsigned char bytes[4];
        for (int i = 0; i < 4; i++) bytes[i] = (unsigned char)(ending >> (8 * i));
        same("crc32_ending", answer, hashers_crc32_write(hash, bytes, 4));
    }
}

__extension__ typedef unsigned __int128 wide;

// The polynomial hash by its definition, a word of seven bytes at a time, and the state behind the whole words.
static uint64_t poly61_by_words(uint64_t key, const unsigned char *bytes, size_t n, uint64_t *state) {
    const uint64_t prime = (UINT64_C(1) << 61) - 1;
    *state = 1, key %= prime;
    for (; n >= 7; bytes += 7, n -= 7) {
        uint64_t word = 0;
        for (int i = 7; i--;) word = word << 8 | bytes[i];
        *state = (uint64_t)(((wide)*state * key + word) % prime);
    }
    uint64_t last = 1;
    for (size_t i = n; i--;) last = last << 8 | bytes[i];
    last = (uint64_t)(((wide)*state * key + last) % prime);
    last = (uint64_t)((wide)last * key % prime);
    return last + (last % 8 << 61);
}

static void check_keyed(void) {
    const uint64_t prime = (UINT64_C(1) << 61) - 1, keys[] = {0, 1, 7, prime - 1, prime, UINT64_MAX, random_number(), random_number()};
    for (const uint64_t *key = keys; key < keys + 8; key++) {
        for (size_t n = 0; n < 300; n++) {
            uint64_t state, all = poly61_by_words(*key, text, n, &state);
            hashers_words pair = hashers_poly61_pair(*key, keys[6], text, n);
            same("poly61", all, hashers_poly61(*key, text, n));
            same_words("poly61_pair", (hashers_words){all, hashers_poly61(keys[6], text, n)}, pair);
            same("poly61_state", n % 7 ? UINT64_MAX : state, hashers_poly61_state(*key, text, n));
            size_t first = n * 3 % (n + 1) / 7 * 7;
            same("poly61_combine", all, hashers_poly61_combine(*key, hashers_poly61_state(*key, text, first),
                                                                hashers_poly61(*key, text + first, n - first), n - first));
        }
    }
    for (size_t n = 0; n < 300; n++) {
        hashers_poly61_place place = hashers_poly61_begin(keys[7]);
        for (size_t done = 0, part; done < n; done += part) {
            part = random_number() % 20;
            part = part < n - done ? part : n - done;
            hashers_poly61_write(&place, text + done, part);
            same("poly61_finish between", hashers_poly61(keys[7], text, done + part), hashers_poly61_finish(&place));
        }
        same("poly61 in parts", hashers_poly61(keys[7], text, n), hashers_poly61_finish(&place));
    }
    const hashers_poly61_place nowhere[] = {{prime, 1, 0, 0}, {7, prime, 0, 0}, {7, 1, 256, 1}, {7, 1, 0, 7}, {7, 1, 0, UINT64_MAX}};
    for (size_t i = 0; i < sizeof nowhere / sizeof *nowhere; i++) {
        hashers_poly61_place place = nowhere[i];
        hashers_poly61_write(&place, text, 100);
        same("poly61_write nowhere", 0, (uint64_t)memcmp(&place, nowhere + i, sizeof place));
        same("poly61_finish nowhere", 0, hashers_poly61_finish(&place));
    }
    same("poly61 of no bytes", hashers_poly61(7, text, 0), hashers_poly61(7, NULL, 0));
}

static uint64_t number_hash_by_wide(const hashers_number_key *key, uint64_t number) {
    wide multiplier = (wide)key->multiplier_high << 64 | key->multiplier_low, addend = (wide)key->addend_high << 64 | key->addend_low;
    return (uint64_t)((multiplier * number + addend) >> 64);
}

static void check_number_hash(void) {
    const uint64_t most = UINT64_MAX;
    const hashers_number_key keys[] = {{0, 0, 0, 0}, {0, 1, 0, most}, {1, 0, 0, 7}, {most, most, most, most}, {0, most, most, 0},
                                       {random_number(), random_number(), random_number(), random_number()},
                                       {0x0123456789abcdef, 0x0fedcba987654321, 0xdeadbeefcafebabe, 0x8badf00ddeadc0de}};
    const size_t count = sizeof keys / sizeof *keys;
    same("number_hash of 255", 58512787288153055, hashers_number_hash(keys + count - 1, 255));
    for (const hashers_number_key *key = keys; key < keys + count; key++) {
        uint64_t numbers[100] = {0, 1, 255, UINT64_C(1) << 32, most}, hashes[101];
        for (size_t i = 5; i < 100; i++) numbers[i] = random_number() >> i % 64;
        for (size_t n = 0; n <= 100; n++) {
            for (size_t i = 0; i <= 100; i++) hashes[i] = 7;
            same("number_column", 1, hashers_number_column(key, numbers, n, hashes, n));
            for (size_t i = 0; i < n; i++) {
                same("number_hash", number_hash_by_wide(key, numbers[i]), hashers_number_hash(key, numbers[i]));
                same("number_column's hash", hashers_number_hash(key, numbers[i]), hashes[i]);
            }
            same("number_column's end", 7, hashes[n]);
            same("number_column of another count", 0, hashers_number_column(key, numbers, n, hashes + n, 101 - n));
            same("number_column refused", 7, hashes[n]);
        }
    }
    same("number_column of nothing", 1, hashers_number_column(keys, NULL, 0, NULL, 0));
}

static void check_map_hash(void) {
    hashers_map_key key;
    wide multiplier = (wide)0x0123456789abcdef << 64 | 0x0fedcba987654321;
    for (size_t i = 0; i < 17; i++) {
        key.words[2 * i] = (uint64_t)(multiplier >> 64), key.words[2 * i + 1] = (uint64_t)multiplier;
        multiplier = multiplier * ((wide)0x9e3779b97f4a7c15 << 64 | 0xf39cc0605cedc835) + 1;
    }
    key.words[34] = 0xdeadbeefcafebabe, key.words[35] = 0x8badf00ddeadc0de, key.words[36] = 1234567;
    unsigned char bytes[200];
    for (size_t i = 0; i < 200; i++) bytes[i] = (unsigned char)(i * 37);
    const struct { size_t n; uint64_t hash; } wanted[] = {{9, UINT64_C(4622286899896622519)}, {64, UINT64_C(15797489629508910292)}, {128, UINT64_C(695559789670581238)}, {129, UINT64_C(1833634219120750240)}, {200, UINT64_C(6365603775763803409)}};
    for (size_t i = 0; i < sizeof wanted / sizeof *wanted; i++) same("map_hash", wanted[i].hash, hashers_map_hash(&key, bytes, wanted[i].n));
    same("map_hash of no bytes", key.words[34], hashers_map_hash(&key, NULL, 0));
    const hashers_number_key number = {key.words[0], key.words[1], key.words[34], key.words[35]};
    uint64_t of = 255;
    same("map_hash of a number", hashers_number_hash(&number, of), hashers_map_hash(&key, &of, sizeof of));
}

// Pages of which the middle one alone can be read and written.
static unsigned char *pages(size_t page) {
    unsigned char *room = mmap(NULL, 3 * page, PROT_NONE, MAP_PRIVATE | MAP_ANONYMOUS, -1, 0);
    if (room == MAP_FAILED || mprotect(room + page, page, PROT_READ | PROT_WRITE)) {
        perror("mmap");
        exit(1);
    }
    return room;
}

// Any bytes in place of what begin made: zeros, another mark, or any numbers behind the mark.
static void any_bytes(int turn, uint64_t *opaque, size_t count) {
    if (turn % 5 == 0) memset(opaque, 0, count * sizeof *opaque);
    if (turn % 5 == 1) opaque[0] ^= random_number() | 1;
    if (turn % 5 >= 2)
        for (size_t i = 1; i < count; i++) opaque[i] = random_number() >> random_number() % 64;
}

// A state at the very end of what can be read, so that a call that reaches past it ends the test; and one at the very beginning.
static void check_states_of_any_bytes(void) {
    size_t page = 65536;
    unsigned char *room = pages(page);
    hashers_spooky_state *ends[] = {(void *)(room + 2 * page - sizeof(hashers_spooky_state)), (void *)(room + page)};
    hashers_words zeros = {0, 0};
    for (int turn = 0; turn < 20000; turn++) {
        hashers_spooky_state *s = ends[turn % 2], before;
        *s = hashers_spooky_begin(3, 4);
        uint64_t mark = s->opaque[0];
        size_t n = (size_t)(random_number() % 400);
        any_bytes(turn, s->opaque, 39);
        before = *s;
        hashers_words one = hashers_spooky_finish(s), two = hashers_spooky_finish_v1(s);
        hashers_spooky_write(s, text, n);
        if (before.opaque[0] != mark) {
            same_words("finish without the mark", zeros, one);
            same_words("finish_v1 without the mark", zeros, two);
            same("write without the mark", 0, (uint64_t)memcmp(&before, s, sizeof before));
        }
    }
    munmap(room, 3 * page);
}

// The same of the hashes by the block and of XXH3, which keeps no mark.
static void check_blocks_of_any_bytes(void) {
    size_t page = 65536;
    unsigned char *room = pages(page);
    hashers_block_state *blocks[] = {(void *)(room + 2 * page - sizeof(hashers_block_state)), (void *)(room + page)};
    hashers_xxh3_place *places[] = {(void *)(room + 2 * page - sizeof(hashers_xxh3_place)), (void *)(room + page)};
    for (int turn = 0; turn < 20000; turn++) {
        hashers_block_state *s = blocks[turn % 2], before;
        *s = turn % 3 ? hashers_xxh64_begin(3) : hashers_murmur3_32_begin(3);
        any_bytes(turn, s->opaque, 12);
        before = *s;
        uint64_t hash = hashers_xxh64_finish(s) | hashers_murmur3_32_finish(s);
        hashers_xxh64_write(s, text, (size_t)(random_number() % 400));
        hashers_murmur3_32_write(s, text, 50);
        if (turn % 5 < 2) {
            same("finish of a block without the mark", 0, hash);
            same("write of a block without the mark", 0, (uint64_t)memcmp(&before, s, sizeof before));
        }
        hashers_xxh3_place *p = places[turn % 2];
        *p = hashers_xxh3_begin(3);
        hashers_xxh3_write(p, text, 300);
        any_bytes(turn % 4 + 1, p->opaque, 45);
        hashers_xxh3_write(p, text, (size_t)(random_number() % 400));
        hashers_xxh128_finish(p);
    }
    munmap(room, 3 * page);
}

// A hash by its number: found by its name, which the number has, and the same in each call that takes a number.
static void check_number(const struct kind *k) {
    size_t n = strlen(k->name);
    uint32_t number = hashers_kind(k->name, n);
    char name[32] = {0};
    same("the length of a name", n, hashers_name(number, name, sizeof name));
    same("a name", 0, (uint64_t)strcmp(k->name, name));
    name[2] = '~';
    same("the length of a name without room", n, hashers_name(number, name, 2));
    same("a name without room", '~', (unsigned char)name[2]);
    same("a hash by number", k->of(text, 100), hashers_hash(number, text, 100));
    check_column(k->of, number);
    check_lines(k->of, number);
}

// There are as many hashes as the header says, and no others.
static void check_numbers(void) {
    uint64_t kept = 7;
    char names[300];
    size_t n = 0;
    same("as many hashes as the header says", KINDS, HASHERS_KINDS);
    for (uint32_t i = 0; i < KINDS; i++) same("the order of the header", i, hashers_kind(kinds[i].name, strlen(kinds[i].name)));
    // the first 22 names, a blank behind each
    for (uint32_t i = 0; i < 22; i++) n += hashers_name(i, names + n, sizeof names - n), names[n++] = ' ';
    same("numbers that never change", 9225073705146799726u, hashers_fnv1a64(names, n));
    same("a constant", HASHERS_ELF, hashers_kind("elf", 3));
    same("a number of no hash has no name", 0, hashers_name(HASHERS_KINDS, NULL, 0));
    same("a name of no hash has a number of none", 1, hashers_kind("fnv", 3) >= HASHERS_KINDS && hashers_kind(NULL, 0) >= HASHERS_KINDS);
    same("a hash by a number of no hash", 0, hashers_hash(HASHERS_KINDS, text, 1));
    same("a column by a number of no hash", 0, hashers_column64(HASHERS_KINDS, NULL, 0, (uint64_t[]){0, 0}, 2, &kept, 1));
    same("lines by a number of no hash", 0, hashers_lines(UINT32_MAX, "a\n", 2, &kept, 1));
    same("which writes nothing", 7, kept);
    same("no texts from a place past the end", 0, hashers_column64(HASHERS_FNV1A64, "", 0, (uint64_t[]){5}, 1, NULL, 0));
}

// The path of vectors.txt, if it is not the one from a folder of the repository.
int main(int argc, char **argv) {
    for (size_t i = 0; i < sizeof text; i++) text[i] = (unsigned char)(random_number() >> 32);
    same("version", HASHERS_VERSION, hashers_version());
    check_vectors(argc > 1 ? argv[1] : "../vectors.txt");
    for (const struct kind *k = kinds; k < kinds + KINDS; k++) {
        same(k->name, k->of(text, 0), k->of(NULL, 0));
        check_parts(k);
    }
    check_oaat_state();
    check_spooky();
    check_seeded();
    check_marks();
    check_combine();
    check_ending();
    check_keyed();
    check_number_hash();
    check_map_hash();
    for (const struct kind *k = kinds; k < kinds + KINDS; k++) check_number(k);
    check_numbers();
    check_filter(hashers_spooky, hashers_lookup3, hashers_bloom_spooky_lookup3_insert, hashers_bloom_spooky_lookup3_contains);
    check_filter(hashers_fnv1a64, hashers_lookup3, hashers_bloom_fnv1a64_lookup3_insert, hashers_bloom_fnv1a64_lookup3_contains);
    check_chunks();
    check_rings();
    check_states_of_any_bytes();
    check_blocks_of_any_bytes();
    printf("%d passed, %d failed\n", passed, failed);
    return failed != 0;
}
