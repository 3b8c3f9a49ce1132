// MurmurHash3 x86_32 and x64_128, as Austin Appleby's MurmurHash3.cpp computes them on a little-endian machine, for clang to compile.
#include <stddef.h>
#include <stdint.h>
#include <string.h>

static uint32_t turned32(uint32_t x, int k) { return x << k | x >> (32 - k); }
static uint64_t turned64(uint64_t x, int k) { return x << k | x >> (64 - k); }
static uint32_t word32(uint32_t k) { return turned32(k * 0xcc9e2d51, 15) * 0x1b873593; }

uint32_t murmur3_32_of_author(const void *text, size_t n, uint32_t seed) {
    const uint8_t *bytes = text, *tail = bytes + n / 4 * 4;
    uint32_t h = seed, k = 0;
    for (; bytes < tail; bytes += 4) {
        memcpy(&k, bytes, 4);
        h = turned32(h ^ word32(k), 13) * 5 + 0xe6546b64;
    }
    k = 0;
    switch (n & 3) {
    case 3: k ^= tail[2] << 16; /* fall through */
    case 2: k ^= tail[1] << 8;  /* fall through */
    case 1: h ^= word32(k ^ tail[0]);
    }
    h ^= (uint32_t)n;
    h = (h ^ h >> 16) * 0x85ebca6b;
    h = (h ^ h >> 13) * 0xc2b2ae35;
    return h ^ h >> 16;
}

enum { FIRST, SECOND };
static uint64_t word64(uint64_t k, int which) {
    const uint64_t c1 = 0x87c37b91114253d5, c2 = 0x4cf5ad432745937f;
    return which == FIRST ? turned64(k * c1, 31) * c2 : turned64(k * c2, 33) * c1;
}

static uint64_t mixed64(uint64_t h) {
    h = (h ^ h >> 33) * 0xff51afd7ed558ccd;
    h = (h ^ h >> 33) * 0xc4ceb9fe1a85ec53;
    return h ^ h >> 33;
}

void murmur3_128_of_author(const void *text, size_t n, uint64_t seed, uint64_t hash[2]) {
    const uint8_t *bytes = text, *tail = bytes + n / 16 * 16;
    uint64_t h1 = seed, h2 = seed, k1, k2;
    for (; bytes < tail; bytes += 16) {
        memcpy(&k1, bytes, 8), memcpy(&k2, bytes + 8, 8);
        h1 = (turned64(h1 ^ word64(k1, FIRST), 27) + h2) * 5 + 0x52dce729;
        h2 = (turned64(h2 ^ word64(k2, SECOND), 31) + h1) * 5 + 0x38495ab5;
    }
    k1 = k2 = 0;
    switch (n & 15) {
#define BYTE(i, k, shift) case i + 1: k ^= (uint64_t)tail[i] << shift; /* fall through */
    BYTE(14, k2, 48) BYTE(13, k2, 40) BYTE(12, k2, 32) BYTE(11, k2, 24) BYTE(10, k2, 16) BYTE(9, k2, 8)
    case 9: h2 ^= word64(k2 ^ tail[8], SECOND); /* fall through */
    BYTE(7, k1, 56) BYTE(6, k1, 48) BYTE(5, k1, 40) BYTE(4, k1, 32) BYTE(3, k1, 24) BYTE(2, k1, 16) BYTE(1, k1, 8)
    case 1: h1 ^= word64(k1 ^ tail[0], FIRST);
    }
    h1 ^= n, h2 ^= n, h1 += h2, h2 += h1;
    h1 = mixed64(h1), h2 = mixed64(h2), h1 += h2, h2 += h1;
    hash[0] = h1, hash[1] = h2;
}
