/* See best_twin.h. The register is linear in the bytes: each byte has a share in it, which depends on the byte and on
 * how many bytes stand behind it, and the register is the sum of the shares. So there is a table for each distance. */
#include "best_twin.h"
#include "blocks.h"

enum { DISTANCES = 16 };

static uint16_t share[DISTANCES][256]; /* by the distance, then by the byte */

void best_init(void) {
    for (unsigned b = 0; b < 256; b++) {
        uint16_t r = (uint16_t)(b << 8);
        for (int d = 0; d < DISTANCES; d++) {
            for (int k = 0; k < 8; k++) r = (uint16_t)((r & 0x8000) ? (r << 1) ^ 0x3D65 : r << 1);
            share[d][b] = r;
        }
    }
}

/* The register after at most 16 bytes. */
INLINED uint16_t sum(const uint8_t *s, size_t n) {
    uint16_t r = 0;
    for (size_t d = 0; d < n; d++) r ^= share[d][s[n - 1 - d]];
    return r;
}

/* Four bytes as one number; gcc makes one load of it. */
INLINED uint64_t word(const uint8_t *s) { return (uint64_t)s[0] << 24 | s[1] << 16 | s[2] << 8 | s[3]; }

/* Sixteen bytes folded into one word, as the library does it (crates/crc/src/words.rt): x^112, x^80 and x^48 leave what
 * five small powers of x leave. */
INLINED uint64_t group(const uint8_t *s) {
    uint64_t p = word(s), q = word(s + 4), r = word(s + 8), t = word(s + 12);
    return p << 21 ^ p << 18 ^ p << 12 ^ p << 11 ^ p << 2 ^ q << 15 ^ q << 12 ^ q << 7 ^ q << 6 ^ q << 4 ^ r << 19 ^
           r << 17 ^ r << 15 ^ r << 9 ^ r ^ t << 16;
}

/* The same word with sixteen bytes more behind it: x^151 leaves 1. */
INLINED uint64_t onward(uint64_t v) {
    uint64_t w = v & 0x7FFFFF;
    return v >> 23 ^ w << 19 ^ w << 18 ^ w << 16 ^ w << 6 ^ w << 2;
}

/* The register that a word leaves: each byte above the lowest sixteen digits has its share. */
INLINED uint16_t left_by(uint64_t v) {
    uint64_t r = v;
    for (int d = 0; d < 5; d++) r ^= share[d][v >> (16 + 8 * d) & 255];
    return (uint16_t)r;
}

INLINED uint16_t block_check(const uint8_t *s, size_t n) { return (uint16_t)~sum(s, n); }

/* Of more than 16 bytes those that fill no group come first, where the register is still 0. Sums of 16 shares a group
 * (47 ns for 128 bytes, where this takes 41) and slicing by eight (62 ns) were tried, too. */
uint16_t best_check(const uint8_t *s, size_t n) {
    if (n == 16) return block_check(s, 16);
    const uint8_t *end = s + n;
    uint64_t v = sum(s, n % 16);
    for (s += n % 16; s < end; s += 16) v = group(s) ^ onward(v);
    return (uint16_t)~left_by(v);
}

int best_read_a(const uint8_t *s, size_t len, uint8_t *out, size_t out_len, size_t *n) {
    return read_a(block_check, s, len, out, out_len, n);
}

int best_write_a(const uint8_t *content, size_t n, uint8_t *out, size_t out_len) {
    return write_a(block_check, content, n, out, out_len);
}
