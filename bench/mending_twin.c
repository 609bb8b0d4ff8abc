/* See mending_twin.h. The word is divided once, four bytes a step, from tables of whole bytes, 32 KB in all (with half
 * of them and two bytes a step the division takes half as long again). A rest of zeros is a code word. The rest of one
 * wrong byte is the byte itself if it is a check byte. Otherwise none of its bytes is 0, the first two tell the place,
 * and the others must be as that place has them: the word is not divided again. */
#include "mending_twin.h"
#include "correction_twin.h"
#include "twins.h"
#include <string.h>

enum { LONGEST = 223, CHECKS = 32, HEADER = 2, BEHIND = HEADER + CHECKS, ORDER = 255 };

/* The 32 bytes of a rest as they stand in memory: the first is the lowest of a, since the machines that the library is
 * built for have low bytes first. */
typedef struct {
    uint64_t a, b, c, d;
} Rest;

/* The rests of each byte with so many more behind it in its step; four tables make shorter code than one. */
static Rest rest0[256], rest1[256], rest2[256], rest3[256];

/* The powers stand there three times, so that no sum of logarithms leaves them. */
static uint8_t power[3 * ORDER], logarithm[256];

/* The logarithms of the rest of a 1 with so many bytes behind it, and how many are behind it by the second of them less
 * the first, 0 if none have that: since code words have at least 33 bytes that are not 0, no two places share it. */
static uint8_t lone[ORDER][CHECKS], behind_by[2 * ORDER];

static void field_init(void) {
    unsigned x = 1;
    for (unsigned i = 0; i < ORDER; i++) {
        power[i] = power[i + ORDER] = power[i + 2 * ORDER] = (uint8_t)x;
        logarithm[x] = (uint8_t)i;
        x = x < 128 ? x << 1 : x << 1 ^ 0x187;
    }
}

/* The rest of a byte of the frame, with so many behind it. */
static void rest_of(uint8_t byte, size_t behind, void *rest) {
    uint8_t word[LONGEST] = {byte};
    uint64_t results[1];
    twin_correction_check_bytes(word, behind - CHECKS + 1, rest, CHECKS, results);
}

static void lone_init(size_t behind) {
    uint8_t rest[CHECKS], *logs = lone[behind];
    rest_of(1, behind, rest);
    for (int i = 0; i < CHECKS; i++) logs[i] = logarithm[rest[i]];
    unsigned ratio = (unsigned)(logs[1] + ORDER - logs[0]) % ORDER;
    behind_by[ratio] = behind_by[ratio + ORDER] = (uint8_t)behind;
}

void twin_mending_init(void) {
    twin_correction_init();
    field_init();
    for (unsigned byte = 0; byte < 256; byte++) {
        rest_of((uint8_t)byte, CHECKS, &rest0[byte]);
        rest_of((uint8_t)byte, CHECKS + 1, &rest1[byte]);
        rest_of((uint8_t)byte, CHECKS + 2, &rest2[byte]);
        rest_of((uint8_t)byte, CHECKS + 3, &rest3[byte]);
    }
    for (size_t behind = CHECKS; behind < ORDER; behind++) lone_init(behind);
}

static inline Rest sum(Rest m, Rest n) { return (Rest){m.a ^ n.a, m.b ^ n.b, m.c ^ n.c, m.d ^ n.d}; }

static inline Rest byte_in(Rest m, uint8_t byte) {
    Rest moved = {m.a >> 8 | m.b << 56, m.b >> 8 | m.c << 56, m.c >> 8 | m.d << 56, m.d >> 8};
    return sum(moved, rest0[(m.a & 255) ^ byte]);
}

static inline Rest four_in(Rest m, const uint8_t *s) {
    uint32_t x;
    memcpy(&x, s, 4);
    x ^= (uint32_t)m.a;
    Rest moved = {m.a >> 32 | m.b << 32, m.b >> 32 | m.c << 32, m.c >> 32 | m.d << 32, m.d >> 32};
    Rest two = sum(rest3[x & 255], rest2[x >> 8 & 255]);
    return sum(moved, sum(two, sum(rest1[x >> 16 & 255], rest0[x >> 24])));
}

static inline Rest divided(const uint8_t *s, size_t n) {
    Rest m = {0, 0, 0, 0};
    size_t i = 0;
    for (; i < n % 4; i++) m = byte_in(m, s[i]);
    for (; i < n; i += 4) m = four_in(m, s + i);
    return m;
}

/* Mends the one check byte that is wrong by this rest, which is not 0. */
static inline void mend_check(uint8_t *checks, const uint8_t rest[CHECKS]) {
    int at = 0;
    while (rest[at] == 0) at++;
    for (int i = at + 1; i < CHECKS; i++)
        if (rest[i] != 0) return;
    checks[at] ^= rest[at];
}

/* Mends the one byte that is wrong by this rest in the frame of a word of n bytes, if it is not the first. */
static inline void mend_frame(uint8_t *word, size_t n, const uint8_t rest[CHECKS]) {
    unsigned log = logarithm[rest[0]];
    size_t behind = behind_by[logarithm[rest[1]] + ORDER - log];
    if (behind == 0 || n - 1 <= behind) return;
    const uint8_t *logs = lone[behind];
    const uint8_t *times = power + log + ORDER - logs[0];
    for (int i = 2; i < CHECKS; i++)
        if (rest[i] != times[logs[i]]) return;
    word[n - 1 - behind] ^= *times;
}

static inline uint8_t answer(int number, uint64_t value, uint64_t *results) {
    results[0] = value;
    return (uint8_t)number;
}

static inline uint8_t propose(const uint8_t *received, size_t received_len, size_t size, uint8_t *out, size_t out_len,
                              uint64_t *results) {
    if (size > LONGEST) return answer(23, 0, results);
    if (received_len < size + BEHIND) return answer(1, 0, results);
    if (out_len < size + CHECKS) return answer(4, 0, results);
    uint8_t rest[CHECKS];
    memcpy(out, received, size);
    memcpy(out + size, received + size + HEADER, CHECKS);
    Rest m = divided(received, size), checks;
    memcpy(&checks, received + size + HEADER, CHECKS);
    m = sum(m, checks);
    memcpy(rest, &m, CHECKS);
    if (rest[0] != 0 && rest[1] != 0) mend_frame(out, size + CHECKS, rest);
    else if ((m.a | m.b | m.c | m.d) != 0) mend_check(out + size, rest);
    return answer(0, size + CHECKS, results);
}

uint8_t twin_mending_propose_one_a(const uint8_t *received, size_t received_len, uint8_t *out, size_t out_len,
                                   uint64_t results[1]) {
    if (received_len == 0) return answer(1, 0, results);
    if (received[0] < 10) return answer(2, 0, results);
    return propose(received, received_len, twin_size_a(received[0]), out, out_len, results);
}

uint8_t twin_mending_propose_one_b(const uint8_t *received, size_t received_len, uint8_t *out, size_t out_len,
                                   uint64_t results[1]) {
    if (received_len == 0) return answer(1, 0, results);
    if (received[0] < 12 || received[0] == 128 || received[0] == 129) return answer(2, 0, results);
    return propose(received, received_len, received[0] + 1u, out, out_len, results);
}
