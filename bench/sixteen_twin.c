/* See sixteen_twin.h. Bytes go sixteen at a time, by the vectors of gcc. The word is divided once, four bytes a step,
 * from tables of 32 KB. A rest of zeros is a code word. Else come the rest's values at the 32 roots, the locator by
 * Berlekamp and Massey, its value at every place (Chien), and the errors (Forney). No outcome is divided again: if the
 * locator of at most 16 wrong places is 0 at as many places of the word, what comes out is a code word. */
#include "sixteen_twin.h"
#include "correction_twin.h"
#include "twins.h"
#include <string.h>
/* For products of sixteen bytes: processors have had this since 2011, but gcc is not told so. */
#ifdef __x86_64__
#pragma GCC target("ssse3")
#endif

enum { LONGEST = 223, CHECKS = 32, HEADER = 2, BEHIND = HEADER + CHECKS, ORDER = 255, BLOCK = 64 };

/* The most wrong bytes; the roots are those powers of beta from the first to the last, and beta is this power. */
enum { MOST = 16, FIRST = 112, LAST = FIRST + CHECKS - 1, BETA = 11 };

typedef uint8_t Sixteen __attribute__((vector_size(16)));
typedef uint32_t Four __attribute__((vector_size(16)));
typedef uint64_t Two __attribute__((vector_size(16)));

/* 32 bytes as they stand in memory, low bytes first. */
typedef struct {
    Sixteen a, b;
} Rest;

/* The rests of each byte with so many more behind it in its step; four tables make shorter code than one. */
static Rest rest0[256], rest1[256], rest2[256], rest3[256];

/* The powers stand there three times, so that no sum of logarithms leaves them. */
static uint8_t power[3 * ORDER], logarithm[256];

/* The products of a power and each low half of a byte, and each high half. The powers stand there twice, so that no
 * difference of logarithms leaves them. */
static struct {
    Sixteen low, high;
} products[2 * ORDER];

/* A byte, and it times beta^step, beta^(2 step) and so on, are read off a row that has them, where the byte stands in
 * it: a window of products costs one look. Most steps go through all 255 bytes and have one row, the others up to 17.
 * Steps to 16 are for coefficients, with windows of all places; those to 31 for bytes of a rest, with the roots. */
enum { LONG_WINDOW = ORDER + BLOCK, SHORT_WINDOW = LAST + 1, ROWS_IN_ALL = 31682 };
static uint8_t rows[ROWS_IN_ALL];
static uint16_t row_at[CHECKS][256];

/* The logarithm of x^143 for the power of beta that x is. */
static uint8_t last_power[ORDER + 1];

static void field_init(void) {
    unsigned x = 1;
    for (unsigned i = 0; i < ORDER; i++) {
        power[i] = power[i + ORDER] = power[i + 2 * ORDER] = (uint8_t)x;
        logarithm[x] = (uint8_t)i;
        x = x < 128 ? x << 1 : x << 1 ^ 0x187;
    }
    for (unsigned i = 0; i <= ORDER; i++) last_power[i] = (uint8_t)(BETA * LAST * i % ORDER);
}

static uint8_t product(unsigned x, unsigned y) { return x && y ? power[logarithm[x] + logarithm[y]] : 0; }

/* The rest of a byte of the frame, with so many behind it. */
static void rest_of(uint8_t byte, size_t behind, Rest *rest) {
    uint8_t word[LONGEST] = {byte};
    uint64_t results[1];
    twin_correction_check_bytes(word, behind - CHECKS + 1, (uint8_t *)rest, CHECKS, results);
}

static void byte_init(unsigned byte) {
    rest_of((uint8_t)byte, CHECKS, &rest0[byte]);
    rest_of((uint8_t)byte, CHECKS + 1, &rest1[byte]);
    rest_of((uint8_t)byte, CHECKS + 2, &rest2[byte]);
    rest_of((uint8_t)byte, CHECKS + 3, &rest3[byte]);
}

static void power_init(unsigned log) {
    for (unsigned half = 0; half < 16; half++) {
        products[log].low[half] = product(power[log], half);
        products[log].high[half] = product(power[log], half << 4);
    }
}

/* Appends the row that begins with this byte: round once, and a window. */
static size_t row_init(unsigned step, unsigned byte, size_t at) {
    size_t window = step <= MOST ? LONG_WINDOW : SHORT_WINDOW;
    for (; row_at[step][byte] == 0; byte = product(byte, power[BETA * step % ORDER])) {
        row_at[step][byte] = (uint16_t)at;
        rows[at++] = (uint8_t)byte;
    }
    for (; window > 0; window--, byte = product(byte, power[BETA * step % ORDER])) rows[at++] = (uint8_t)byte;
    return at;
}

/* The row of 0 is the first, for every step. */
static void rows_init(void) {
    size_t at = LONG_WINDOW;
    memset(row_at, 0, sizeof row_at);
    for (unsigned step = 1; step < CHECKS; step++)
        for (unsigned byte = 1; byte < 256; byte++)
            if (row_at[step][byte] == 0) at = row_init(step, byte, at);
}

void twin_sixteen_init(void) {
    twin_correction_init();
    field_init();
    for (unsigned byte = 0; byte < 256; byte++) byte_init(byte);
    for (unsigned log = 0; log < 2 * ORDER; log++) power_init(log);
    rows_init();
}

static inline Sixteen sixteen_at(const uint8_t *s) {
    Sixteen v;
    memcpy(&v, s, sizeof v);
    return v;
}

static inline Sixteen all(uint8_t byte) { return (Sixteen){0} + byte; }

static inline Rest sum(Rest m, Rest n) { return (Rest){m.a ^ n.a, m.b ^ n.b}; }

static inline Rest moved(Rest m, int by) {
    const Sixteen one = {1, 2, 3, 4, 5, 6, 7, 8, 9, 10, 11, 12, 13, 14, 15, 16}, places = one + (uint8_t)(by - 1);
    return (Rest){__builtin_shuffle(m.a, m.b, places), __builtin_shuffle(m.b, (Sixteen){0}, places)};
}

static inline Rest byte_in(Rest m, uint8_t byte) { return sum(moved(m, 1), rest0[m.a[0] ^ byte]); }

static inline uint64_t eight_at(const void *s) {
    uint64_t x;
    memcpy(&x, s, sizeof x);
    return x;
}

/* The first eight bytes of the rest are kept as a number, too: the next rows then wait for no vector. */
static inline Rest fours_in(Rest m, const uint8_t *s, const uint8_t *end) {
    uint64_t first = ((Two)m.a)[0];
    for (; s < end; s += 4) {
        uint32_t x;
        memcpy(&x, s, sizeof x);
        x ^= (uint32_t)first;
        const Rest *p = &rest3[x & 255], *q = &rest2[x >> 8 & 255], *r = &rest1[x >> 16 & 255], *t = &rest0[x >> 24];
        first = first >> 32 | (uint64_t)((Four)m.a)[2] << 32;
        first ^= eight_at(p) ^ eight_at(q) ^ eight_at(r) ^ eight_at(t);
        m = sum(moved(m, 4), sum(sum(*p, *q), sum(*r, *t)));
    }
    return m;
}

static inline Rest divided(const uint8_t *s, size_t n) {
    Rest m = {{0}, {0}};
    size_t i = 0;
    for (; i < n % 4; i++) m = byte_in(m, s[i]);
    return fours_in(m, s + i, s + n);
}

static inline int nothing(Rest m) {
    Two both = (Two)(m.a | m.b);
    return (both[0] | both[1]) == 0;
}

/* The values at the 32 roots. */
static inline Rest values_of(Rest m) {
    uint8_t rest[CHECKS];
    memcpy(rest, &m, CHECKS);
    Rest values = {all(rest[CHECKS - 1]), all(rest[CHECKS - 1])};
#pragma GCC unroll 31
    for (int step = 1; step < CHECKS; step++) {
        const uint8_t *row = rows + row_at[step][rest[CHECKS - 1 - step]] + FIRST;
        values = sum(values, (Rest){sixteen_at(row), sixteen_at(row + 16)});
    }
    return values;
}

/* By the power with this logarithm, or that plus 255. */
static inline Sixteen times(Sixteen v, unsigned log) {
    return __builtin_shuffle(products[log].low, v & 15) ^ __builtin_shuffle(products[log].high, v >> 4);
}

/* Times x. The bytes are coefficients from that of x on: the one before, which is 0 or 1, comes in. */
static inline Sixteen times_x(Sixteen v, uint8_t before) {
    const Sixteen up = {16, 0, 1, 2, 3, 4, 5, 6, 7, 8, 9, 10, 11, 12, 13, 14};
    return __builtin_shuffle(v, all(before), up);
}

/* How many zeros there are before the first other byte. */
static inline size_t zeros(Rest m) {
    Two a = (Two)m.a, b = (Two)m.b;
    uint64_t eights[] = {a[0], a[1], b[0], b[1]};
    for (size_t i = 0; i < 4; i++)
        if (eights[i] != 0) return 8 * i + (size_t)__builtin_ctzll(eights[i]) / 8;
    return CHECKS;
}

/* The part from x^32 on, of what is known from x^r on. */
static inline Sixteen upper_part(Rest m, size_t r) {
    uint8_t bytes[CHECKS + MOST] = {0};
    memcpy(bytes, &m.a, 16);
    memcpy(bytes + 16, &m.b, 16);
    return sixteen_at(bytes + CHECKS - r);
}

/* What is known of the wrong bytes: how many, the locator without its 1, and the part of locator times values from
 * x^32 on. At a place where the locator is 0 that says as much as the part below x^16, which is mostly taken. */
typedef struct {
    size_t wrong;
    Sixteen locator, upper;
} Errors;

/* By Berlekamp and Massey. The differences are locator times values from x^r on, all of them kept, so that the next is
 * always the first, none is summed up, and it shows when there are no more. */
static inline Errors errors_of(Rest values) {
    Rest differences = values, before = values;
    Sixteen locator = {0}, other = {1};
    size_t wrong = 0, r = 0;
    unsigned divisor = 0;
    for (; r < CHECKS && wrong <= MOST; r++) {
        unsigned first = differences.a[0];
        if (first == 0 && zeros(differences) >= CHECKS - r) break;
        differences = moved(differences, 1);
        Sixteen last = other;
        other = times_x(other, 0);
        if (first == 0) continue;
        Rest next = differences;
        unsigned by = logarithm[first] + ORDER - divisor;
        differences = sum(next, (Rest){times(before.a, by), times(before.b, by)});
        if (2 * wrong <= r) {
            before = next;
            other = times_x(locator, 1);
            divisor = logarithm[first];
            wrong = r + 1 - wrong;
        }
        locator ^= times(last, by);
    }
    return (Errors){wrong, locator, upper_part(differences, r)};
}

/* The rows of the coefficients of x to x^count, from the first place of the word on that has this fill before it. */
typedef const uint8_t *Rows[MOST];
static inline void rows_of(Sixteen coefficients, size_t count, size_t fill, Rows from) {
    uint8_t bytes[MOST];
    memcpy(bytes, &coefficients, MOST);
    for (size_t k = 0; k < count; k++) from[k] = rows + row_at[k + 1][bytes[k]] + fill + 1;
}

typedef struct {
    Sixteen a, b, c, d;
} Values;

/* Every second row from this one on, at 64 places. */
static inline Values second_rows(Values v, Rows from, size_t k, size_t count, size_t place) {
    for (; k < count; k += 2) {
        const uint8_t *row = from[k] + place;
        v.a ^= sixteen_at(row);
        v.b ^= sixteen_at(row + 16);
        v.c ^= sixteen_at(row + 32);
        v.d ^= sixteen_at(row + 48);
    }
    return v;
}

/* In each byte a bit for each of the four that is 1. The locator is 0 there: its own 1 is not in these sums. */
static inline Two ones(Values v) {
    return (Two)(((Sixteen)(v.a == 1) & 1) | ((Sixteen)(v.b == 1) & 2) | ((Sixteen)(v.c == 1) & 4) |
                 ((Sixteen)(v.d == 1) & 8));
}

static inline size_t collect(uint64_t bits, size_t place, size_t n, size_t found, uint8_t *places) {
    for (; bits != 0; bits &= bits - 1) {
        size_t bit = (size_t)__builtin_ctzll(bits), at = place + bit / 8 + bit % 8 * 16;
        if (at > 0 && at < n) places[found++] = (uint8_t)at;
    }
    return found;
}

/* The places where the locator is 0, but for the length byte's, and at all places the sum of its odd powers. */
static inline size_t places_of(Errors e, size_t n, uint8_t *places, uint8_t *odd) {
    Rows from;
    size_t found = 0;
    rows_of(e.locator, e.wrong, ORDER - n, from);
    for (size_t place = 0; place < n; place += BLOCK) {
        Values v = second_rows((Values){{0}, {0}, {0}, {0}}, from, 0, e.wrong, place);
        memcpy(odd + place, &v, BLOCK);
        Two bits = ones(second_rows(v, from, 1, e.wrong, place));
        found = collect(bits[0], place, n, found, places);
        found = collect(bits[1], place + 8, n, found, places);
    }
    return found;
}

/* Four rows at a time: those behind the last are of 0. */
static inline void mend_places(uint8_t *word, size_t n, Errors e, const uint8_t *places, const uint8_t *odd) {
    Rows from;
    rows_of(e.upper, (e.wrong + 3) / 4 * 4, ORDER - n, from);
    for (size_t i = 0; i < e.wrong; i++) {
        size_t at = places[i];
        uint8_t value = 0;
        for (size_t k = 0; k < e.wrong; k += 4)
            value ^= from[k][at] ^ from[k + 1][at] ^ from[k + 2][at] ^ from[k + 3][at];
        word[at] ^= power[logarithm[value] + ORDER - logarithm[odd[at]] + last_power[ORDER - n + 1 + at]];
    }
}

static inline void mend(uint8_t *word, size_t n, Errors e) {
    uint8_t places[MOST], odd[ORDER + 1];
    if (e.wrong <= MOST && places_of(e, n, places, odd) == e.wrong) mend_places(word, n, e, places, odd);
}

static inline uint8_t answer(int number, uint64_t value, uint64_t *results) {
    results[0] = value;
    return (uint8_t)number;
}

static inline uint8_t propose(const uint8_t *received, size_t received_len, size_t size, uint8_t *out, size_t out_len,
                              uint64_t *results) {
    if (size > LONGEST) return answer(23, 0, results);
    if (received_len < size + BEHIND) return answer(1, 0, results);
    if (out_len < size + CHECKS) return answer(4, 0, results);
    Rest m = divided(received, size), checks;
    memcpy(&checks, received + size + HEADER, CHECKS);
    memcpy(out, received, size);
    memcpy(out + size, &checks, CHECKS);
    m = sum(m, checks);
    if (!nothing(m)) mend(out, size + CHECKS, errors_of(values_of(m)));
    return answer(0, size + CHECKS, results);
}

uint8_t twin_mending_propose_a(const uint8_t *received, size_t received_len, uint8_t *out, size_t out_len,
                               uint64_t results[1]) {
    if (received_len == 0) return answer(1, 0, results);
    if (received[0] < 10) return answer(2, 0, results);
    return propose(received, received_len, twin_size_a(received[0]), out, out_len, results);
}

uint8_t twin_mending_propose_b(const uint8_t *received, size_t received_len, uint8_t *out, size_t out_len,
                               uint64_t results[1]) {
    if (received_len == 0) return answer(1, 0, results);
    if (received[0] < 12 || received[0] == 128 || received[0] == 129) return answer(2, 0, results);
    return propose(received, received_len, received[0] + 1u, out, out_len, results);
}
