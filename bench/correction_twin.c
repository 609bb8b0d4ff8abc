/* See correction_twin.h. A product is one look at the table of powers, at the sum of two logarithms; the table is there
 * twice, so that no sum leaves it. The generator reads the same from both ends: 16 products make a row of 32, and the
 * remainder moves on as four words. */
#include "correction_twin.h"
#include "twins.h"
#include <string.h>

enum { LONGEST = 223, CHECKS = 32, BEHIND = 34, ORDER = 255 };

static uint8_t power[2 * ORDER], logarithm[256];

/* The generator's coefficients of x^31 down to x^16, as powers of alpha. Those of x^15 down to x are the same, from the
 * other end. */
static const uint8_t upper[8] = {249, 59, 66, 4, 43, 126, 251, 97}, middle[8] = {30, 3, 213, 50, 66, 170, 5, 24};

void twin_correction_init(void) {
    unsigned x = 1;
    for (unsigned i = 0; i < ORDER; i++) {
        power[i] = power[i + ORDER] = (uint8_t)x;
        logarithm[x] = (uint8_t)i;
        x = x < 128 ? x << 1 : x << 1 ^ 0x187;
    }
}

typedef struct {
    uint64_t a, b, c, d;
} Remainder;

/* Eight products as one word, the first one highest. */
static inline uint64_t products(const uint8_t *from, const uint8_t coefficients[8]) {
    uint64_t x = 0;
    for (int i = 0; i < 8; i++) x |= (uint64_t)from[coefficients[i]] << (56 - 8 * i);
    return x;
}

static inline Remainder byte_in(Remainder m, uint8_t byte) {
    uint8_t top = (uint8_t)(m.a >> 56) ^ byte;
    m = (Remainder){m.a << 8 | m.b >> 56, m.b << 8 | m.c >> 56, m.c << 8 | m.d >> 56, m.d << 8};
    if (top == 0) return m;
    const uint8_t *from = power + logarithm[top];
    uint64_t p = products(from, upper), q = products(from, middle);
    m.a ^= p;
    m.b ^= q;
    m.c ^= __builtin_bswap64(p << 56 | q >> 8);
    m.d ^= __builtin_bswap64((uint64_t)top << 56 | p >> 8);
    return m;
}

static inline void put_word(uint8_t *out, uint64_t x) {
    for (int i = 0; i < 8; i++) out[i] = (uint8_t)(x >> (56 - 8 * i));
}

static inline void put_checks(const uint8_t *word, size_t n, uint8_t *out) {
    Remainder m = {0, 0, 0, 0};
    for (size_t i = 0; i < n; i++) m = byte_in(m, word[i]);
    put_word(out, m.a);
    put_word(out + 8, m.b);
    put_word(out + 16, m.c);
    put_word(out + 24, m.d);
}

static inline uint8_t answer(int number, uint64_t value, uint64_t *results) {
    results[0] = value;
    return (uint8_t)number;
}

uint8_t twin_correction_check_bytes(const uint8_t *word, size_t word_len, uint8_t *out, size_t out_len,
                                    uint64_t results[1]) {
    if (word_len > LONGEST) return answer(23, 0, results);
    if (out_len < CHECKS) return answer(4, 0, results);
    put_checks(word, word_len, out);
    return answer(0, CHECKS, results);
}

uint8_t twin_correction_write_a(const uint8_t *bytes, size_t bytes_len, uint8_t *out, size_t out_len,
                                uint64_t results[1]) {
    size_t size = 0, wrong = 0;
    int refused = twin_judge_a(bytes, bytes_len, &size, &wrong);
    if (refused) return answer(refused, wrong, results);
    if (size > LONGEST) return answer(23, 0, results);
    if (out_len < size + BEHIND) return answer(4, 0, results);
    memcpy(out, bytes, size);
    out[size] = 0x21;
    out[size + 1] = 0x04;
    put_checks(bytes, size, out + size + 2);
    return answer(0, size + BEHIND, results);
}
