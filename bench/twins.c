/* See twins.h. Answers are document 01's numbers; the twins look at no more than the benchmark needs. */
#include "twins.h"
#include "blocks.h"
#include <string.h>

static uint16_t crc_table[256];
static uint8_t half_of[64]; /* the half-byte of a code word, 255 for no code word */

static const uint8_t words[16] = {22, 13, 14, 11, 28, 25, 26, 19, 44, 37, 38, 35, 52, 49, 50, 41};

void twins_init(void) {
    for (unsigned b = 0; b < 256; b++) {
        uint16_t r = (uint16_t)(b << 8);
        for (int k = 0; k < 8; k++) r = (uint16_t)((r & 0x8000) ? (r << 1) ^ 0x3D65 : r << 1);
        crc_table[b] = r;
    }
    memset(half_of, 255, sizeof half_of);
    for (unsigned k = 0; k < 16; k++) half_of[words[k]] = (uint8_t)k;
}

/* One table, and each byte waits for the register that the one before it leaves. */
INLINED uint16_t check_of(const uint8_t *s, size_t n) {
    uint16_t r = 0;
    for (size_t i = 0; i < n; i++) r = (uint16_t)((r << 8) ^ crc_table[(r >> 8) ^ s[i]]);
    return (uint16_t)~r;
}

uint16_t twin_check(const uint8_t *s, size_t n) { return check_of(s, n); }

/* Working the check of a changed span anew, for comparison with the update. */
uint16_t twin_check_after(uint8_t *span, size_t n, size_t place, uint8_t byte) {
    span[place] = byte;
    return twin_check(span, n);
}

/* A register that takes one chip a step. */
int twin_search(const uint8_t *chips, size_t len, size_t start, size_t allowance, size_t *place, size_t *tried) {
    size_t count = 8 * len, i = start, filled = 0, done = 0;
    uint16_t reg = 0;
    while (i < count && done < allowance) {
        reg = (uint16_t)(reg << 1 | (chips[i >> 3] >> (7 - (i & 7)) & 1));
        i++;
        if (++filled >= 16) {
            done++;
            if (reg == 0x543D) {
                *place = i - 16;
                *tried = done;
                return 0;
            }
        }
    }
    *tried = done;
    return i >= count ? 7 : 14;
}

/* The w chips at a place, at most nine. */
static inline unsigned cut(const uint8_t *chips, size_t len, size_t at, unsigned w) {
    size_t k = at >> 3;
    unsigned two = (unsigned)chips[k] << 8 | (k + 1 < len ? chips[k + 1] : 0u);
    return two >> (16 - w - (at & 7)) & ((1u << w) - 1);
}

/* One word alone, of 8 (NRZ), 6 (three-of-six) or 2 chips (Manchester); the length is judged as the library does it. */
static inline int word(unsigned w, const uint8_t *chips, size_t len, size_t at, uint8_t *value) {
    if (len > 1024 || at > 8 * len) return 10;
    if (8 * len - at < w) return 1;
    unsigned y = cut(chips, len, at, w);
    if (w == 8) {
        *value = (uint8_t)y;
        return 0;
    }
    if (w == 6) {
        *value = half_of[y];
        return half_of[y] == 255 ? 6 : 0;
    }
    *value = y == 1;
    return y == 1 || y == 2 ? 0 : 6;
}

int twin_word_nrz(const uint8_t *chips, size_t len, size_t at, uint8_t *value) {
    return word(8, chips, len, at, value);
}

int twin_word_three_of_six(const uint8_t *chips, size_t len, size_t at, uint8_t *value) {
    return word(6, chips, len, at, value);
}

int twin_word_manchester(const uint8_t *chips, size_t len, size_t at, uint8_t *value) {
    return word(2, chips, len, at, value);
}

int twin_decode_three_of_six(const uint8_t *chips, size_t len, size_t start, size_t n, uint8_t *out) {
    if (start + 12 * n > 8 * len) return 1;
    for (size_t i = 0; i < n; i++) {
        uint8_t high = half_of[cut(chips, len, start + 12 * i, 6)];
        uint8_t low = half_of[cut(chips, len, start + 12 * i + 6, 6)];
        if ((high | low) & 0x80) return 6;
        out[i] = (uint8_t)(high << 4 | low);
    }
    return 0;
}

size_t twin_size_a(size_t n) { return size_a(n); }

int twin_judge_a(const uint8_t *s, size_t len, size_t *size, size_t *wrong) {
    return judge_a(check_of, s, len, size, wrong);
}

int twin_read_a(const uint8_t *s, size_t len, uint8_t *out, size_t out_len, size_t *n) {
    return read_a(check_of, s, len, out, out_len, n);
}

int twin_write_a(const uint8_t *content, size_t n, uint8_t *out, size_t out_len) {
    return write_a(check_of, content, n, out, out_len);
}

int twin_receive_t(const uint8_t *chips, size_t len, size_t start, size_t allowance, uint8_t *out, size_t out_len,
                   size_t *n) {
    size_t place, tried;
    uint8_t frame[290];
    int a = twin_search(chips, len, start, allowance, &place, &tried);
    if (a) return a;
    a = twin_decode_three_of_six(chips, len, place + 16, 1, frame);
    if (a) return a;
    if (frame[0] < 10) return 2;
    size_t size = twin_size_a(frame[0]);
    a = twin_decode_three_of_six(chips, len, place + 16, size, frame);
    if (a) return a;
    return twin_read_a(frame, size, out, out_len, n);
}
