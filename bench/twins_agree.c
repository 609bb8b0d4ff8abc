/* See twins_agree.h. */
#include "twins_agree.h"
#include "../include/kusikhut.h"
#include "best_twin.h"
#include "numbers.h"
#include "twins.h"
#include <string.h>

enum { LONGEST = 255, FRAME = 290, ADDRESSES = 9 };

static const struct {
    uint16_t (*check)(const uint8_t *s, size_t n);
    int (*read)(const uint8_t *s, size_t len, uint8_t *out, size_t out_len, size_t *n);
    int (*write)(const uint8_t *content, size_t n, uint8_t *out, size_t out_len);
} twins[] = {{twin_check, twin_read_a, twin_write_a}, {best_check, best_read_a, best_write_a}};
#define EACH_TWIN for (size_t t = 0; t < sizeof twins / sizeof *twins; t++)

static uint32_t state = 20261116;
static uint64_t r[3];

static void fill(uint8_t *s, size_t n) {
    for (size_t i = 0; i < n; i++) s[i] = (uint8_t)next_number(&state);
}

static int same_checks(void) {
    uint8_t bytes[ADDRESSES + LONGEST];
    fill(bytes, sizeof bytes);
    for (size_t at = 0; at < ADDRESSES; at++)
        for (size_t n = 0; n <= LONGEST; n++)
            EACH_TWIN if (twins[t].check(bytes + at, n) != kusikhut_check(bytes + at, n)) return 0;
    return 1;
}

/* Whoever is called finds the same bytes in the room, so that a byte too many or too few shows. */
static int same_write(const uint8_t *content, size_t n, size_t room) {
    uint8_t before[FRAME], ours[FRAME], twin[FRAME];
    fill(before, FRAME);
    memcpy(ours, before, FRAME);
    int answer = kusikhut_write_a(content, n, ours, room, r);
    EACH_TWIN {
        memcpy(twin, before, FRAME);
        if (twins[t].write(content, n, twin, room) != answer || memcmp(twin, ours, FRAME) != 0) return 0;
    }
    return 1;
}

static int same_read(const uint8_t *s, size_t len, size_t room) {
    uint8_t before[FRAME], ours[FRAME], twin[FRAME];
    size_t size = 0, wrong = 0, n = 0;
    fill(before, FRAME);
    memcpy(ours, before, FRAME);
    int answer = kusikhut_read_a(s, len, ours, room, r);
    EACH_TWIN {
        memcpy(twin, before, FRAME);
        if (twins[t].read(s, len, twin, room, &n) != answer || memcmp(twin, ours, FRAME) != 0) return 0;
        if (answer == 0 && n != r[1]) return 0;
    }
    return answer != 3 || (twin_judge_a(s, len, &size, &wrong) == 3 && wrong == r[2]);
}

static int same_frames(const uint8_t *content, size_t n, uint8_t *frame) {
    size_t size = twin_size_a(n);
    if (!same_write(content, n, FRAME) || !same_write(content, n, size) || !same_write(content, n, size - 1)) return 0;
    if (kusikhut_write_a(content, n, frame, size, r) != 0) return 0;
    if (!same_read(frame, size, FRAME) || !same_read(frame, size, n) || !same_read(frame, size, n - 1)) return 0;
    for (size_t len = 0; len < size; len++)
        if (!same_read(frame, len, FRAME)) return 0;
    for (size_t i = 0; i < size; i++) {
        uint8_t bit = (uint8_t)(1u << next_number(&state) % 8);
        frame[i] ^= bit;
        if (!same_read(frame, size, FRAME)) return 0;
        frame[i] ^= bit;
    }
    return 1;
}

int twins_agree(void) {
    uint8_t content[ADDRESSES + LONGEST + 1], frame[ADDRESSES + FRAME];
    fill(content, sizeof content);
    if (!same_checks() || !same_write(content, 9, FRAME) || !same_write(content, LONGEST + 1, FRAME)) return 0;
    for (size_t n = 10; n <= LONGEST; n++)
        if (!same_frames(content + n % ADDRESSES, n, frame + n * 7 % ADDRESSES)) return 0;
    return 1;
}
