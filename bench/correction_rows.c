/* See correction_rows.h. Nobody is given the zero fill before a word: libfec is told how much it would be. */
#include "correction_rows.h"
#include "../include/kusikhut.h"
#include "correction_twin.h"
#include "numbers.h"
#include "twins.h"
#include <string.h>
#ifdef LIBFEC
#include <fec.h>
#endif

/* A content of 196 bytes is a frame of 223, the longest word there is. */
enum { LONGEST = 223, CONTENT = 196, FRAME = 290, ROOM = FRAME + KUSIKHUT_CORRECTION_SIZE, CALLS = 100000 };

typedef struct {
    uint8_t out[ROOM];
    uint64_t results[1];
} Side;

static Side ours, other;
static uint8_t word[FRAME], frame[FRAME];
static uint32_t state = 20261115;
static volatile uint64_t sink;

static uint32_t below(uint32_t n) { return next_number(&state) % n; }

/* Kept apart, so that no call is optimised away or mixed with another. */
#define BOTH(name, call, from, n) \
    __attribute__((noinline)) void correction_##name##_ours(void) { \
        sink += kusikhut_correction_##call(from, n, ours.out, ROOM, ours.results); \
    } \
    __attribute__((noinline)) void correction_##name##_other(void) { \
        sink += twin_correction_##call(from, n, other.out, ROOM, other.results); \
    }
BOTH(checks20, check_bytes, word, 20)
BOTH(checks223, check_bytes, word, LONGEST)
BOTH(write, write_a, frame, LONGEST)

#ifdef LIBFEC
__attribute__((noinline)) void correction_checks20_libfec(void) { encode_rs_8(word, other.out, LONGEST - 20); }
__attribute__((noinline)) void correction_checks223_libfec(void) { encode_rs_8(word, other.out, 0); }
#endif

static void fill(uint8_t *s, size_t n) {
    for (size_t i = 0; i < n; i++) s[i] = (uint8_t)below(256);
}

/* A frame of other bytes in `frame`. */
static void another_frame(size_t n) {
    uint8_t content[FRAME];
    fill(content, n);
    twin_write_a(content, n, frame, FRAME);
}

void correction_prepare(void) {
    twin_correction_init();
    fill(word, sizeof word);
    another_frame(CONTENT);
}

static int same_checks(void) {
    size_t n = below(8) ? below(LONGEST + 1) : below(FRAME), room = below(8) ? ROOM : below(40);
    fill(word, n);
    uint8_t x = kusikhut_correction_check_bytes(word, n, ours.out, room, ours.results);
    uint8_t y = twin_correction_check_bytes(word, n, other.out, room, other.results);
    return x == y;
}

/* Mostly a whole frame, or one with a bit turned or with fewer bytes; room for it, or about that. */
static int same_write(void) {
    another_frame(10 + below(below(4) ? CONTENT - 9 : 246));
    if (below(4) == 0) frame[below(below(2) ? FRAME : 20)] ^= (uint8_t)(1u << below(8));
    size_t n = below(4) ? FRAME : below(FRAME), room = below(4) ? ROOM : below(ROOM);
    uint8_t x = kusikhut_correction_write_a(frame, n, ours.out, room, ours.results);
    uint8_t y = twin_correction_write_a(frame, n, other.out, room, other.results);
    return x == y;
}

int correction_same(void) {
    fill(ours.out, sizeof ours.out);
    other = ours;
    for (int i = 0; i < CALLS; i++)
        if (!same_checks() || !same_write() || memcmp(&ours, &other, sizeof ours) != 0) return 0;
    correction_prepare();
    return 1;
}
