/* See mending_rows.h. Each call of a row with wrong bytes takes the next word, which has other bytes wrong by other
 * values. All sides are given what was received, and leave the word without the header in a memory of their own. Ours
 * and the twin copy it there themselves; for libfec, which mends in place, the row does: the copy counts for all. */
#include "mending_rows.h"
#include "../include/kusikhut.h"
#include "correction_twin.h"
#include "mending_twin.h"
#include "numbers.h"
#include "sixteen_twin.h"
#include "twins.h"
#include <string.h>
#ifdef LIBFEC
#include <fec.h>
#endif

enum { LONGEST = 223, SHORT = 20, CHECKS = 32, HEADER = 2, BEHIND = HEADER + CHECKS, ROOM = 290 + BEHIND };

/* The length bytes of format A for the longest frame and the short one. */
enum { L_LONGEST = 196, L_SHORT = 15 };

enum { WORDS = 64, CALLS = 400000 };

typedef struct {
    uint8_t out[ROOM];
    uint64_t results[1];
    size_t turn;
} Side;

static Side ours, other;
static uint8_t proposal[LONGEST + CHECKS], sent52[WORDS][SHORT + CHECKS];
static uint8_t clean[1][LONGEST + BEHIND], wrong52[WORDS][SHORT + BEHIND];

/* Of the longest words, what was sent and what was received with none, one, 8 and 16 bytes wrong. */
static uint8_t sent0[WORDS][LONGEST + CHECKS], sent1[WORDS][LONGEST + CHECKS], sent8[WORDS][LONGEST + CHECKS];
static uint8_t sent16[WORDS][LONGEST + CHECKS], wrong0[WORDS][LONGEST + BEHIND], wrong1[WORDS][LONGEST + BEHIND];
static uint8_t wrong8[WORDS][LONGEST + BEHIND], wrong16[WORDS][LONGEST + BEHIND];

static uint32_t state = 20261115;
static volatile uint64_t sink;

static uint32_t below(uint32_t n) { return next_number(&state) % n; }

/* What was received of the next word. */
#define NEXT(side, words) words[side.turn++ % (sizeof words / sizeof *words)], sizeof *words

/* Kept apart, so that no call is optimised away or mixed with another. */
#define BOTH(name, call, words) \
    __attribute__((noinline)) void mending_##name##_ours(void) { \
        sink += kusikhut_mending_##call(NEXT(ours, words), ours.out, ROOM, ours.results); \
    } \
    __attribute__((noinline)) void mending_##name##_other(void) { \
        sink += twin_mending_##call(NEXT(other, words), other.out, ROOM, other.results); \
    }
BOTH(one255, propose_one_a, wrong1)
BOTH(one52, propose_one_a, wrong52)
BOTH(clean, propose_one_a, clean)
BOTH(propose0, propose_a, wrong0)
BOTH(propose1, propose_a, wrong1)
BOTH(propose8, propose_a, wrong8)
BOTH(propose16, propose_a, wrong16)

__attribute__((noinline)) void mending_judge_ours(void) {
    sink += kusikhut_mending_judge_a(proposal, sizeof proposal, clean[0], sizeof clean[0], ours.results);
}

static void without_header(const uint8_t *received, size_t size, uint8_t *word) {
    memcpy(word, received, size);
    memcpy(word + size, received + size + HEADER, CHECKS);
}

#ifdef LIBFEC
#define BY_LIBFEC(words) \
    __attribute__((noinline)) void mending_##words##_libfec(void) { \
        without_header(words[other.turn++ % WORDS], LONGEST, other.out); \
        sink += (uint64_t)decode_rs_8(other.out, NULL, 0, 0); \
    }
BY_LIBFEC(wrong0)
BY_LIBFEC(wrong1)
BY_LIBFEC(wrong8)
BY_LIBFEC(wrong16)
#endif

static void fill(uint8_t *s, size_t n) {
    for (size_t i = 0; i < n; i++) s[i] = (uint8_t)below(256);
}

static uint8_t not_zero(void) { return (uint8_t)(1 + below(255)); }

/* A frame with this length byte, otherwise of other bytes, the header and the check bytes. The frame's own checks are
 * not looked at. The check bytes may be those of another length byte, or of a byte in the zero fill before it: the one
 * wrong byte is none that is mended then. */
static void another(uint8_t *received, uint8_t l, size_t size, int wrong_before) {
    uint8_t block[LONGEST] = {0}, *frame = block + LONGEST - size;
    uint64_t results[1];
    fill(frame, size);
    frame[0] = l;
    memcpy(received, frame, size);
    memcpy(received + size, "\x21\x04", HEADER);
    if (wrong_before) block[below((uint32_t)(LONGEST - size + 1))] ^= not_zero();
    twin_correction_check_bytes(block, LONGEST, received + size + HEADER, CHECKS, results);
}

/* A word, and what was received of it with so many bytes wrong: not the first, and none of the header. */
static void damaged_word(uint8_t *received, uint8_t l, size_t size, uint8_t *sent, int wrong) {
    uint8_t taken[LONGEST + CHECKS] = {0};
    another(received, l, size, 0);
    without_header(received, size, sent);
    while (wrong > 0) {
        size_t place = 1 + below((uint32_t)size + CHECKS - 1);
        if (taken[place]++) continue;
        received[place < size ? place : place + HEADER] ^= not_zero();
        wrong--;
    }
}

void mending_prepare(void) {
    twin_mending_init();
    twin_sixteen_init();
    ours.turn = other.turn = 0;
    another(clean[0], L_LONGEST, LONGEST, 0);
    without_header(clean[0], LONGEST, proposal);
    for (size_t i = 0; i < WORDS; i++) {
        damaged_word(wrong1[i], L_LONGEST, LONGEST, sent1[i], 1);
        damaged_word(wrong52[i], L_SHORT, SHORT, sent52[i], 1);
    }
    for (size_t i = 0; i < WORDS; i++) {
        damaged_word(wrong0[i], L_LONGEST, LONGEST, sent0[i], 0);
        damaged_word(wrong8[i], L_LONGEST, LONGEST, sent8[i], 8);
        damaged_word(wrong16[i], L_LONGEST, LONGEST, sent16[i], 16);
    }
}

/* Mostly a frame that is short enough, with no byte wrong, one, or some; sometimes any bytes. */
static void another_received(uint8_t *received, int b) {
    uint8_t l = (uint8_t)(below(8) ? 12 + below(b ? 211 : 185) : below(256));
    size_t size = b ? l + 1u : twin_size_a(l);
    fill(received, ROOM);
    received[0] = l;
    if (l < 10 || size > LONGEST) return;
    another(received, l, size, below(8) == 0);
    for (uint32_t k = below(2) ? below(3) : below(20); k > 0; k--)
        received[below((uint32_t)size + BEHIND)] ^= not_zero();
}

typedef uint8_t Proposing(const uint8_t *, size_t, uint8_t *, size_t, uint64_t *);
static const struct {
    Proposing *ours, *twin;
    int b;
} calls[] = {
    {kusikhut_mending_propose_one_a, twin_mending_propose_one_a, 0},
    {kusikhut_mending_propose_one_b, twin_mending_propose_one_b, 1},
    {kusikhut_mending_propose_a, twin_mending_propose_a, 0},
    {kusikhut_mending_propose_b, twin_mending_propose_b, 1},
};

static int same_call(void) {
    uint8_t received[ROOM], before[ROOM];
    uint32_t i = below(sizeof calls / sizeof *calls);
    another_received(received, calls[i].b);
    memcpy(before, received, ROOM);
    size_t n = below(8) ? ROOM : below(ROOM), room = below(8) ? ROOM : below(ROOM);
    uint8_t x = calls[i].ours(received, n, ours.out, room, ours.results);
    uint8_t y = calls[i].twin(received, n, other.out, room, other.results);
    return x == y && memcmp(&ours, &other, sizeof ours) == 0 && memcmp(received, before, ROOM) == 0;
}

/* Whether the calls of a row leave what was sent, word by word. The words' turns begin with the first. */
#define LEAVES(side, call, sent) (mending_##call(), memcmp(side.out, sent, sizeof sent) == 0)
#define BOTH_LEAVE(call, sent) (LEAVES(ours, call##_ours, sent) && LEAVES(other, call##_other, sent))
#define EACH_LEAVES(leave) \
    for (size_t i = 0; i < WORDS; i++) \
        if (!(leave)) return 0;

/* Each row does what its name says, or its time says nothing. */
static int rows_hold(void) {
    EACH_LEAVES(BOTH_LEAVE(one255, sent1[i]))
    EACH_LEAVES(BOTH_LEAVE(one52, sent52[i]))
    EACH_LEAVES(BOTH_LEAVE(propose0, sent0[i]))
    EACH_LEAVES(BOTH_LEAVE(propose1, sent1[i]))
    EACH_LEAVES(BOTH_LEAVE(propose8, sent8[i]))
    EACH_LEAVES(BOTH_LEAVE(propose16, sent16[i]))
#ifdef LIBFEC
    EACH_LEAVES(LEAVES(other, wrong0_libfec, sent0[i]))
    EACH_LEAVES(LEAVES(other, wrong1_libfec, sent1[i]))
    EACH_LEAVES(LEAVES(other, wrong8_libfec, sent8[i]))
    EACH_LEAVES(LEAVES(other, wrong16_libfec, sent16[i]))
#endif
    if (!BOTH_LEAVE(clean, proposal)) return 0;
    return kusikhut_mending_judge_a(proposal, sizeof proposal, clean[0], sizeof clean[0], ours.results) == 0 &&
           ours.results[0] == 0;
}

int mending_same(void) {
    fill(ours.out, sizeof ours.out);
    other = ours;
    for (int i = 0; i < CALLS; i++)
        if (!same_call()) return 0;
    mending_prepare();
    return rows_hold();
}
